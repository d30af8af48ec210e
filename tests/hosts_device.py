"""The block device, with clients that nobody here wrote: nbdinfo, nbdcopy, fio, and a filesystem made and checked by e2fsprogs."""
import json
import os
import signal
import subprocess
import time

from rig import PLUGIN, Checks, Rig
import calls
from layout import TOP

SHAPE = 192, 16, 4096
CAPACITY = SHAPE[0] * SHAPE[1] * SHAPE[2]
FILES = 300
HOLES = 16, 8, 320


class Device:
    """nbdkit over the rig's drive, at a socket in its folder."""

    def __init__(self, rig, **other):
        self.rig, self.socket = rig, rig.folder / f"socket-{time.monotonic_ns()}"
        self.uri = f"nbd+unix:///?socket={self.socket}"
        self.log = rig.folder / f"{self.socket.name}.log"
        ready = rig.folder / f"{self.socket.name}.pid"  # written once connections are taken
        words = {"image": rig.image, "secret": rig.present, "counter": rig.counter, "old-secret": rig.old, **other}
        with open(self.log, "w") as log:
            self.running = subprocess.Popen(["nbdkit", "-f", "-P", ready, "-U", self.socket, PLUGIN, *(f"{key}={value}" for key, value in words.items() if value)], stdout=log, stderr=log)
        while not ready.exists() and self.running.poll() is None:
            time.sleep(0.01)

    def __enter__(self):
        return self

    def __exit__(self, *why):
        self.end(signal.SIGTERM)

    def end(self, how):
        if self.running.poll() is None:
            self.running.send_signal(how)
        return self.running.wait()

    def said(self, words):
        return words in self.log.read_text()

    def wait_for(self, words, seconds=60):
        until = time.monotonic() + seconds
        while not self.said(words) and time.monotonic() < until and self.running.poll() is None:
            time.sleep(0.02)
        return self.said(words)


def ran(*words, where=None):
    return subprocess.run([str(word) for word in words], cwd=where, capture_output=True, text=True, env={**os.environ, "PATH": os.environ["PATH"] + ":/sbin:/usr/sbin"})


def fio(device, name, *words):
    return ran("fio", f"--name={name}", "--ioengine=nbd", f"--uri={device.uri}", "--bs=4k", "--rw=randwrite", "--size=8m", "--iodepth=4",
               "--verify=crc32c", "--do_verify=1", "--verify_fatal=1", "--fsync=256", "--randseed=7", *words, where=device.rig.folder)


def trim(device, offset, length, at_once):
    """One request behind the other, and no flush."""
    return ran("fio", "--name=trim", "--ioengine=nbd", f"--uri={device.uri}", "--rw=trim", f"--offset={offset}", f"--size={length}", f"--bs={at_once}", where=device.rig.folder)


def folder_of_files(rig):
    made = rig.folder / "files"
    for number in range(FILES):
        path = made / f"{number % 7}" / f"weld-{number}.dat"
        path.parent.mkdir(parents=True, exist_ok=True)
        path.write_bytes(rig.source.randbytes(rig.source.choice((0, 1, 700, 4096, 20000))))
    return made


def contents(folder):
    return {str(path.relative_to(folder)): path.read_bytes() for path in folder.rglob("*") if path.is_file() and "lost+found" not in path.parts}


def filesystem(checks, rig):
    """Made by mke2fs, copied in, copied out again by another server, checked, and its files taken out."""
    files, plain, back, out = folder_of_files(rig), rig.folder / "plain", rig.folder / "back", rig.folder / "out"
    plain.write_bytes(b"")
    os.truncate(plain, CAPACITY)
    made = ran("mke2fs", "-q", "-t", "ext4", "-d", files, plain)
    checks.same(made.returncode, 0, f"mke2fs: {made.stderr}")
    with Device(rig) as device:
        told = json.loads(ran("nbdinfo", "--json", device.uri).stdout)["exports"][0]
        checks.same((told["export-size"], told["can_trim"]), (CAPACITY, rig.drive.version == 2), "nbdinfo tells the capacity, and trim on version 2 alone")
        copied = ran("nbdcopy", "--flush", plain, device.uri)
        checks.same(copied.returncode, 0, f"nbdcopy in: {copied.stderr}")
    with Device(rig) as device:
        copied = ran("nbdcopy", device.uri, back)
        checks.same(copied.returncode, 0, f"nbdcopy out: {copied.stderr}")
    checks.that(plain.read_bytes() == back.read_bytes(), "what was copied in is copied out")
    checked = ran("e2fsck", "-fn", back)
    checks.same(checked.returncode, 0, f"e2fsck: {checked.stdout}")
    out.mkdir()
    ran("debugfs", "-R", f"rdump / {out}", back)
    checks.same(len(contents(out)), FILES, "as many files")
    checks.that(contents(out) == contents(files), "the files are equal")
    sample = plain.read_bytes()[4096:12288]
    checks.that(sample.strip(b"\0") and sample not in rig.image.read_bytes(), "the image doesn't show them")


def changing(checks, rig):
    """Verified writes, then trims and the same while the secret is changed; the tool agrees afterwards."""
    with Device(rig) as device:
        wrote = fio(device, "steady")
        checks.same(wrote.returncode, 0, f"fio: {wrote.stdout[-600:]}{wrote.stderr}")
    fresh = rig.secret()
    with Device(rig, **{"new-secret": fresh}) as device:
        freed = trim(device, 6 << 20, 2 << 20, 1 << 16)
        checks.same(freed.returncode, 0, f"trim while the secret is changed: {freed.stderr}")
        wrote = fio(device, "changing", "--bs=2k", "--size=4m")
        checks.same(wrote.returncode, 0, f"fio while the secret is changed: {wrote.stdout[-600:]}{wrote.stderr}")
        checks.that(device.wait_for("the change is finished"), "the change is finished")
        checks.that(device.said("sweep: "), "its progress is in the log")
    rig.present = fresh
    told = rig.tool("report", rig.image, *rig.keys())
    checks.that(told.returncode == 0 and b" left=0 " in told.stdout and b"still needed" not in told.stderr, f"the tool reports: {told.stdout} {told.stderr}")
    held = rig.tool("read", rig.image, *rig.keys(), "--offset", 6 << 20, "--length", 2 << 20).stdout
    checks.same(held, bytes(2 << 20), "what was trimmed reads as zero")


def damaged(checks, rig):
    """One flipped bit: EIO, and the refusal's line in the log."""
    whole = rig.image.read_bytes()
    at = len(whole) - CAPACITY + 5 * 4096 + 9
    rig.put_back(whole[:at] + bytes([whole[at] ^ 16]) + whole[at + 1:])
    with Device(rig) as device:
        copied = ran("nbdcopy", device.uri, rig.folder / "lost")
        checks.that(copied.returncode != 0 and "Input/output error" in copied.stderr, f"a flipped bit: {copied.returncode} {copied.stderr}")
        checks.that(device.said("refused=7 class=altered place=flake 0 5"), "the refusal's line is in the log")
        read = fio(device, "elsewhere", "--rw=randread", "--offset=4m", "--size=2m", "--verify=0")
        checks.same(read.returncode, 0, f"other nuggets are read: {read.stderr}")
    rig.put_back(whole)


def ended(checks, rig):
    """Kill -9 behind a flush: it is served again. With writes that weren't flushed the volume is ahead of its counter."""
    device = Device(rig)
    wrote = fio(device, "flushed", "--size=1m", "--verify=0", "--end_fsync=1")
    device.end(signal.SIGKILL)
    checks.same(wrote.returncode, 0, f"fio: {wrote.stderr}")
    checks.same(rig.tool("report", rig.image, *rig.keys()).returncode, 0, "ended behind a flush")
    device = Device(rig)
    ran("nbdcopy", rig.folder / "plain", device.uri)
    device.end(signal.SIGKILL)
    checks.same(rig.tool("report", rig.image, *rig.keys()).returncode, 6, "ended with writes that weren't flushed")
    refused = Device(rig)
    checks.that(refused.running.wait() != 0 and refused.said("refused=6 class=key"), "it isn't served")
    with Device(rig, ahead="true") as device:
        copied = ran("nbdcopy", device.uri, rig.folder / "again")
        checks.same(copied.returncode, 0, f"ahead of the counter: {copied.stderr}")
    checks.that((rig.folder / "again").read_bytes() == (rig.folder / "plain").read_bytes(), "what was written is there")
    checks.same(rig.tool("report", rig.image, *rig.keys()).returncode, 0, "the counter was moved")


def swept_and_ended(checks, rig):
    """A server that ends in the middle of a change; the next one goes on with the same two secrets. A second one is refused."""
    fresh = rig.secret()
    device = Device(rig, **{"new-secret": fresh})
    device.wait_for("sweep: ")
    second = Device(rig, **{"new-secret": fresh})
    checks.that(second.running.wait() != 0 and second.said("is in use"), "a second server is refused")
    device.end(signal.SIGTERM)
    with Device(rig, **{"new-secret": fresh}) as device:
        checks.that(device.wait_for("the change is finished") or rig.image.read_bytes()[5] == 0, "the change goes on and is finished")
    rig.present = fresh
    checks.same(rig.tool("report", rig.image, *rig.keys()).returncode, 0, "under the new secret alone")


def spent(checks):
    """A counter at its top: a write and a trim are ENOSPC, and what is there can be read."""
    with Rig("spent") as rig:
        rig.counter.write_text(f"{TOP - 2}\n")
        rig.present, rig.old = rig.secret(), None
        made = rig.tool("format", rig.image, *rig.keys(), "--nuggets", 2, "--flakes", 4, "--size", 64, "--version", 2)
        last = rig.tool("write", rig.image, *rig.keys(), data=b"weld" * 128)
        checks.same((made.returncode, last.returncode, rig.counter.read_text()), (0, 0, f"{TOP}\n"), f"a last write: {made.stderr} {last.stderr}")
        plain, back = rig.folder / "plain", rig.folder / "back"
        plain.write_bytes(bytes(range(256)) * 2)
        with Device(rig) as device:
            copied = ran("nbdcopy", plain, device.uri)
            checks.that(copied.returncode != 0 and "No space left on device" in copied.stderr, f"a counter at its top: {copied.stderr}")
            checks.that(device.said("refused=13 class=spent"), "the refusal's line is in the log")
            freed = trim(device, 0, 128, 128)
            checks.that(freed.returncode != 0 and "No space left on device" in freed.stdout + freed.stderr, f"a trim then: {freed.stdout} {freed.stderr}")
            copied = ran("nbdcopy", device.uri, back)
            checks.same((copied.returncode, back.read_bytes()), (0, b"weld" * 128), f"it is read: {copied.stderr}")


def filled(checks, rig):
    """Flakes of 320 bytes, so that no block of a client's ends where a flake does; all of them written."""
    n, p, f = HOLES
    plain = rig.folder / "plain"
    plain.write_bytes(rig.source.randbytes(n * p * f))
    with Device(rig) as device:
        copied = ran("nbdcopy", "--flush", plain, device.uri)
        checks.same(copied.returncode, 0, f"nbdcopy in: {copied.stderr}")
    return plain.read_bytes()


def held_flakes(rig):
    """As the auditor's page tells them, counted over all nuggets."""
    page = json.loads(rig.tool("audit", rig.image, *rig.keys(), "--json").stdout)
    return {nugget["nugget"] * HOLES[1] + flake for nugget in page["nuggets"] for flake in nugget["flakes"]}


def whole_in(offset, length):
    n, p, f = HOLES
    return {at for at in range(n * p) if offset <= at * f and (at + 1) * f <= offset + length}


def without(data, flakes):
    return b"".join(bytes(HOLES[2]) if at in flakes else data[at * HOLES[2]:(at + 1) * HOLES[2]] for at in range(HOLES[0] * HOLES[1]))


def discarded(drive, volume, flakes):
    """The second program's discards, nugget by nugget."""
    for n in sorted({at // drive.p for at in flakes}):
        inside = [at % drive.p for at in flakes if at // drive.p == n]
        done = calls.discard(drive, volume, n, min(inside), len(inside))
        drive, volume = done.drive, done.volume
    return drive, volume


def trimmed(checks):
    """Three trims: the whole flakes of each are freed as the second program frees them, and the rest of the range stays."""
    with Rig("trimmed") as rig:
        rig.format(*HOLES, 2)
        data = filled(checks, rig)
        before = rig.image.read_bytes()
        drive, volume = calls.mount(before, rig.present.read_bytes(), bytes(32), int(rig.counter.read_text())).drive, before
        freed = [whole_in(at, 5000) for at in (10000, 15000, 20000)]
        for flakes in freed:
            drive, volume = discarded(drive, volume, flakes)
        device = Device(rig)
        done = trim(device, 10000, 15000, 5000)
        checks.same(done.returncode, 0, f"trim: {done.stdout[-600:]}{done.stderr}")
        device.end(signal.SIGKILL)
        checks.that(rig.image.read_bytes() == volume, "every byte of the image as the second program's")
        checks.same(rig.tool("report", rig.image, *rig.keys()).returncode, 6, "a trim that wasn't flushed is ahead of the counter")
        checks.same((rig.tool("report", rig.image, *rig.keys(), "--ahead").returncode, rig.counter.read_text()), (0, f"{drive.counter}\n"), "and is taken as a write is")
        checks.same(held_flakes(rig), set(range(HOLES[0] * HOLES[1])) - set().union(*freed), "they count as never written")
        with Device(rig) as device:
            copied = ran("nbdcopy", device.uri, rig.folder / "back")
            checks.that(copied.returncode == 0 and (rig.folder / "back").read_bytes() == without(data, set().union(*freed)), f"they read as zero: {copied.stderr}")


def with_holes(path, data, *holes):
    """A file that was never written there: of its holes nbdcopy makes zero requests."""
    with open(path, "wb") as out:
        for start, end in zip((0, *(end for _, end in holes)), (*(start for start, _ in holes), len(data))):
            out.seek(start)
            out.write(data[start:end])
    return path.read_bytes()


def zeroed(checks, version):
    """Zeros of a client's: freed by whole flakes where it allows a hole and the version has discard, else written."""
    with Rig(f"zeroed {version}") as rig:
        rig.format(*HOLES, version)
        every = set(range(HOLES[0] * HOLES[1]))
        for words, freed in (([], whole_in(8192, 8192) | whole_in(24576, 4096) if version == 2 else set()), (["--allocated"], set())):
            data = with_holes(rig.folder / "plain", filled(checks, rig), (8192, 16384), (24576, 28672))
            with Device(rig) as device:
                copied = ran("nbdcopy", "--flush", "--request-size=4096", *words, rig.folder / "plain", device.uri)
                checks.same(copied.returncode, 0, f"nbdcopy {words}: {copied.stderr}")
            checks.same(rig.tool("read", rig.image, *rig.keys()).stdout, data, f"version {version} {words}: what was copied in")
            checks.same(held_flakes(rig), every - freed, f"version {version} {words}: what is held")


def main():
    checks = Checks()
    for version, parts in ((1, (filesystem, ended)), (2, (filesystem, changing, damaged, ended, swept_and_ended))):
        with Rig(f"device {version}") as rig:
            rig.format(*SHAPE, version)
            for part in parts:
                part(checks, rig)
        zeroed(checks, version)
    trimmed(checks)
    spent(checks)
    checks.close()


main()
