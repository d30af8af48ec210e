"""What the tool has to hold by itself: help and usage, secrets, the counter's file, the lock, what a refusal leaves, JSON, and a program
that is ended at the worst time."""
import fcntl
import json
import signal
import subprocess
import time

from rig import BUSY, OPEN_TO_OTHERS, ROOT, SYSTEM, TOOL, USAGE, Checks, Rig
from layout import TOP

COMMANDS = "secret format info read write discard begin sweep finish report audit map export import move compare".split()


def secrets(checks):
    with Rig("secrets") as rig:
        rig.format(3, 2, 64)
        checks.same(rig.present.stat().st_size, 32, "a secret has 32 bytes")
        checks.same(rig.present.stat().st_mode & 0o777, 0o600, "a secret is its owner's alone")
        checks.same(rig.tool("secret", rig.present).returncode, SYSTEM, "a secret isn't laid over another")
        for mode, status in ((0o640, OPEN_TO_OTHERS), (0o604, OPEN_TO_OTHERS), (0o660, OPEN_TO_OTHERS), (0o400, 0), (0o600, 0)):
            rig.present.chmod(mode)
            checks.same(rig.tool("report", rig.image, *rig.keys()).returncode, status, f"a secret of mode {mode:o}")
        for length in (0, 31, 33):
            other = rig.secret()
            other.write_bytes(bytes(length))
            checks.same(rig.tool("report", rig.image, *rig.keys(secret=other)).returncode, USAGE, f"a secret of {length} bytes")
        for text in ("", "x", "-1", "1 2", "18446744073709551616"):
            rig.counter.write_text(text)
            checks.same(rig.tool("report", rig.image, *rig.keys()).returncode, USAGE, f"a counter {text!r}")


def locks(checks):
    with Rig("locks") as rig:
        rig.format(3, 2, 64)
        with open(rig.image, "rb") as other:
            fcntl.flock(other, fcntl.LOCK_EX)
            for words in (["report"], ["write"], ["format", "--force", "--nuggets", 3, "--flakes", 2, "--size", 64]):
                ran = rig.tool(words[0], rig.image, *rig.keys(), *words[1:], data=b"x")
                checks.same(ran.returncode, BUSY, f"{words[0]} of a volume in use")
                checks.that(b"in use" in ran.stderr, "it says why")
        checks.that(rig.image.read_bytes() == rig.volume, "nothing was changed")
        again = ["format", rig.image, *rig.keys(), "--nuggets", 3, "--flakes", 2, "--size", 64]
        checks.same(rig.tool(*again).returncode, USAGE, "no format over a volume")
        checks.that(rig.image.read_bytes() == rig.volume, "nothing was changed")
        checks.same(rig.tool(*again, "--force").returncode, 0, "but if that is asked for")


def helps(checks):
    everything = subprocess.run([TOOL, "--help"], capture_output=True, text=True)
    checks.that(everything.returncode == 0 and everything.stdout.count("\n") <= 24 and max(map(len, everything.stdout.split("\n"))) <= 80, "--help fits a screen")
    for name in COMMANDS:
        said = subprocess.run([TOOL, name, "--help"], capture_output=True, text=True)
        shown = said.stdout.split("\n")
        checks.that(said.returncode == 0 and len(shown) <= 24 and max(map(len, shown)) <= 80, f"{name} --help fits a screen")
        checks.that(f"    {name} " in everything.stdout, f"{name} stands in --help")
        checks.same(subprocess.run([TOOL, name], capture_output=True).returncode, USAGE, f"{name} without an image")
        checks.same(subprocess.run([TOOL, name, "x", "--nothing"], capture_output=True).returncode, USAGE, f"{name} with an option that isn't there")
    for words in ([], ["nothing"], ["read", "a", "b", "--secret", "c", "--counter", "d"], ["report", "a"], ["map", "a", "--json"],
                  ["discard", "a", "--secret", "b", "--counter", "c", "--offset", "0"], ["write", "a", "--secret", "b", "--counter", "c", "--version", "2"]):
        checks.same(subprocess.run([TOOL, *words], capture_output=True).returncode, USAGE, f"usage {words}")


def shapes(checks):
    with Rig("shapes") as rig:
        secret = rig.secret()
        for n, p, f in ((0, 1, 64), (16385, 1, 64), (1, 65, 64), (1, 0, 64), (1, 1, 96), (1, 1, 4160), (2**32 + 1, 1, 64)):
            ran = rig.tool("format", rig.image, "--secret", secret, "--counter", rig.counter, "--nuggets", n, "--flakes", p, "--size", f)
            checks.same(ran.returncode, 1, f"format {n} {p} {f}")
            checks.that(not rig.image.exists() and not rig.counter.exists(), "a refused format makes nothing")
        for version in (0, 3, 257, 65537, 65538, 2**32 + 1):
            ran = rig.tool("format", rig.image, "--secret", secret, "--counter", rig.counter, "--nuggets", 3, "--flakes", 2, "--size", 64, "--version", version)
            checks.same((ran.returncode, rig.image.exists()), (1, False), f"format of version {version}")


def ciphers(checks):
    """ChaCha20 if nothing is said; told with a secret and without one, in both states; no third one."""
    for words, byte, cipher in (([], 0, "chacha20"), (["--cipher", "chacha20"], 0, "chacha20"), (["--cipher", "aes"], 16, "aes")):
        with Rig(f"ciphers {words}") as rig:
            rig.present, rig.old = rig.secret(), None
            checks.same(rig.tool("format", rig.image, *rig.keys(), "--nuggets", 3, "--flakes", 2, "--size", 64, *words).returncode, 0, f"format {words}")
            checks.same(rig.image.read_bytes()[5], byte, f"the head of {words}")
            for keys in ([], rig.keys()):
                info = json.loads(rig.tool("info", rig.image, *keys, "--json").stdout)
                checks.same((info["cipher"], info["state"]), (cipher, "steady"), f"info --json of {words}")
            rig.old, rig.present = rig.present, rig.secret()
            checks.same(rig.tool("begin", rig.image, *rig.keys(**{"secret": rig.old, "old-secret": None, "new-secret": rig.present})).returncode, 0, f"begin {words}")
            info = json.loads(rig.tool("info", rig.image, "--json").stdout)
            checks.same((info["cipher"], info["state"]), (cipher, "changing"), f"info --json of {words}, changing")
    with Rig("no cipher") as rig:
        rig.present, rig.old = rig.secret(), None
        ran = rig.tool("format", rig.image, *rig.keys(), "--nuggets", 3, "--flakes", 2, "--size", 64, "--cipher", "rot13")
        checks.that(ran.returncode == USAGE and b"rot13" in ran.stderr and not rig.image.exists(), "another cipher is bad usage")


def versions(checks):
    """1 if nothing is said; told with a secret and without one; a discard for version 2 alone."""
    for words, version, length in (([], 1, 862), (["--version", 1], 1, 862), (["--version", 2], 2, 886)):
        with Rig(f"versions {words}") as rig:
            rig.present, rig.old = rig.secret(), None
            checks.same(rig.tool("format", rig.image, *rig.keys(), "--nuggets", 3, "--flakes", 2, "--size", 64, *words).returncode, 0, f"format {words}")
            checks.same((rig.image.stat().st_size, rig.image.read_bytes()[3]), (length, version), f"the volume of {words}")
            for keys in ([], rig.keys()):
                checks.that(f"version   {version}\n" in rig.tool("info", rig.image, *keys).stdout.decode(), f"info tells version {version}")
                checks.same(json.loads(rig.tool("info", rig.image, *keys, "--json").stdout)["version"], version, f"info --json tells version {version}")
            rig.tool("write", rig.image, *rig.keys(), data=b"x" * 384)
            before = rig.image.read_bytes()
            ran = rig.tool("discard", rig.image, *rig.keys(), "--offset", 10, "--length", 300)
            if version == 1:
                checks.that(ran.returncode == 9 and b"A volume of version 1 has no discard." in ran.stderr, f"no discard on version 1: {ran.stderr}")
                checks.that(rig.image.read_bytes() == before and rig.counter.read_text() == "2\n", "it changes nothing")
            else:
                freed(checks, rig, ran)


def freed(checks, rig, ran):
    """Flakes of 64: bytes 10 to 309 hold the flakes 1 to 3 whole, of two nuggets."""
    checks.same((ran.returncode, ran.stdout), (0, b"Bytes 64 to 255 read as zero now.\n"), "a discard tells what it freed")
    checks.same(rig.counter.read_text(), "4\n", "a change a nugget")
    checks.same(rig.tool("read", rig.image, *rig.keys()).stdout, b"x" * 64 + bytes(192) + b"x" * 128, "the rest of the range stays")
    page = json.loads(rig.tool("audit", rig.image, *rig.keys(), "--json").stdout)
    checks.same([nugget["flakes"] for nugget in page["nuggets"]], [[0], [], [0, 1]], "they count as never written")
    for offset, length, said in ((64, 192, b"Bytes 64 to 255 read as zero now.\n"), (1, 126, b"No whole flake lies in this range: nothing was freed.\n")):
        ran = rig.tool("discard", rig.image, *rig.keys(), "--offset", offset, "--length", length)
        checks.same((ran.returncode, ran.stdout, rig.counter.read_text()), (0, said, "4\n"), f"a discard of {length} at {offset} that clears nothing")


def undone(checks):
    """What is refused leaves no file that wasn't there, and one that was as it was."""
    with Rig("undone") as rig:
        rig.format(2, 4, 64)
        key, top, made = rig.secret("--xts"), rig.folder / "top", rig.folder / "made"
        key.write_bytes(key.read_bytes()[:32] * 2)
        top.write_text(f"{TOP}\n")
        format_it = ["format", made, "--secret", rig.present, "--counter", top, "--nuggets", 2, "--flakes", 4, "--size", 64]
        export_it = ["export", rig.image, *rig.keys(), "--xts-key", key, "--to", made]
        last, spent = rig.folder / "last", rig.folder / "spent"
        last.write_text(f"{TOP - 1}\n")
        checks.same(rig.tool("format", spent, "--secret", rig.present, "--counter", last, *format_it[6:]).returncode, 0, "a drive at the counter's top")
        move_it = ["move", spent, made, "--secret", rig.present, "--counter", last]
        for words, number in ((format_it, 13), (export_it, 10), (move_it, 13)):
            checks.same((rig.tool(*words).returncode, made.exists()), (number, False), f"a refused {words[0]} makes nothing")
            for before in (b"", b"short", rig.source.randbytes(99999)):
                made.write_bytes(before)
                checks.same(rig.tool(*words, "--force").returncode, number, f"a refused {words[0]} over {len(before)} bytes")
                checks.that(made.read_bytes() == before, f"a refused {words[0]} leaves {len(before)} bytes")
            checks.same(rig.tool(*words).returncode, USAGE, f"{words[0]} over what isn't empty")
            checks.that(made.read_bytes() == before, f"{words[0]} lays over nothing unasked")
            made.unlink()
        checks.same(top.read_text(), f"{TOP}\n", "the counter stays")
        key.write_bytes(rig.source.randbytes(64))
        for before in (b"short", rig.source.randbytes(99999)):
            made.write_bytes(before)
            checks.same((rig.tool(*export_it, "--force").returncode, made.stat().st_size), (0, 512), f"an export over {len(before)} bytes")
        checks.same(rig.tool(*export_it[:-1], rig.image, "--force").returncode, BUSY, "an export over the drive itself")
        checks.that(rig.image.read_bytes() == rig.volume, "the drive stays")
        checks.same(rig.tool("import", rig.image, *rig.keys(), "--xts-key", key, "--from", rig.folder / "none").returncode, SYSTEM, "an import of nothing")
        for mode, status in ((0o640, OPEN_TO_OTHERS), (0o600, 0)):
            key.chmod(mode)
            checks.same(rig.tool("import", rig.image, *rig.keys(), "--xts-key", key, "--from", made).returncode, status, f"a key of mode {mode:o}")
        checks.same(rig.tool("export", rig.image, *rig.keys(), "--xts-key", rig.present, "--to", rig.folder / "none").returncode, USAGE, "a key of 32 bytes")


def moves(checks):
    """Up and down again. A freed flake holds version 2 until its nugget is rekeyed."""
    with Rig("moves") as rig:
        rig.format(3, 2, 64)
        first, up, down = rig.image, rig.folder / "up", rig.folder / "down"
        contents = rig.source.randbytes(384)
        rig.tool("write", first, *rig.keys(), data=contents)
        before = first.read_bytes()
        checks.same((rig.tool("move", first, first, *rig.keys(), "--force").returncode, first.read_bytes()), (BUSY, before), "a move into the drive itself")
        first.write_bytes(before[:478] + bytes([before[478] ^ 1]) + before[479:])
        ran = rig.tool("move", first, up, *rig.keys())
        checks.that(ran.returncode == 7 and b"place=flake 0 0\n" in ran.stderr and not up.exists(), f"an altered flake, which no mount looks at: {ran.stderr}")
        first.write_bytes(before)
        up.write_bytes(b"x")
        checks.same((rig.tool("move", first, up, *rig.keys()).returncode, up.read_bytes()), (USAGE, b"x"), "a move lays over nothing unasked")
        checks.same((rig.tool("move", first, up, *rig.keys(), "--force").returncode, up.stat().st_size), (0, 886), "but if that is asked for")
        checks.same((first.read_bytes(), rig.counter.read_text()), (before, "3\n"), "the image that was left, and the counter")
        checks.same(rig.tool("read", first, *rig.keys(), "--ahead").returncode, 6, "it isn't ahead")
        checks.same(rig.tool("discard", up, *rig.keys(), "--offset", 192, "--length", 64).returncode, 0, "the second has discard")
        ran = rig.tool("move", up, down, *rig.keys())
        checks.same((ran.returncode, down.exists(), rig.counter.read_text()), (16, False, "4\n"), "a freed flake holds it")
        checks.that(b"the lowest such nugget is 1, bytes 128 to 255\n" in ran.stderr and b"Then move again." in ran.stderr, f"it tells which: {ran.stderr}")
        rig.tool("write", up, *rig.keys(), "--offset", 192, data=bytes(64))
        checks.same((rig.tool("move", up, down, *rig.keys()).returncode, down.stat().st_size), (0, 862), "down, once its nugget is rekeyed")
        checks.same(rig.tool("read", down, *rig.keys()).stdout, contents[:192] + bytes(64) + contents[256:], "the contents")


def unmoved(checks):
    """Ended before its counter is kept, or without room for that: the first is the drive still, and the second is ahead."""
    with Rig("unmoved") as rig:
        env = {**cut_library(rig), "CUT": "before", "CUT_AT": "1"}
        rig.format(3, 2, 64)
        second = rig.folder / "second"
        second.write_bytes(bytes(99999))
        checks.same(rig.tool("move", rig.image, second, *rig.keys(), "--force", env=env).returncode, -signal.SIGKILL, "the move was ended")
        checks.same(second.stat().st_size, 886, "the second is settled before the counter is kept")
        for image, status in ((rig.image, 0), (second, 6)):
            checks.same(rig.tool("report", image, *rig.keys()).returncode, status, f"a mount of {image.name}")
        (rig.folder / "counter.new").unlink()
        (rig.folder / "counter.new").mkdir()
        ran = rig.tool("move", rig.image, second, *rig.keys(), "--force")
        checks.that(ran.returncode == SYSTEM and b"the one that mounts is the drive" in ran.stderr and b"stale" not in ran.stderr, f"no counter is kept: {ran.stderr}")
        (rig.folder / "counter.new").rmdir()
        checks.same(rig.tool("report", second, *rig.keys(), "--ahead").returncode, 0, "ahead of the counter")
        checks.same(rig.tool("report", rig.image, *rig.keys()).returncode, 6, "the first is stale then")


def cut_library(rig):
    shared = rig.folder / "cut.so"
    subprocess.run(["gcc", "-shared", "-fPIC", "-o", shared, ROOT / "tests/cut.c", "-ldl"], check=True)
    return {"LD_PRELOAD": str(shared)}


def swept(rig, at, cut, env):
    """A sweep of all that is ended where the counter is kept for the at-th time."""
    ran = rig.tool("sweep", rig.image, *rig.keys(), env={**env, "CUT": cut, "CUT_AT": str(at)})
    return ran.returncode == -signal.SIGKILL


def ended(checks):
    """Kill -9 after each sweep: a mount works. Between the sync and the counter: 6, and with --ahead it works."""
    with Rig("ended") as rig:
        env = cut_library(rig)
        rig.format(12, 2, 64)
        rig.tool("write", rig.image, *rig.keys(), data=rig.source.randbytes(900))
        fresh = rig.secret()
        rig.tool("begin", rig.image, *rig.keys(), "--new-secret", fresh)
        rig.present, rig.old = fresh, rig.present
        for nugget in range(6):
            checks.that(swept(rig, 1, "after", env), "the sweep was ended")
            told = rig.tool("report", rig.image, *rig.keys())
            checks.that(told.returncode == 0 and f"moved={nugget + 1} " .encode() in told.stdout, f"ended after sweep {nugget}: {told.stderr!r}")
        checks.that(swept(rig, 2, "before", env), "the sweep was ended")
        checks.same(rig.tool("report", rig.image, *rig.keys()).returncode, 6, "ended between the sync and the counter")
        checks.same(rig.tool("report", rig.image, *rig.keys(), "--ahead").returncode, 0, "ahead of the counter")
        checks.same(rig.tool("sweep", rig.image, *rig.keys(), "--ahead").returncode, 0, "the sweep goes on")
        checks.same(rig.tool("finish", rig.image, *rig.keys()).returncode, 0, "and is finished")
        before = rig.image.read_bytes()
        rig.old = None
        rig.tool("write", rig.image, *rig.keys(), data=b"later")
        rig.put_back(before)
        checks.same(rig.tool("report", rig.image, *rig.keys(), "--ahead").returncode, 6, "an old image isn't ahead")


def stopped(checks):
    """A signal stops a sweep behind the nugget at hand; the next one goes on."""
    with Rig("stopped") as rig:
        rig.format(400, 2, 64)
        fresh = rig.secret()
        rig.tool("begin", rig.image, *rig.keys(), "--new-secret", fresh)
        rig.present, rig.old = fresh, rig.present
        running = subprocess.Popen([TOOL, "sweep", rig.image, *rig.keys()], stdout=subprocess.PIPE, stderr=subprocess.PIPE)
        running.stderr.readline()
        time.sleep(0.05)
        running.send_signal(signal.SIGTERM)
        said, _ = running.communicate()
        checks.that(running.returncode in (0, 128 + signal.SIGTERM), f"stopped: {running.returncode} {said!r}")
        checks.same(rig.tool("report", rig.image, *rig.keys()).returncode, 0, "after a signal")
        checks.same(rig.tool("sweep", rig.image, *rig.keys()).returncode, 0, "the sweep goes on")
        checks.that(b" left=0 " in rig.tool("report", rig.image, *rig.keys()).stdout, "nothing is left")


def json_too(checks):
    with Rig("json") as rig:
        rig.format(3, 2, 64)
        rig.tool("write", rig.image, *rig.keys(), data=bytes(100))
        told = json.loads(rig.tool("report", rig.image, *rig.keys(), "--json").stdout)
        checks.same((told["nuggets"], told["flakes"], told["share"], told["old"]), (3, 2, 100.0, "free"), "report --json")
        info = json.loads(rig.tool("info", rig.image, "--json").stdout)
        checks.same((info["nuggets"], info["flakes"], info["size"], info["capacity"], info["length"], info["checked"]), (3, 2, 64, 384, 862, False), "info --json")
        info = json.loads(rig.tool("info", rig.image, *rig.keys(), "--json").stdout)
        checks.same((info["checked"], info["counter"], info["state"]), (True, 2, "steady"), "info --json, mounted")
        page = json.loads(rig.tool("audit", rig.image, *rig.keys(), "--json").stdout)
        checks.same([nugget["flakes"] for nugget in page["nuggets"]], [[0, 1], [], []], "audit --json")
        rig.counter.write_text("7\n")
        refused = rig.tool("report", rig.image, *rig.keys(), "--json")
        checks.same((refused.returncode, json.loads(refused.stdout)), (6, {"refused": 6, "class": "key"}), "a refusal as JSON")


def main():
    checks = Checks()
    for part in (helps, secrets, shapes, versions, ciphers, undone, moves, unmoved, locks, json_too, ended, stopped):
        part(checks)
    checks.close()


main()
