"""A drive handed to a reader that nobody here wrote, and taken from a writer that nobody here wrote.

mke2fs makes a filesystem with files in it; an independent XTS encrypts it; the proved `ngt_import` takes it in, `ngt_export` hands it
out, and the independent reader opens what was handed out: debugfs then finds the files, equal to the byte. Then flakes are discarded,
and python3-cryptography reads zeros there. The volumes take turns between the two versions and the two ciphers. The reader is dm-crypt itself
(cryptsetup's plain mode, aes-xts-plain64, 512-bit key) where the kernel lets this program make a device-mapper target, and else
Debian's python3-cryptography, sector by sector. It prints which one ran.
"""
import ctypes
import os
import pathlib
import random
import shutil
import subprocess
import sys
import tempfile

from cryptography.hazmat.primitives.ciphers import Cipher, algorithms, modes

from proved import SEED, Tally, left, library, room

# mke2fs, debugfs and cryptsetup stand where a plain user's PATH doesn't look.
os.environ["PATH"] += ":/usr/sbin:/sbin"
SECTOR = 512
U8, U16, U32, U64, SIZE = ctypes.c_uint8, ctypes.c_uint16, ctypes.c_uint32, ctypes.c_uint64, ctypes.c_size_t
# 1 MiB each: flakes of several sectors, of one, within one, and over several that begin within one.
SHAPES = [(16, 16, 4096), (32, 64, 512), (256, 64, 64), (1024, 16, 64), (128, 64, 128)]
CROSSED = (16, 8, 4096 - 64)


def sectors(key, text, way):
    """Every sector under its number, lowest byte first."""
    out = []
    for number in range(len(text) // SECTOR):
        cipher = Cipher(algorithms.AES(key), modes.XTS(number.to_bytes(16, "little")))
        turn = cipher.encryptor() if way else cipher.decryptor()
        out.append(turn.update(text[SECTOR * number:SECTOR * (number + 1)]))
    return b"".join(out)


def by_dm_crypt(key, folder, text):
    """The buffer as a plain dm-crypt device, read whole; None where no device can be made."""
    if not (shutil.which("cryptsetup") and os.path.exists("/dev/mapper/control") and os.geteuid() == 0):
        return None
    handed, secret, name = folder / "handed", folder / "key", f"ngt-crypt-{os.getpid()}"
    handed.write_bytes(text), secret.write_bytes(key)
    opened = subprocess.run(["cryptsetup", "open", "--type", "plain", "--cipher", "aes-xts-plain64", "--key-size", "512",
                             "--key-file", secret, "--readonly", handed, name], capture_output=True)
    if opened.returncode:
        return None
    try:
        return pathlib.Path("/dev/mapper", name).read_bytes()
    finally:
        subprocess.run(["cryptsetup", "close", name], check=True)


def filesystem(folder, source, size):
    """An image with some files in it, and the files."""
    files = {f"file{i}": source.randbytes(source.choice((0, 1, 511, 512, 513, 5000, 60000))) for i in range(8)}
    tree, image = folder / "tree", folder / "image"
    shutil.rmtree(tree, ignore_errors=True)
    tree.mkdir()
    for name, text in files.items():
        (tree / name).write_bytes(text)
    image.write_bytes(bytes(size))
    subprocess.run(["mke2fs", "-q", "-F", "-t", "ext2", "-b", "1024", "-d", tree, image], check=True)
    return image.read_bytes(), files


def found(folder, image, names):
    """The files as debugfs reads them off an image."""
    at = folder / "read"
    at.write_bytes(image)
    for name in names:
        subprocess.run(["debugfs", "-R", f"dump /{name} {folder / ('got-' + name)}", at], check=True, capture_output=True)
    return {name: (folder / f"got-{name}").read_bytes() for name in names}


def volume_length(n, p, f, version):
    leaves = 1
    while leaves < n:
        leaves *= 2
    return 104 + (18 if version == 1 else 26) * n + 16 * n * p + 32 * (2 * leaves - 1) + n * p * f


def freed(proved, tally, shape, source, drive, vol, keys, image):
    """What the reader reads after some discards: zeros there, in version 2; version 1 refuses each with 9."""
    (n, p, f), (version, size), answer = shape, (drive[18], len(left(vol))), room(size=16)
    image = bytearray(image)
    for _ in range(20):
        nugget, first = source.randrange(n), source.randrange(p)
        count = source.randint(0, p - first)
        said = proved.ngt_discard(drive, vol, SIZE(size), U32(nugget), U32(first), U32(count), answer)
        tally.same("discard", shape, said, 9 if version == b"\1" else 0)
        if said == 0:
            at = (nugget * p + first) * f
            image[at:at + count * f] = bytes(count * f)
    out = room(size=len(image))
    tally.same("export", shape, proved.ngt_export(drive, vol, SIZE(size), keys[:32], keys[32:], out, SIZE(len(image)), answer), 0)
    tally.same("discarded places read as zero", shape, sectors(keys, left(out), False), bytes(image))


def one(proved, tally, shape, version, cipher, folder, readers):
    source = random.Random(f"{SEED} crypt {shape}")
    n, p, f = shape
    image, files = filesystem(folder, source, n * p * f)
    data, tweak = source.randbytes(32), source.randbytes(32)
    given = sectors(data + tweak, image, True)
    size = volume_length(n, p, f, version)
    vol, drive, answer, out = room(size=size), room(size=144), room(size=16), room(size=len(image))
    numbers = SIZE(size), U32(n), U32(p), U32(f), U16(version), U8(cipher)
    tally.same("format", shape, proved.ngt_format_as(vol, *numbers, bytes(16), bytes(32), U64(0), drive, answer), 0)
    tally.same("import", shape, proved.ngt_import(drive, vol, SIZE(size), data, tweak, given, SIZE(len(given)), answer), 0)
    plain = room(size=len(image))
    proved.ngt_read(drive, vol, SIZE(size), U64(0), plain, SIZE(len(image)), answer)
    tally.same("what was taken in", shape, left(plain), image)
    tally.same("export", shape, proved.ngt_export(drive, vol, SIZE(size), data, tweak, out, SIZE(len(image)), answer), 0)
    handed = left(out)
    tally.same("what was handed out", shape, handed, given)
    read = by_dm_crypt(data + tweak, folder, handed)
    readers.add("dm-crypt" if read is not None else "python3-cryptography")
    read = sectors(data + tweak, handed, False) if read is None else read
    tally.same("what the reader reads", shape, read, image)
    tally.same("the files", shape, found(folder, read, files), files)
    freed(proved, tally, shape, source, drive, vol, data + tweak, image)


def main():
    tally, readers = Tally(), set()
    proved = library("ngt")
    with tempfile.TemporaryDirectory() as folder:
        for i, shape in enumerate(SHAPES + [CROSSED]):
            one(proved, tally, shape, 1 + (i + SEED) % 2, (i + SEED) // 2 % 2 * 16, pathlib.Path(folder), readers)
    print("read by " + " and ".join(sorted(readers)))
    return tally.close()


if __name__ == "__main__":
    sys.exit(main())
