"""The sheet's lines, the auditor's pages, the fleet's lines, the sample, and the script runner; also as programs of their own."""

import hashlib
import os
import struct
import subprocess
import sys
import tempfile

import audit
import calls
import fleet
import run as runner
import sample
import sheet
from answers import FLAKE, HEAD, NODE, RECORD, Answer, Place
from drive import BLANK, Drive, drive_of_image
from layout import layout

from checks.make import OLD, PRESENT, SALT, Spec, flipped, made

HERE = os.path.dirname(os.path.dirname(os.path.abspath(__file__)))
SAMPLE_LINE = b"nuggets=3 moved=1 left=2 flakes=2 share=50.00 done=1\n"
SAMPLE_PAGE = SAMPLE_LINE + b"""nugget=0 key=new epoch=2 keycount=1 flakes=1
nugget=1 key=old epoch=1 keycount=0 flakes=-
nugget=2 key=old epoch=1 keycount=0 flakes=0
counter=5
old=needed
"""
CLASSES = ["form"] * 3 + ["key"] * 3 + ["altered"] + ["request"] * 5 + ["spent"] * 3


def lines(tally):
    for number in (*range(1, 14), 15):
        want = f"refused={number} class={CLASSES[number - 1]}"
        if number != 7:
            tally.same(f"line of {number}", sheet.refusal_line(Answer(number)), want)
            tally.same(f"line of {number} with a count",
                       sheet.refusal_line(Answer(number, left=4)), want)
    for place, words in ((Place(HEAD), "head"), (Place(RECORD, 2), "record 2"),
                         (Place(NODE, 5), "node 5"), (Place(FLAKE, 2, 1), "flake 2 1"),
                         (Place(NODE, 32767), "node 32767"), (Place(RECORD, 0), "record 0")):
        tally.same(f"line of 7 {words}", sheet.refusal_line(Answer(7, place)),
                   f"refused=7 class=altered place={words}")
    for number in (-1, 0, 14, 17, 255):
        tally.same(f"class of {number}", sheet.class_of(number), None)


def images(tally):
    """The C interface's images of drives and answers."""
    secrets = PRESENT, OLD
    drive = Drive(3, 2, 64, SALT, 1, 6, 7, 2**64 - 2, b"n" * 32, *secrets, 2)
    image = struct.pack("<IIIBxHHH4x16sQ32s32s32s", 3, 2, 64, 1, 7, 6, 2, SALT, 2**64 - 2, b"n" * 32,
                        *secrets)
    tally.same("drive's image", drive.image(), image)
    tally.same("drive of an image", drive_of_image(image), drive)
    tally.same("image's length", len(BLANK.image()), 144)
    for answer, want in ((Answer(0), (0, 0, 0, 0)), (Answer(6), (6, 0, 0, 0)),
                         (Answer(7, Place(HEAD)), (7, 1, 0, 0)),
                         (Answer(7, Place(RECORD, 9)), (7, 2, 9, 0)),
                         (Answer(7, Place(NODE, 5)), (7, 3, 5, 0)),
                         (Answer(7, Place(FLAKE, 2, 1)), (7, 4, 2, 1)),
                         (Answer(11, left=4), (11, 0, 4, 0))):
        tally.same(f"image of {answer}", answer.image(), struct.pack("<4I", *want))


def sheet_input(drive, volume, outside=None):
    counter = drive.counter if outside is None else outside
    return drive.present + drive.old + counter.to_bytes(8, "little") + volume


def refusals(tally, version):
    drive, volume = made(Spec(3, 2, 64, 1, 3, 9, [[4, 3, 2], [7, 3, 3], [0, 1, 2]], version=version))
    good = sheet_input(drive, volume)
    wide, at = (18, 254) if version == 1 else (26, 278)
    for words, data in (
            (b"nuggets=3 moved=1 left=2 flakes=5 share=40.00 done=2", good),
            (b"refused=2 class=form", b""), (b"refused=2 class=form", good[:71]),
            (b"refused=2 class=form", good[:72]), (b"refused=2 class=form", good[:175]),
            (b"refused=2 class=form", good[:176]), (b"refused=2 class=form", good + b"\0"),
            (b"refused=3 class=form", flipped(good, 72)),
            (b"refused=1 class=form", flipped(good, 77, 3)),
            (b"refused=4 class=key", flipped(good, 0)),
            (b"refused=5 class=key", flipped(good, 32)),
            (b"refused=6 class=key", flipped(good, 71, 7)),
            (b"refused=7 class=altered place=record 2", flipped(good, 72 + 104 + 2 * wide)),
            (b"refused=7 class=altered place=node 7", flipped(good, 72 + at + 192)),
            (b"refused=7 class=altered place=node 2", flipped(good, 72 + at + 32))):
        tally.same(f"sheet {words.decode()}", sheet.line(data), words + b"\n")
    moved = made(Spec(2, 1, 64, 0, 3, 9, [[4, 1, 3], [7, 0, 3]], version=version))
    tally.same("all moved", sheet.line(sheet_input(*moved)),
               b"nuggets=2 moved=2 left=0 flakes=1 share=100.00 done=1\n")
    for p, want in ((14, b"nuggets=1 moved=1 left=0 flakes=0 share=100.00 done=0\n"),
                    (15, b"refused=2 class=form\n")):
        got = calls.format(bytes(layout(1, p, 4096, version).length), 1, p, 4096, SALT, PRESENT, 0, version)
        tally.same(f"volume of {len(got.volume)} bytes",
                   sheet.line(sheet_input(got.drive, got.volume)), want)
    mark = b"XGT" + bytes(61437)
    tally.same("61,512 bytes", sheet.line(bytes(72) + mark), b"refused=3 class=form\n")
    tally.same("61,513 bytes", sheet.line(bytes(73) + mark), b"refused=2 class=form\n")


def pages(tally):
    drive, volume = made(Spec(3, 2, 64, 1, 2, 9, [[1, 2, 2], [4, 0, 1], [0, 3, 1]]))
    good = sheet_input(drive, volume)
    tally.same("page while changing", audit.page(good), b"""nuggets=3 moved=1 left=2 flakes=3 share=33.33 done=1
nugget=0 key=new epoch=2 keycount=1 flakes=1
nugget=1 key=old epoch=1 keycount=4 flakes=-
nugget=2 key=old epoch=1 keycount=0 flakes=0,1
counter=9
old=needed
""")
    freed = made(Spec(3, 2, 64, 1, 2, 9, [[1, 3, 2, 2], [4, 3, 0, 1], [0, 3, 3, 1]], version=2))
    tally.same("page of held flakes alone", audit.page(sheet_input(*freed)), audit.page(good))
    steady = made(Spec(1, 64, 64, 0, 3, 2**64 - 1, [[2**64 - 1, 2**64 - 1, 3]]))
    tally.same("page when steady", audit.page(sheet_input(*steady)),
               b"nuggets=1 moved=1 left=0 flakes=64 share=100.00 done=64\n"
               b"nugget=0 key=present epoch=3 keycount=18446744073709551615 flakes="
               + b",".join(b"%d" % f for f in range(64)) + b"\ncounter=18446744073709551615\nold=free\n")
    for data in (b"", good[:71], good[:-1], flipped(good, 0), flipped(good, 32), flipped(good, 64), flipped(good, 72 + 104)):
        tally.same("page of a refusal", audit.page(data), sheet.line(data))
    for version in (1, 2):
        tally.same("page of the sample", audit.page(sample.sample(version)), SAMPLE_PAGE)


def fleets(tally):
    """Document 02, Item 11, on lines made by hand."""
    half = b"nuggets=3 moved=1 left=2 flakes=2 share=50.00 done=1\n"
    whole = b"nuggets=1 moved=1 left=0 flakes=0 share=100.00 done=0\n"
    near = b"nuggets=2 moved=1 left=1 flakes=64 share=99.99 done=64\n"
    third = b"nuggets=2 moved=1 left=1 flakes=3 share=33.33 done=1\n"
    less = b"nuggets=4 moved=2 left=2 flakes=100 share=33.00 done=33\n"
    below = b"nuggets=400 moved=100 left=300 flakes=10000 share=33.33 done=3333\n"
    for data, want in ((b"", b"open=0"), (b"\n", b"open=1"), (half + b"\n", b"open=2"),
                       (half, b"drives=1 " + half[:-1] + b" last=1"), (half[:-1], b"drives=1 " + half[:-1] + b" last=1"),
                       (whole * 2, b"drives=2 nuggets=2 moved=2 left=0 flakes=0 share=100.00 done=0 last=1"),
                       (whole + half, b"drives=2 nuggets=4 moved=2 left=2 flakes=2 share=50.00 done=1 last=2"),
                       (near * 2, b"drives=2 nuggets=4 moved=2 left=2 flakes=128 share=99.99 done=128 last=1"),
                       (third + below, b"drives=2 nuggets=402 moved=101 left=301 flakes=10003 share=33.33 done=3334 last=2"),
                       (third + less, b"drives=2 nuggets=6 moved=3 left=3 flakes=103 share=33.00 done=34 last=2"),
                       (half + half.replace(b"50.00", b"50.01"), b"open=2"), (half.replace(b"=3 ", b"=03 "), b"open=1"),
                       (half[:-1] + b"\r\n", b"open=1"), (half + b"refused=6 class=key\n", b"open=2"),
                       (b"nuggets=1 moved=0 left=1 flakes=65 share=0.00 done=0\n", b"open=1"),
                       (b"nuggets=1 moved=1 left=0 flakes=1 share=100.00 done=2\n", b"open=1"),
                       (b"nuggets=16385 moved=0 left=16385 flakes=0 share=0.00 done=0\n", b"open=1"),
                       (whole * 256 + b"x", b"open=257"), (whole * 257, b"open=257"), (whole * 255 + b"x\n" + whole, b"open=256")):
        tally.same(f"fleet {want.decode()}", fleet.line(data), want + b"\n")


def started(name, *arguments, given=b""):
    done = subprocess.run([sys.executable, os.path.join(HERE, name), *arguments], input=given,
                          capture_output=True, timeout=60)
    return done.returncode, done.stdout


def programs(tally):
    with tempfile.TemporaryDirectory() as place:
        path = os.path.join(place, "sample")
        tally.same("sample.py", started("sample.py", path), (0, b""))
        with open(path, "rb") as made_file:
            data = made_file.read()
        tally.same("sample again", data, sample.sample())
        tally.same("sample's hash", hashlib.sha256(data).hexdigest(), SAMPLE_HASH)
        tally.same("sheet.py", started("sheet.py", given=data), (0, SAMPLE_LINE))
        tally.same("audit.py", started("audit.py", given=data), (0, SAMPLE_PAGE))
        tally.same("fleet.py", started("fleet.py", given=SAMPLE_LINE), (0, b"drives=1 " + SAMPLE_LINE[:-1] + b" last=1\n"))
        tally.same("sheet.py refuses", started("sheet.py", given=data[:-1]),
                   (0, b"refused=2 class=form\n"))
        with open(path, "w", encoding="utf-8") as script:
            script.write(SCRIPT)
        want = "".join(line + "\n" for line in runner.run(SCRIPT)[0]).encode()
        tally.same("run.py", started("run.py", path), (1, want))
    tally.same("run.py without a script", started("run.py")[0], 2)
    tally.same("sample line", sheet.line(sample.sample()), SAMPLE_LINE)


SAMPLE_HASH = "9aa64680250d07a9539097850c8a4e2921375683242fc91997785949500ed36b"
SCRIPT = """# figure 10, a key change, a stale image, and lines that aren't understood
volume 314
format 1 2 64 aa*16 01*32 0
write 0 11*64
write 0x40 22*64
keep before
write 0 33
read 62 4
report
begin 02*32
finish
sweep 0
stored_flake 0 1
finish
back before
report
mount 02*32 00*32 7
flip 0 1
mount 01*32 00*32 3
flip 400 1
write 0
read x 1
begin 02*31
write 0 zz
write -1 00
volume 99999999999
write 0 00*99999999999
back nowhere
nonsense \u00e9
"""
ANSWERS = """3 format answer=0 place=- counter=1
4 write answer=0 place=- counter=2 0/0/0
5 write answer=0 place=- counter=3 0/0/1
7 write answer=0 place=- counter=4 0/1/0,0/1/1
8 read answer=0 place=- counter=4
9 report answer=0 place=- counter=4
10 begin answer=0 place=- counter=5
11 finish answer=11 place=- left=1 counter=5
12 sweep answer=0 place=- counter=6 0/2/0,0/2/1
13 stored_flake answer=0 place=- counter=6
14 finish answer=0 place=- counter=7
16 report answer=7 place=head counter=7
17 mount answer=4 place=- counter=0
19 mount answer=3 place=- counter=0""".split("\n")


FREED = """volume 886
format_as 3 2 64 aa*16 01*32 0 2 0
write 0 11*128
discard 0 0 1
discard 0 0 1
discard 0 1 2
read 63 2
write 0 22
format_as 3 2 64 aa*16 01*32 0 3 0
volume 862
format_as 3 2 64 aa*16 01*32 0 1 0
discard 0 0 1
format_as 3 2 64 aa*16 01*32 0 1 16
write 0 33
format_as 3 2 64 aa*16 01*32 0 1 17
"""
FREED_TOLD = [(0, 1, "-"), (0, 2, "0/0/0,0/0/1"), (0, 3, "-"), (0, 3, "-"), (8, 3, "-"), (0, 3, "-"), (0, 4, "0/1/0,0/1/1"), (1, 0, "-"),
              (0, 1, "-"), (9, 1, "-"), (0, 1, "-"), (0, 2, "0/0/0"), (1, 0, "-")]


def freed_script(tally):
    """Both versions and ciphers, and discard: answer, counter and pads of each call."""
    got, good = runner.run(FREED)
    tally.same("all was understood", (good, len(got)), (True, len(FREED_TOLD)))
    for line, want in zip(got, FREED_TOLD):
        said = dict(word.split("=") for word in line.split(" ") if "=" in word)
        pads = ",".join(pad.rsplit("/", 1)[0] for pad in said["pads"].split(","))
        tally.same(f"line {line}", (int(said["answer"]), int(said["counter"]), pads), want)
    tally.same("the freed byte, and the next", got[5].split("bytes=")[1], "0011")


def script(tally):
    got, good = runner.run(SCRIPT)
    tally.same("not all was understood", good, False)
    for line, want in zip(got, ANSWERS):
        words = want.split(" ")
        pads = words.pop() if "/" in words[-1] else "-"
        tally.same("script line", line[:len(" ".join(words))], " ".join(words))
        listed = line.split("pads=")[1].split(" ")[0]
        short = ",".join("/".join(pad.split("/")[:3]) for pad in listed.split(","))
        tally.same(f"pads of {want}", short, pads)
    tally.same("bytes read", got[4].split("bytes=")[1], "11112222")
    tally.same("report told", got[5].split("report=")[1], "1,1,0,2,10000,2")
    tally.same("span told", got[9].split("span=")[1], f"{314 - 64}+64")
    refused = got[len(ANSWERS):]
    tally.same("refusal lines", [line.split(" ", 1)[0] for line in refused],
               [str(at) for at in range(20, 30)])
    for line in refused:
        tally.same("refusal line", line.split(" ", 1)[1][:15], "not understood:")
    tally.same("a good script", runner.run("volume 9\n# no more\n\nfinish")[1], True)


def run(tally):
    for version in (1, 2):
        refusals(tally, version)
    for part in (lines, images, pages, fleets, programs, script, freed_script):
        part(tally)
