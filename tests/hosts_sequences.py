"""The tool against the second program: random sequences of subcommands, every exit status, refusal's line, image byte and counter."""
from rig import Checks, Rig
import audit
import calls
import lines
import moving
from layout import TOP, layout

SEQUENCES, STEPS = 18, 34
SHAPES = ((1, 1, 64), (3, 2, 64), (5, 3, 128), (9, 2, 256), (2, 4, 64), (2, 2, 128), (3, 3, 512), (2, 64, 64))


def expected(rig, call, *words):
    """The second program's mount with what the rig brings, then its call: number, result."""
    old = rig.old.read_bytes() if rig.old else bytes(32)
    mounted = calls.mount(rig.volume, rig.present.read_bytes(), old, rig.outside)
    if mounted.answer.number:
        return mounted.answer, None
    got = call(mounted.drive, rig.volume, *words)
    return (got.answer, got) if hasattr(got, "answer") else (got[0], got)


def compared(checks, rig, ran, answer, got, what):
    """Exit status, the refusal's line, the image and the counter afterwards."""
    checks.same(ran.returncode, answer.number, f"{what}: exit status, {ran.stderr!r}")
    if answer.number:
        checks.that(ran.stderr.startswith(lines.refusal_line(answer.image()) + b"ngt: "), f"{what}: refusal's line, {ran.stderr!r}")
    elif hasattr(got, "volume"):
        rig.volume, rig.outside = got.volume, got.drive.counter
    checks.that(rig.image.read_bytes() == rig.volume, f"{what}: the image")
    checks.same(rig.counter.read_text(), f"{rig.outside}\n", f"{what}: the counter")


def bytes_step(checks, rig, way):
    drive, source = rig.drive, rig.source
    capacity = drive.n * drive.p * drive.f
    length = source.choice((0, 1, 10, 64, 65, 300))
    offset = source.choice((0, 1, 63, 64, source.randrange(capacity), capacity - length, capacity, TOP)) % 2**64
    if way == "read":
        ran = rig.tool("read", rig.image, *rig.keys(), "--offset", offset, "--length", length)
        answer, got = expected(rig, calls.read, offset, bytes(length))
        compared(checks, rig, ran, answer, got, f"read {offset} {length}")
        checks.same(ran.stdout, got.buffer if got and not answer.number else b"", "what is read")
    else:
        data = source.randbytes(length)
        ran = rig.tool("write", rig.image, *rig.keys(), "--offset", offset, data=data)
        compared(checks, rig, ran, *expected(rig, calls.write, offset, data), f"write {offset} {length}")


def whole_flakes(drive, offset, length):
    """By nugget, ascending: the first of its flakes that lie whole in the range, and how many they are."""
    inside = {}
    for at in range(drive.n * drive.p):
        if offset <= at * drive.f and (at + 1) * drive.f <= offset + length:
            inside.setdefault(at // drive.p, []).append(at % drive.p)
    return [(n, flakes[0], len(flakes)) for n, flakes in inside.items()]


def discard_step(checks, rig):
    """Nothing is freed if the range's end isn't there; else the whole flakes, nugget by nugget."""
    drive, source = rig.drive, rig.source
    capacity, size = drive.n * drive.p * drive.f, drive.f
    length = min(source.choice((0, 1, size - 1, size, 2 * size - 2, 2 * size, 3 * size, drive.p * size, 3 * drive.p * size // 2, capacity)), capacity)
    offset = min(source.randrange(drive.n * drive.p) * size + source.choice((0, 0, 1, size - 1)), capacity - length)
    if source.randrange(6) == 0:
        offset, length = source.choice(((capacity, 0), (capacity, 1), (capacity + 1, 0), (1, capacity), (0, TOP), (TOP, 0), (TOP, TOP)))
    ran = rig.tool("discard", rig.image, *rig.keys(), "--offset", offset, "--length", length)
    last = max(offset + length - 1, 0) // (drive.p * drive.f)
    freed = [(min(last, 2**32 - 1), 0, 0), *whole_flakes(drive, offset, length)]
    for asked in freed:
        answer, got = expected(rig, calls.discard, *asked)
        if answer.number:
            break
        rig.volume, rig.outside = got.volume, got.drive.counter
    compared(checks, rig, ran, answer, None, f"discard {offset} {length}")
    if not answer.number:
        checks.same(ran.stdout.startswith(b"Bytes "), len(freed) > 1, "whether anything lies in the range")


def begin_step(checks, rig):
    fresh = rig.source.choice((rig.secret(), rig.secret(), rig.present))
    ran = rig.tool("begin", rig.image, *rig.keys(), "--new-secret", fresh)
    answer, got = expected(rig, calls.begin, fresh.read_bytes())
    compared(checks, rig, ran, answer, got, "begin")
    if not answer.number:
        rig.present, rig.old = fresh, rig.present


def sweep_step(checks, rig, whole):
    if not whole:
        n = rig.source.choice((0, 1, rig.drive.n - 1, rig.drive.n, 2**32 - 1, 2**40))
        ran = rig.tool("sweep", rig.image, str(n), *rig.keys(**{"old-secret": rig.old or rig.present}))
        return compared(checks, rig, ran, *expected(rig, calls.sweep, min(n, 2**32 - 1)), f"sweep {n}")
    ran = rig.tool("sweep", rig.image, *rig.keys(**{"old-secret": rig.old or rig.present}))
    answer, got = expected(rig, calls.report)
    if not answer.number and rig.volume[5] % 16 == 0:
        answer, got = expected(rig, calls.sweep, 0)
    for n in range(rig.drive.n):
        if not answer.number and rig.volume[5] % 16:
            one, moved = expected(rig, calls.sweep, n)
            if one.number not in (0, 12):
                answer, got = one, moved
            elif one.number == 0:
                rig.volume, rig.outside = moved.volume, moved.drive.counter
    compared(checks, rig, ran, answer, None, "sweep of all")
    checks.that(b"destroyed" not in ran.stdout + ran.stderr, "a sweep says nothing of destroying")


def finish_step(checks, rig):
    ran = rig.tool("finish", rig.image, *rig.keys(**{"old-secret": rig.old or rig.present}))
    answer, got = expected(rig, calls.finish)
    compared(checks, rig, ran, answer, got, "finish")
    checks.same(b"may now be destroyed" in ran.stdout, not answer.number, "leave to destroy the old secret")
    if not answer.number:
        rig.old = None


def tell_step(checks, rig, way):
    ran = rig.tool(way, rig.image, *rig.keys())
    answer, got = expected(rig, lines.sheet_line)
    compared(checks, rig, ran, answer, got, way)
    if answer.number:
        return
    page = audit.page(rig.present.read_bytes() + (rig.old.read_bytes() if rig.old else bytes(32)) + rig.outside.to_bytes(8, "little") + rig.volume)
    checks.same(ran.stdout, got[1] if way == "report" else page, f"what {way} prints")
    checks.that(b"destroyed" not in ran.stdout + ran.stderr, "no leave to destroy")
    if way == "report":
        checks.same(b"still needed" in ran.stderr, rig.volume[5] % 16 == 1, "the old secret is still needed")


def hand_step(checks, rig, way):
    """To dm-crypt and back, at times with one key twice or a buffer of another length."""
    key, beside = rig.secret("--xts"), rig.folder / "beside"
    data, tweak = key.read_bytes()[:32], key.read_bytes()[32:]
    if rig.source.randrange(5) == 0:
        tweak = data
        key.write_bytes(data + tweak)
    capacity = rig.drive.n * rig.drive.p * rig.drive.f
    if way == "export":
        ran = rig.tool("export", rig.image, *rig.keys(), "--xts-key", key, "--to", beside)
        answer, got = expected(rig, calls.export, data, tweak, bytes(capacity))
        compared(checks, rig, ran, answer, got, "export")
        checks.same(beside.read_bytes() if beside.exists() else None, None if answer.number else got.buffer, "what is exported")
        checks.that(answer.number or beside.stat().st_mode & 0o777 == 0o600, "an export is its owner's alone")
    else:
        beside.write_bytes(rig.source.randbytes(rig.source.choice((capacity, capacity, capacity, capacity - 1, capacity + 1, 0))))
        ran = rig.tool("import", rig.image, *rig.keys(), "--xts-key", key, "--from", beside)
        compared(checks, rig, ran, *expected(rig, calls.take_in, data, tweak, beside.read_bytes()), "import")
    beside.unlink(missing_ok=True)


def moved(drive, volume):
    """To the version that it isn't of."""
    enter = 3 - drive.version
    return (moving.up if enter == 2 else moving.down)(drive, volume, bytes(layout(drive.n, drive.p, drive.f, enter).length))


def move_step(checks, rig):
    """Into a file that is made, or over one; the image that was left is stale then, and the sequence goes on with the second."""
    second = rig.folder / "second"
    before = rig.source.choice((None, None, b"", b"short", rig.source.randbytes(99999)))
    if before is not None:
        second.write_bytes(before)
    ran = rig.tool("move", rig.image, second, *rig.keys(), *["--force"] * bool(before))
    answer, got = expected(rig, moved)
    compared(checks, rig, ran, answer, got, "move")
    checks.that((second.read_bytes() if second.exists() else None) == (before if answer.number else got.buffer), "the second image")
    checks.same(f"{rig.image} is stale now: {second} is the drive".encode() in ran.stderr, not answer.number, "which one is the drive")
    checks.same(f"the lowest such nugget is {answer.nugget}, bytes ".encode() in ran.stderr, answer.number == 16, "the nugget of 16")
    if not answer.number:
        checks.that(before is not None or second.stat().st_mode & 0o777 == 0o600, "a moved drive is its owner's alone")
        checks.same(rig.tool("report", rig.image, *rig.keys()).returncode, 6, "the image that was left")
        second.replace(rig.image)
        rig.volume = got.buffer
    second.unlink(missing_ok=True)


def freed_step(checks, rig):
    """A move right behind writes and a discard: down it is refused if that freed a flake."""
    bytes_step(checks, rig, "write")
    bytes_step(checks, rig, "write")
    discard_step(checks, rig)
    move_step(checks, rig)


def spoil_step(checks, rig):
    """Something isn't what it has to be; one call shows it; then all is as before."""
    way, volume, outside, present, old = rig.source.randrange(6), rig.volume, rig.outside, rig.present, rig.old
    if way == 0:
        at = rig.source.randrange(len(volume))
        rig.volume = volume[:at] + bytes([volume[at] ^ 1 << rig.source.randrange(8)]) + volume[at + 1:]
    elif way == 1:
        rig.volume = rig.source.choice((volume[:-1], volume + b"\0", b"", volume[:104], bytes(len(volume))))
    elif way == 2:
        rig.outside = rig.source.choice((outside + 1, outside - 1, 0, TOP))
        rig.counter.write_text(f"{rig.outside}\n")
    elif way == 3:
        rig.present = rig.secret()
    elif way == 4:
        rig.old = rig.secret()
    rig.put_back(rig.volume)
    rig.source.choice((lambda: bytes_step(checks, rig, "read"), lambda: discard_step(checks, rig), lambda: tell_step(checks, rig, "report"), lambda: tell_step(checks, rig, "audit"),
                       lambda: hand_step(checks, rig, "export"), lambda: move_step(checks, rig)))()
    rig.volume, rig.outside, rig.present, rig.old = volume, outside, present, old
    rig.put_back(volume)
    rig.counter.write_text(f"{outside}\n")


def sequences(checks):
    for number in range(SEQUENCES):
        with Rig(f"tool {number}") as rig:
            rig.format(*SHAPES[number % len(SHAPES)], version=(1, 2, 2)[number % 3], cipher=16 * (number // 3 % 2))
            checks.that(rig.image.read_bytes() == rig.volume, "a fresh volume")
            for _ in range(STEPS):
                way = rig.source.choice("read write write write discard discard begin sweep sweep all finish report audit export import move move freed freed spoil spoil".split())
                {"read": lambda: bytes_step(checks, rig, "read"), "write": lambda: bytes_step(checks, rig, "write"), "discard": lambda: discard_step(checks, rig), "begin": lambda: begin_step(checks, rig),
                 "sweep": lambda: sweep_step(checks, rig, False), "all": lambda: sweep_step(checks, rig, True), "finish": lambda: finish_step(checks, rig),
                 "report": lambda: tell_step(checks, rig, "report"), "audit": lambda: tell_step(checks, rig, "audit"), "spoil": lambda: spoil_step(checks, rig),
                 "export": lambda: hand_step(checks, rig, "export"), "import": lambda: hand_step(checks, rig, "import"), "move": lambda: move_step(checks, rig), "freed": lambda: freed_step(checks, rig)}[way]()


def main():
    checks = Checks()
    sequences(checks)
    checks.close()


main()
