"""The proved functions of an exporting crate, for the processor at hand, called by ctypes."""
import ctypes
import fcntl
import os
import pathlib
import subprocess
import sys
import time

ROOT = pathlib.Path(__file__).resolve().parent.parent
SEED = int(os.environ.get("NGT_SEED", "1"))
MAKERS = ROOT / "tests/native.sh", ROOT / "tests/archive.sh"


def is_stale(shared):
    """Whether anything that a library is made of is newer than it."""
    if not shared.exists():
        return True
    made = shared.stat().st_mtime
    return any(path.stat().st_mtime >= made for path in (*(path for path in (ROOT / "crates").rglob("*") if "out" not in path.parts), ROOT / "crates.txt", *MAKERS))


def build(crate, shared):
    started, code = time.time(), shared.with_suffix(".o")
    built = subprocess.run(["bash", "tests/native.sh", crate, str(code)], cwd=ROOT, capture_output=True, text=True)
    if built.returncode:
        sys.exit(f"the library {crate} isn't built:\n{built.stdout}{built.stderr}")
    subprocess.run(["gcc", "-shared", "-o", shared, "-Wl,--whole-archive", code, "-Wl,--no-whole-archive"], check=True)
    os.utime(shared, (started, started))


def library(crate):
    """Built once: the programs of one run share it, and wait for each other."""
    made = ROOT / "target" / "shared"
    made.mkdir(parents=True, exist_ok=True)
    shared = made / f"{crate}.so"
    with open(made / f"{crate}.lock", "w") as lock:
        fcntl.flock(lock, fcntl.LOCK_EX)
        if is_stale(shared):
            build(crate, shared)
    return ctypes.CDLL(str(shared))


def slice_of(data):
    """A slice passes as a pointer and a length."""
    return data, ctypes.c_size_t(len(data))


def room(data=b"", size=None):
    """Bytes that a call may change, and one behind them that it may not."""
    size = len(data) if size is None else size
    return ctypes.create_string_buffer(bytes(data), size + 1)


def left(buffer):
    """What the call left; None if it went past the end."""
    raw = buffer.raw
    return raw[:-1] if raw[-1:] == b"\0" else None


class Tally:
    """Counts checks. At the end it prints how many failed, the seed, and the smallest case that did."""

    def __init__(self):
        self.passed = self.failed = 0
        self.smallest = None

    def same(self, what, case, got, wanted, size=0):
        if got == wanted:
            self.passed += 1
            return
        self.failed += 1
        if self.smallest is None or size < self.smallest[0]:
            self.smallest = (size, f"{what} differs, case {case}: got {got!r:.400}, wanted {wanted!r:.400}")

    def join(self, other):
        """Takes over what another tally counted."""
        self.passed, self.failed = self.passed + other.passed, self.failed + other.failed
        if other.smallest and (self.smallest is None or other.smallest[0] < self.smallest[0]):
            self.smallest = other.smallest

    def close(self):
        if self.smallest:
            print(f"NGT_SEED={SEED}, the smallest of {self.failed}: {self.smallest[1]}")
        print(f"{self.passed} passed, {self.failed} failed")
        return 1 if self.failed else 0
