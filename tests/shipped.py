"""Programs in C over the archive of the C interface as it is shipped, for x86-64."""
import pathlib
import platform
import subprocess
import sys

ROOT = pathlib.Path(__file__).resolve().parent.parent
NATIVE = platform.machine() == "x86_64"


def archive():
    made = subprocess.run(["tests/archive.sh", "ngt"], cwd=ROOT, capture_output=True, text=True)
    if made.returncode:
        sys.exit(f"the archive isn't made:\n{made.stdout}{made.stderr}")
    return ROOT / "target" / "staticlib" / "libngt.a"


def program(source, out, *words):
    """The program built, as the words that run it."""
    compiler = ["gcc"] if NATIVE else ["x86_64-linux-gnu-gcc", "-static"]
    flags = ["-O2", "-Wall", "-Wextra", "-Werror", "-std=c11", "-I", str(ROOT / "include"), *words]
    subprocess.run([*compiler, *flags, "-o", str(out), str(source), str(archive())], check=True)
    return [*([] if NATIVE else ["qemu-x86_64"]), str(out)]
