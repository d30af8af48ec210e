"""A drive on disk for the hosts' tests: image, secrets and counter in a folder of its own, the built tool, and the second program's
state beside it."""
import os
import pathlib
import platform
import random
import shutil
import subprocess
import sys
import tempfile

ROOT = pathlib.Path(__file__).resolve().parent.parent
sys.path.insert(0, str(ROOT / "second"))
import calls  # noqa: E402
from layout import layout  # noqa: E402

SEED = int(os.environ.get("NGT_SEED", "1"))
# NGT_FOR=aarch64 takes what was made for that processor; a tool for another one than this runs under an emulator
FOR = os.environ.get("NGT_FOR", platform.machine())
RUN = [] if FOR == platform.machine() else [f"qemu-{FOR}", "-L", f"/usr/{FOR}-linux-gnu"]
MADE = ROOT / "target" / "hosts" / FOR
TOOL, PLUGIN = MADE / "ngt", MADE / "nbdkit-ngt-plugin.so"
USAGE, SYSTEM, BUSY, OPEN_TO_OTHERS = 64, 74, 75, 77


class Checks:
    """Counts what held; says what didn't."""

    def __init__(self):
        self.passed = self.failed = 0

    def that(self, holds, what):
        self.passed, self.failed = self.passed + bool(holds), self.failed + (not holds)
        if not holds:
            print(f"NGT_SEED={SEED}: {what}")

    def same(self, got, wanted, what):
        self.that(got == wanted, f"{what}: got {got!r:.300}, wanted {wanted!r:.300}")

    def close(self):
        print(f"{self.passed} passed, {self.failed} failed")
        sys.exit(1 if self.failed else 0)


class Rig:
    """`drive` and `volume` are the second program's; `outside` is the counter that it keeps."""

    def __init__(self, name):
        self.folder = pathlib.Path(tempfile.mkdtemp(prefix="ngt-"))
        self.image, self.counter = self.folder / "image", self.folder / "counter"
        self.source = random.Random(f"{SEED} {name}")
        self.secrets = []

    def __enter__(self):
        return self

    def __exit__(self, *why):
        shutil.rmtree(self.folder)

    def tool(self, *words, data=None, env=None):
        return subprocess.run([*RUN, TOOL, *map(str, words)], input=data, capture_output=True, env={**os.environ, **(env or {})})

    def secret(self, *words):
        """A further secret of the tool's own making."""
        path = self.folder / f"secret-{len(self.secrets)}"
        assert self.tool("secret", path, *words).returncode == 0
        self.secrets.append(path)
        return path

    def format(self, n, p, f, version=1, cipher=0):
        """Formatted by both; the second program takes over the salt."""
        self.present, self.old = self.secret(), None
        ran = self.tool("format", self.image, "--secret", self.present, "--counter", self.counter, "--nuggets", n, "--flakes", p, "--size", f, "--version", version,
                        "--cipher", "aes" if cipher else "chacha20")
        assert ran.returncode == 0, ran.stderr
        salt = self.image.read_bytes()[16:32]
        made = calls.format(bytes(layout(n, p, f, version).length), n, p, f, salt, self.present.read_bytes(), 0, version, cipher)
        self.drive, self.volume, self.outside = made.drive, made.volume, made.drive.counter
        return ran

    def keys(self, **other):
        """The options of a mount, but for what is given otherwise."""
        with_it = {"secret": self.present, "old-secret": self.old, "counter": self.counter, **other}
        return [word for name, value in with_it.items() if value for word in (f"--{name}", value)]

    def put_back(self, volume):
        self.image.write_bytes(volume)
