"""The library as it is installed: what it exports, pkg-config, the README's program against the archive and the shared library, and
an uninstall that leaves nothing behind."""
import os
import pathlib
import re
import subprocess
import tempfile

from rig import MADE, ROOT, Checks


def made(*words, **more):
    return subprocess.run([str(word) for word in words], capture_output=True, text=True, cwd=ROOT, **more)


def block(page, language):
    return re.search(rf"```{language}\n(.*?)```", page, re.S).group(1)


def declared():
    return set(re.findall(r"\b(ngt_\w+)\(", (ROOT / "include/ngt.h").read_text()))


def exported():
    return {line.split()[-1] for line in made("nm", "-D", "--defined-only", MADE / "libngt.so").stdout.splitlines()}


def built(checks, prefix, folder):
    """The README's first C program, by pkg-config, linked to each."""
    page = (ROOT / "README.md").read_text()
    source, wanted = folder / "example.c", block(page, "text")
    source.write_text(block(page, "c"))
    env = {**os.environ, "PKG_CONFIG_PATH": str(prefix / "lib/pkgconfig"), "LD_LIBRARY_PATH": str(prefix / "lib")}
    flags = made("pkg-config", "--cflags", "--libs", "ngt", env=env).stdout.split()
    checks.that(f"-I{prefix}/include" in flags and "-lngt" in flags, f"pkg-config says {flags}")
    for name, words in (("shared", flags), ("archive", [*flags[:1], prefix / "lib/libngt.a"])):
        said = made("gcc", "-O2", "-Wall", "-Wextra", "-o", folder / name, source, *words)
        checks.same((said.returncode, said.stderr), (0, ""), f"the example is built with the {name}")
        checks.same(made(folder / name, env=env).stdout, wanted, f"the example runs with the {name}")
    linked = made("ldd", folder / "shared", env=env).stdout
    checks.that("libngt.so.0 => " + str(prefix) in linked, f"the shared library is found: {linked}")


def as_written(checks, prefix, folder):
    """The README's session with the installed tool: what it prints, and the two refusals."""
    page, session = (ROOT / "README.md").read_text(), folder / "session"
    session.mkdir()
    printed, statuses = "", []
    for line in block(page, "sh").splitlines():
        said = subprocess.run(line, shell=True, cwd=session, capture_output=True, text=True, env={**os.environ, "PATH": f"{prefix}/bin:{os.environ['PATH']}"})
        printed, statuses = printed + said.stdout, statuses + [said.returncode]
    checks.same(printed, block(page, "printed"), "the README's session prints what it says")
    checks.same([status for status in statuses if status], [11, 16], "the early finish and the first move are refused, and nothing else")


def main():
    checks = Checks()
    checks.same(exported(), declared(), "the shared library exports what the header declares, and nothing else")
    with tempfile.TemporaryDirectory() as name:
        folder = pathlib.Path(name)
        prefix = folder / "prefix"
        said = made("make", "-s", "install", f"PREFIX={prefix}")
        checks.same(said.returncode, 0, f"make install: {said.stderr}")
        built(checks, prefix, folder)
        as_written(checks, prefix, folder)
        checks.same(made(prefix / "bin/ngt", "--help").returncode, 0, "the installed tool runs")
        shown = made("nbdkit", "--dump-plugin", prefix / "lib/nbdkit/plugins/nbdkit-ngt-plugin.so")
        checks.that("name=ngt\n" in shown.stdout, f"nbdkit takes the installed plugin: {shown.stderr}")
        made("make", "-s", "uninstall", f"PREFIX={prefix}")
        checks.same([path for path in prefix.rglob("*") if not path.is_dir()], [], "an uninstall leaves nothing")
    checks.close()


main()
