"""The picture and the page: well formed, with nothing fetched and no script, and the proved lines in them to the byte."""
import re
import xml.etree.ElementTree as tree

from rig import SYSTEM, Checks, Rig
import audit
import calls
import sheet

SVG = "{http://www.w3.org/2000/svg}"


def page_lines(rig):
    """The second program's page, of a volume of any size."""
    volume, outside = rig.image.read_bytes(), int(rig.counter.read_text())
    drive = calls.mount(volume, rig.present.read_bytes(), rig.old.read_bytes() if rig.old else bytes(32), outside).drive
    told = sheet.report_line(calls.report(drive, volume).report)
    return [told, *(audit.nugget_line(drive, volume, n) for n in range(drive.n)), f"counter={outside}", f"old={audit.old_word(drive)}"]


def text_of(element):
    return "".join(element.itertext())


def titles(picture):
    return [found.text for found in picture.iter(f"{SVG}title") if found.text.startswith("nugget=")]


def looked_at(checks, rig, what, finished=False):
    page, drawn = rig.folder / "page.html", rig.folder / "map.svg"
    checks.same(rig.tool("audit", rig.image, *rig.keys(), "--html", page).returncode, 0, f"{what}: audit --html")
    checks.same(rig.tool("map", rig.image, *rig.keys(), "--svg", drawn).returncode, 0, f"{what}: map --svg")
    first, *nuggets, counter, old = page_lines(rig)
    text = page.read_text()
    root = tree.fromstring(text.replace("<!DOCTYPE html>", "", 1))
    named = {element.get("id"): text_of(element) for element in root.iter() if element.get("id")}
    checks.same(named, {"sheet": first, "counter": counter, "old": old}, f"{what}: the page's lines")
    checks.same([text_of(row) for row in root.iter("tr")], nuggets, f"{what}: the page's nuggets")
    checks.same(titles(root), nuggets, f"{what}: the page's picture")
    checks.same(titles(tree.fromstring(drawn.read_text())), nuggets, f"{what}: the picture")
    checks.that("<script" not in text and "src=" not in text and set(re.findall(r"https?://[^\"<]*", text)) <= {"http://www.w3.org/2000/svg"}, f"{what}: nothing is fetched")
    checks.same("may be destroyed" in text, finished, f"{what}: what it says of the old secret")
    shown = rig.tool("map", rig.image, *rig.keys()).stdout.decode()
    cells = re.sub(r"^ *\d+ ", "", shown.split("\n\n")[0].split("\n", 1)[1], flags=re.M).replace("\n", "")
    checks.same((shown.split("\n")[0], len(cells)), (first, len(nuggets)), f"{what}: one cell a nugget")
    checks.same([cell in "○◔◑◕●" for cell in cells], [" key=old " in line for line in nuggets], f"{what}: the cells tell the key")
    checks.same([cell in "·○" for cell in cells], [line.endswith("flakes=-") for line in nuggets], f"{what}: the cells tell what is empty")


def discarded(checks, rig, what):
    """The middle third of the contents, which ends within flakes, and the last nugget."""
    size = rig.drive.p * rig.drive.f
    capacity = rig.drive.n * size
    for offset, length in ((capacity // 3 + 1, capacity // 3), (capacity - size, size)):
        checks.same(rig.tool("discard", rig.image, *rig.keys(), "--offset", offset, "--length", length).returncode, 0, f"{what}: {offset} {length}")
    looked_at(checks, rig, what)
    checks.that(rig.tool("map", rig.image, *rig.keys()).stdout.decode().split("\n\n")[0].endswith("·"), f"{what}: a nugget with nothing held is shown empty")


def main():
    checks = Checks()
    for *shape, version in ((1, 1, 64, 1), (3, 2, 64, 1), (3, 2, 64, 2), (90, 64, 64, 2)):
        with Rig(f"pages {shape} {version}") as rig:
            rig.format(*shape, version)
            looked_at(checks, rig, f"{shape} fresh")
            for _ in range(12):
                at = rig.source.randrange(shape[0] * shape[1] * 64)
                rig.tool("write", rig.image, *rig.keys(), "--offset", at, data=bytes(min(3000, shape[0] * shape[1] * 64 - at)))
            if version == 2:
                discarded(checks, rig, f"{shape} discarded")
            fresh = rig.secret()
            rig.tool("begin", rig.image, *rig.keys(), "--new-secret", fresh)
            rig.present, rig.old = fresh, rig.present
            for nugget in range(0, shape[0], 2):
                rig.tool("sweep", rig.image, nugget, *rig.keys())
            looked_at(checks, rig, f"{shape} changing")
            checks.same(rig.tool("audit", rig.image, *rig.keys(), "--html", rig.folder / "none/page").returncode, SYSTEM, "a folder that isn't there")
            rig.tool("sweep", rig.image, *rig.keys())
            rig.tool("finish", rig.image, *rig.keys())
            rig.old = None
            looked_at(checks, rig, f"{shape} finished", finished=True)
            rig.counter.write_text("0\n")
            checks.same(rig.tool("audit", rig.image, *rig.keys(), "--html", rig.folder / "refused").returncode, 6, "a refused page")
            checks.that(not (rig.folder / "refused").exists(), "a refused page isn't written")
    checks.close()


main()
