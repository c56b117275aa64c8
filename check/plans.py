#!/usr/bin/env python3
"""Looks that the floor plans of icebox_plan are XML that others read, show what the other tools tell of an image, and can be drawn.

Usage: check/plans.py [TEXT...]     without names: the examples, and a busy text of an HX8K; else these texts

Of the plan of each text, without a pin file and with that of an example:

- Python's XML reader takes it. It has at most 4 MB, no script, and nothing from elsewhere: each reference is to a shape in it.
- Each class of marks has as many elements as icebox_stat counts, each tile of the grid one ground, and each tile the links that are on.
- Each used cell stands in its tile and at its place, as the kind that icebox_explain tells, and hovering tells its table.
- The numbers of the legend are those of the marks.
- With a pin file hovering over a pin tells its name, and the name stands beside the grid.
- xmllint takes it.
- Chromium draws it: a picture of its size that isn't blank.

The plan of player.asc is docs/plan_player.svg. For an LP384 there is no chip database, so that text is refused. The examples need the chip databases
of Debian's package fpga-icestorm-chipdb. What needs xmllint or Chromium is skipped if it isn't there.

The last line is 'N passed, M failed' or 'N passed, M failed, K skipped'. Status 0: nothing failed; 1: something failed; 127: there is no program
or no database.
"""
import collections
import pathlib
import re
import struct
import subprocess
import sys
import tempfile
import xml.etree.ElementTree as ElementTree
import zlib

from modules.busy_8k import busy_text
from modules.programs import CHIPDB, TOP, missing, need, program
from modules.tries import Tally

EXAMPLES = TOP / "examples"
STORED = TOP / "docs/plan_player.svg"
MOST_BYTES = 4_000_000
MOST_SECONDS = 600
PACKAGES = {"1k": "tq144", "8k": "ct256"}
TOTALS = {"1k": (1280, 16, 112, 14, 18), "8k": (7680, 32, 256, 34, 34)}
MARKS = "lfcdruijopbqgzy"
LINK = "{http://www.w3.org/1999/xlink}href"
SVG = "{http://www.w3.org/2000/svg}"
# what has a script in it, or something from elsewhere
FOREIGN = {"script", "image", "a", "foreignObject", "animate", "set", "handler", "iframe", "font-face"}
TILE = re.compile(r"translate\((\d+) (\d+)\)$")


def output_of(*words):
    """What the program writes for these arguments."""
    run = subprocess.run([program(), *map(str, words)], stdin=subprocess.DEVNULL, capture_output=True)
    if run.returncode != 0:
        raise ValueError("status %d, and it says: %s" % (run.returncode, run.stderr.decode(errors="replace").strip()))
    return run.stdout


class Plan:
    """A plan as an XML reader finds it, with the text of the image and the pin file that it is of."""

    def __init__(self, device, text, pins=None):
        self.device, self.text, self.pins = device, text, pins
        self.database = CHIPDB / ("chipdb-%s.txt" % device)
        named = ["-p", pins, "-d", PACKAGES[device]] if pins else []
        self.bytes = output_of("icebox_plan", "--all-pins", *named, self.database, text)
        self.root = ElementTree.fromstring(self.bytes)
        self.classes = collections.Counter(name for element in self.root.iter() for name in element.get("class", "").split())
        self.tiles = [group for group in self.root.findall(SVG + "g") if group.find(SVG + "title") is not None]

    def counted(self, letters):
        """How many elements have one of these classes."""
        return sum(self.classes[letter] for letter in letters)

    def hovered(self):
        """The lines that hovering over a tile shows, for each tile."""
        return [(tile, tile.find(SVG + "title").text.split("\n")) for tile in self.tiles]


# ---- what is wrong with a plan, or nothing; the first line of each says what is looked at

def fault_of_bytes(plan):
    """its size, its bytes, and what it takes from elsewhere"""
    if len(plan.bytes) > MOST_BYTES:
        return "it has %d bytes" % len(plan.bytes)
    if set(plan.bytes) - set(range(32, 127)) - {10}:
        return "it has a byte that is neither printable ASCII nor a line feed"
    shapes = {element.get("id") for element in plan.root.iter()}
    for element in plan.root.iter():
        if element.tag.removeprefix(SVG) in FOREIGN or not element.tag.startswith(SVG):
            return "it has an element %s" % element.tag
        for key, value in element.items():
            is_outside = key.endswith("href") and (key != LINK or value[:1] != "#" or value[1:] not in shapes)
            if is_outside or key.startswith("on") or "url(" in value:
                return "an element %s has %s=%s" % (element.tag, key, value)
    style = plan.root.find(SVG + "style").text
    return "its style sheet takes something from elsewhere" if "url(" in style or "@" in style else ""


def fault_of_counts(plan):
    """its classes, and what icebox_stat counts"""
    lines = output_of("icebox_stat", "--all-pins", plan.database, plan.text).decode().splitlines()
    told = {word: int(number) for word, number in (line.split() for line in lines)}
    columns, rows = TOTALS[plan.device][3:]
    links = sum(int(lines[-1].removeprefix("links ")) for _, lines in plan.hovered())
    drawn = {"luts": plan.counted("lfcd"), "flops": plan.counted("fd"), "carries": plan.counted("cd"), "rams": plan.counted("r"),
             "pins": plan.counted("ijopbq"), "globals": plan.counted("gz")}
    wrong = ["%s are %d and not %d" % (word, number, told[word]) for word, number in drawn.items() if number != told[word]]
    if plan.counted("u") != told["rams"]:
        wrong.append("upper tiles of RAMs are %d" % plan.counted("u"))
    grounds = sum(plan.classes["s%d" % shade] for shade in range(7))
    if grounds != columns * rows - 4 or len(plan.tiles) != grounds:
        wrong.append("tiles are %d, and their grounds %d" % (len(plan.tiles), grounds))
    if links != told["buffers"] + told["routings"]:
        wrong.append("links are %d" % links)
    return "; ".join(wrong)


def explained_cells(plan):
    """The used cells by their place: the kind and the table, as icebox_explain tells them."""
    cells, place = {}, None
    for line in output_of("icebox_explain", plan.database, plan.text).decode().splitlines():
        words = line.split()
        if words[0].startswith("."):
            place = tuple(words[1:3]) if words[0] == ".logic_tile" else None
        elif place and re.fullmatch("LC_[0-7]", words[0]):
            kind = {"00": "l", "01": "f", "10": "c", "11": "d"}[words[2][:2]]
            cells[(*place, words[0][3])] = kind, "%04x" % int(words[1][::-1], 2)
    return cells


def fault_of_cells(plan):
    """the places and kinds of cells, and what icebox_explain tells"""
    margin, rows = 150 if plan.pins else 34, TOTALS[plan.device][4]
    drawn = {}
    for tile, lines in plan.hovered():
        left, top = map(int, TILE.match(tile.get("transform")).groups())
        x, y = (left - margin) // 42, rows - 1 - (top - 60 - margin) // 42
        if lines[0].split()[1:] != [str(x), str(y)]:
            return "the tile at column %d and row %d says %s" % (x, y, lines[0])
        tables = {line[3]: line.split()[3].removeprefix("0x") for line in lines if line.startswith("lc ")}
        for mark in tile.iter(SVG + "use"):
            if mark.get("class") in ("l", "f", "c", "d"):
                cell = str((int(mark.get("x")) - 3) // 18 + 2 * ((30 - int(mark.get("y"))) // 9))
                drawn[(str(x), str(y), cell)] = mark.get("class"), tables.get(cell)
    told = explained_cells(plan)
    wrong = sorted(place for place in set(drawn) | set(told) if drawn.get(place) != told.get(place))
    return "" if not wrong else "%d cells are others, the first at %s: %s and not %s" % (
        len(wrong), " ".join(wrong[0]), drawn.get(wrong[0]), told.get(wrong[0]))


def fault_of_legend(plan):
    """the numbers of its legend and its title"""
    legend = next(group for group in plan.root.findall(SVG + "g") if group.find(SVG + "title") is None)
    texts = [text.text for text in legend.iter(SVG + "text") if text.get("class") == "v" and text.text.isdigit()]
    cells, rams, pins = TOTALS[plan.device][:3]
    used = plan.counted("lfcd"), plan.counted("r"), plan.counted("ijopbq")
    wanted = [cells - used[0], *map(plan.counted, "lfcd"), rams - used[1], used[1], pins - used[2], *map(plan.counted, "ijopbq"), plan.counted("y")]
    if list(map(int, texts)) != wanted:
        return "it says %s, and the marks are %s" % (" ".join(texts), " ".join(map(str, wanted)))
    title = "HX%s: %d of %d logic cells, %d of %d block RAMs, %d of %d pins" % (plan.device.upper(), used[0], cells, used[1], rams, used[2], pins)
    return "" if plan.root.find(SVG + "title").text == title else "the title is %s" % plan.root.find(SVG + "title").text


def places_of(package, database):
    """The places of the pins of a package, as the chip database has them."""
    section = database.read_text().partition(".pins %s\n" % package)[2].partition("\n.")[0]
    return {words[0]: tuple(words[1:]) for words in map(str.split, section.splitlines()) if words}


def fault_of_names(plan):
    """the names of pins"""
    places = places_of(PACKAGES[plan.device], plan.database)
    lines = [line.split() for line in plan.pins.read_text().splitlines() if line.startswith("set_io")]
    wanted = {places[words[2]]: words[1] for words in lines}
    told = {}
    for _, lines in plan.hovered():
        for line in lines:
            if line.startswith("pin ") and " name " in line:
                told[(*lines[0].split()[1:], line[4])] = line.partition(" name ")[2]
    beside = sorted(text.text for text in plan.root.iter(SVG + "text") if text.get("class") in ("n", "e"))
    if told != wanted:
        return "hovering says %s" % told
    return "" if beside == sorted(wanted.values()) else "beside the grid stands %s" % " ".join(beside)


def fault_by_xmllint(plan, folder):
    """xmllint takes it"""
    (folder / "plan.svg").write_bytes(plan.bytes)
    run = subprocess.run(["xmllint", "--noout", "--nonet", folder / "plan.svg"], capture_output=True, text=True)
    return run.stderr if run.returncode else ""


def rows_of(picture):
    """The size of a picture (PNG), and its rows as they were packed."""
    width, height, parts, at = *struct.unpack(">II", picture[16:24]), b"", 8
    while at < len(picture):
        length, kind = struct.unpack(">I4s", picture[at:at + 8])
        parts += picture[at + 8:at + 8 + length] if kind == b"IDAT" else b""
        at += length + 12
    unpacked = zlib.decompress(parts)
    step = len(unpacked) // height
    return width, height, [unpacked[row * step:(row + 1) * step] for row in range(height)]


def fault_by_chromium(plan, folder):
    """Chromium draws it"""
    (folder / "plan.svg").write_bytes(plan.bytes)
    size = plan.root.get("width"), plan.root.get("height")
    picture = folder / "plan.png"
    picture.unlink(missing_ok=True)
    words = ["--headless", "--no-sandbox", "--disable-gpu", "--hide-scrollbars", "--user-data-dir=%s" % (folder / "chromium"),
             "--screenshot=%s" % picture, "--window-size=%s,%s" % size, (folder / "plan.svg").as_uri()]
    try:
        run = subprocess.run(["chromium", *words], stdin=subprocess.DEVNULL, capture_output=True, text=True, errors="replace", timeout=MOST_SECONDS)
    except subprocess.TimeoutExpired:
        return "it doesn't end within %d seconds" % MOST_SECONDS
    if not picture.exists():
        return "it draws nothing: status %d, %s" % (run.returncode, run.stderr[-300:])
    width, height, rows = rows_of(picture.read_bytes())
    if (str(width), str(height)) != size:
        return "its picture is %d by %d" % (width, height)
    return "" if len(set(rows)) > height // 2 else "its picture has %d different rows of %d" % (len(set(rows)), height)


# ---- what is tried

PARTS = (fault_of_bytes, fault_of_counts, fault_of_cells, fault_of_legend)
BY_OTHERS = (("xmllint", fault_by_xmllint), ("chromium", fault_by_chromium))


def try_plan(tally, name, text, pins, folder):
    """All that is asked of the plan of a text."""
    device = re.search(r"^\.device (\w+)", text.read_text(), re.M).group(1)
    name += " with its pin file" if pins else ""
    try:
        plan = Plan(device, text, pins)
    except (ValueError, ElementTree.ParseError) as error:
        tally.tell(name, str(error))
        return
    for part in (*PARTS, *([fault_of_names] if pins else [])):
        tally.tell("%s: %s" % (name, part.__doc__), part(plan))
    for tool, part in BY_OTHERS:
        lacking = missing([tool])
        if lacking:
            tally.skip("%s: %s" % (name, part.__doc__), lacking)
        else:
            tally.tell("%s: %s" % (name, part.__doc__), part(plan, folder))
    if text == EXAMPLES / "player_1k/player.asc" and pins:
        tally.tell("docs/plan_player.svg is the plan", "" if plan.bytes == STORED.read_bytes() else "it is another")


def try_least(tally):
    """The text of an LP384."""
    run = subprocess.run([program(), "icebox_plan", CHIPDB / "chipdb-1k.txt", EXAMPLES / "dimmer_384/dimmer.asc"], capture_output=True)
    is_refused = (run.returncode, run.stdout, run.stderr) == (1, b"", b"icebox_plan: Device\n")
    tally.tell("dimmer.asc is refused", "" if is_refused else "status %d, and it says: %s" % (run.returncode, run.stderr))


def main(names):
    need("chipdb")
    tally = Tally()
    with tempfile.TemporaryDirectory(prefix="plans-", ignore_cleanup_errors=True) as name:
        folder = pathlib.Path(name)
        texts = [pathlib.Path(name) for name in names] or sorted(path for path in EXAMPLES.rglob("*.asc") if path.stem != "dimmer")
        for text in texts:
            try_plan(tally, text.name, text, None, folder)
            pins = text.with_suffix(".pcf")
            if pins.exists():
                try_plan(tally, text.name, text, pins, folder)
        if not names:
            (folder / "busy.asc").write_text(busy_text(CHIPDB / "chipdb-8k.txt", 1))
            try_plan(tally, "a busy text", folder / "busy.asc", None, folder)
            try_least(tally)
    return tally.end()


if __name__ == "__main__":
    sys.exit(main(sys.argv[1:]))
