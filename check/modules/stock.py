"""Compares this project's icepack and iceunpack with the stock ones, which Debian's package fpga-icestorm has."""
from modules.programs import TOP, program, stock
from modules.routing import output_of

LAYOUT = TOP / "layouts/silicon.layout"
PARTS = ".io_tile", ".logic_tile", ".ramb_tile", ".ramt_tile", ".ram_data", ".extra_bit"


def parts(path):
    """The tiles, contents of RAMs and extra bits of a text, each with the lines below it."""
    found, kept = [], False
    for line in path.read_text().splitlines():
        if line.startswith("."):
            kept = line.split()[0] in PARTS
            if kept:
                found.append(line)
        elif kept and line:
            found[-1] += " " + line
    return sorted(found)


def pack_by_stock(text, work):
    """Writes the bitstream and the unpacked text of the stock tools."""
    output_of([stock("icepack"), text, "stock.bin"], work)
    output_of([stock("iceunpack"), "stock.bin", "stock.asc"], work)


def own(work, tool, source, target):
    """Runs this project's tool under the layout of real chips."""
    output_of([program(), tool, "--layout", LAYOUT, source, target], work)


def first_difference(what, own_path, stock_path):
    """Where two files differ, or nothing."""
    ours, theirs = own_path.read_bytes(), stock_path.read_bytes()
    if ours == theirs:
        return ""
    place = next((place for place, pair in enumerate(zip(ours, theirs)) if pair[0] != pair[1]), min(len(ours), len(theirs)))
    return "%s differ at byte %d of %d and %d, counted from 0" % (what, place, len(ours), len(theirs))


def difference(text, work):
    """What differs between this project's tools and the stock ones over a text, or nothing."""
    own(work, "icepack", text, "own.bin")
    own(work, "iceunpack", "stock.bin", "own.asc")
    own(work, "icepack", "own.asc", "again.bin")
    fault = first_difference("the bitstreams", work / "own.bin", work / "stock.bin")
    if not fault and parts(work / "own.asc") != parts(work / "stock.asc"):
        fault = "the unpacked tiles differ"
    return fault or first_difference("the bitstream and the one that is packed again", work / "stock.bin", work / "again.bin")
