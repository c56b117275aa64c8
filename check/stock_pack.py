#!/usr/bin/env python3
"""Makes designs in Verilog for each device, takes them through yosys and nextpnr, and compares what the two icepack and the two iceunpack
make of their texts.

Usage: check/stock_pack.py [-m] [-k FOLDER] [COUNT [DEVICE...]]     COUNT is 5 and the devices are 384, 1k and 8k if they are missing

Of each family of designs in designs.py COUNT are made for each device; of memories, which an LP384 has not, not for that one. Of each text is
asked, under layouts/silicon.layout:

- this project's icepack writes the bytes of the stock one;
- this project's iceunpack of these bytes writes the tiles, contents of RAMs and extra bits of the stock one;
- the text that it writes packs to the same bytes.

The stock tools are those of Debian's package fpga-icestorm, and the pins are those of its chip databases. With -k the designs, their texts
and the stock bitstreams stay in FOLDER, and a text that is there already isn't made anew. With -m they are made alone, and nothing is
compared.

The last line is 'N passed, M failed'. Status 0: all passed; 1: something failed; 2: the arguments aren't taken; 127: a program or a database
is missing.
"""
import pathlib
import sys
import tempfile

from modules.designs import FAMILIES
from modules.programs import CHIPDB, need
from modules.routing import OPTIONS, PACKAGES, Refused, package_pins, placed, synthesized
from modules.stock import difference, pack_by_stock
from modules.tries import Tally


def make(family, number, device, work):
    """Writes the text of a design, where it isn't there."""
    work.mkdir(parents=True, exist_ok=True)
    if not (work / "top.asc").exists():
        synthesized(FAMILIES[family](number), package_pins(CHIPDB / ("chipdb-%s.txt" % device), PACKAGES[device]), work)
        placed(work, device, 1)


def try_design(tally, family, number, device, work, is_compared):
    """Makes a design, and compares."""
    try:
        make(family, number, device, work)
        pack_by_stock(work / "top.asc", work)
        fault = difference(work / "top.asc", work) if is_compared else ""
    except Refused as refused:
        fault = "refused: %s" % refused
    tally.tell("%s %s %d" % (device, family, number), fault)


def options_of(words):
    """Whether anything is compared, the folder that is kept, and the other words."""
    is_compared, keep = True, None
    if words[:1] == ["-m"]:
        is_compared, words = False, words[1:]
    if len(words) >= 2 and words[0] == "-k":
        keep, words = pathlib.Path(words[1]), words[2:]
    return is_compared, keep, words


def main(words):
    is_compared, keep, words = options_of(words)
    count, devices = int(words[0]) if words and words[0].isdecimal() else 5, words[1:] or list(OPTIONS)
    if (words and not words[0].isdecimal()) or any(device not in OPTIONS for device in devices):
        print(__doc__, file=sys.stderr)
        return 2
    need("yosys", "nextpnr-ice40", "fpga-icestorm", "chipdb")
    tally = Tally()
    with tempfile.TemporaryDirectory() as made:
        folder = (keep or pathlib.Path(made)).resolve()
        for device in devices:
            for family in FAMILIES:
                for number in range(1, count + 1):
                    # an LP384 has no memory
                    if (device, family) != ("384", "memory"):
                        try_design(tally, family, number, device, folder / ("%s_%d_%s" % (family, number, device)), is_compared)
    return tally.end()


if __name__ == "__main__":
    sys.exit(main(sys.argv[1:]))
