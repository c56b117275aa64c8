#!/usr/bin/env python3
"""Makes designs with memories of each read mode, takes them through yosys and nextpnr, and compares the texts that this project's
icebram --by-mode and the stock icebram make of them with other contents.

Usage: check/stock_icebram.py [--short] [-k FOLDER]

With --short there is one memory for each read mode, on a 1k alone. With -k the files stay in FOLDER, a folder for each design. The programs yosys,
nextpnr-ice40 and icebram are those of Debian's packages.

For each device and each shape of a memory there are designs with one to three files' worth of such memories. The known contents and the
others are those of `icebram -g`; words have four bits at least, which narrower memories share. A memory may have part of a RAM's words
alone.

The last line is 'N passed, M failed'. Status 0: all passed; 1: two texts differ, one is refused, or nothing in it is replaced; 2: the arguments
aren't taken; 127: a program is missing.
"""
import pathlib
import sys
import tempfile

from modules.programs import need, program, stock
from modules.routing import Refused, output_of, placed, synthesize
from modules.tries import Tally

DEVICES = "1k", "8k"
# how many bits a word has, and how many words there are
SHAPES = [(16, 256), (8, 256), (8, 512), (4, 512), (4, 1024), (2, 2048), (1, 4096), (8, 768), (16, 512), (32, 1024)]
SHAPES_SHORT = [(16, 256), (8, 512), (4, 1024), (2, 2048)]
COPIES = (1, 2, 3)
# the 1k has sixteen RAMs of 4096 bits
ROOM = {"1k": 16 * 4096, "8k": 32 * 4096}


class Design:
    """A design: so many memories of a shape. Where their words have fewer than four bits, several of them have the words of one
    file between them."""

    def __init__(self, width, depth, copies):
        self.width, self.depth = width, depth
        self.parts = max(1, 4 // width)
        self.files = copies
        self.count = self.files * self.parts

    def known(self, words):
        """The words of each memory, from those of all files."""
        memories = []
        for file in range(self.files):
            own = words[self.depth * file:self.depth * (file + 1)]
            memories += [[word >> (self.width * part) & ((1 << self.width) - 1) for word in own] for part in range(self.parts)]
        return memories

    def text(self):
        """The design: each memory is written at one address and read at another, and all that is read goes to one output."""
        bits = max(8, (self.depth - 1).bit_length())
        lines = ["module top (input clk, input write, input data, output reg out);", "  reg [%d:0] address = 0;" % (bits - 1),
                 "  always @(posedge clk) address <= address + 1;"]
        for number in range(self.count):
            lines += ["  (* ram_style = \"block\" *) reg [%d:0] memory%d [0:%d];" % (self.width - 1, number, self.depth - 1),
                      "  reg [%d:0] word%d;" % (self.width - 1, number),
                      "  initial $readmemh(\"memory%d.hex\", memory%d);" % (number, number),
                      "  always @(posedge clk) begin",
                      "    if (write) memory%d[{address, 1'b1}] <= {%d{data}};" % (number, self.width),
                      "    word%d <= memory%d[address];" % (number, number), "  end"]
        read = " ^ ".join("^word%d" % number for number in range(self.count))
        return "\n".join(lines + ["  always @(posedge clk) out <= %s;" % read, "endmodule"]) + "\n"


def words_of(design, seed, work, name):
    """Writes a file of random words, and answers the words."""
    text = output_of([stock("icebram"), "-g", "-s", seed, max(4, design.width), design.depth * design.files], work)
    (work / name).write_text(text)
    return [int(word, 16) for word in text.split()]


def compare(design, device, work):
    """What is wrong with what the two make of a design, or nothing."""
    for number, memory in enumerate(design.known(words_of(design, 1, work, "from.hex"))):
        (work / ("memory%d.hex" % number)).write_text("".join("%x\n" % word for word in memory))
    words_of(design, 2, work, "to.hex")
    (work / "top.v").write_text(design.text())
    synthesize(work)
    placed(work, device, 1, pins=())
    with open(work / "top.asc", "rb") as text:
        theirs = output_of([stock("icebram"), "from.hex", "to.hex"], work, text)
    with open(work / "top.asc", "rb") as text:
        own = output_of([program(), "icebram", "--by-mode", "from.hex", "to.hex"], work, text)
    changed = own != (work / "top.asc").read_text()
    (work / "own.asc").write_text(own)
    (work / "stock.asc").write_text(theirs)
    if own != theirs:
        return "the two differ"
    return "" if changed else "nothing is replaced"


def try_design(tally, design, device, work):
    """Compares what the two make of a design."""
    work.mkdir(parents=True)
    try:
        fault = compare(design, device, work)
    except Refused as refused:
        fault = "refused: %s" % refused
    tally.tell("%s, %d memories of %d words of %d bits" % (device, design.count, design.depth, design.width), fault)


def main(words):
    is_short = words[:1] == ["--short"]
    words, keep = words[is_short:], None
    if len(words) == 2 and words[0] == "-k":
        keep, words = pathlib.Path(words[1]), []
    if words:
        print(__doc__, file=sys.stderr)
        return 2
    need("yosys", "nextpnr-ice40", "fpga-icestorm")
    tally = Tally()
    with tempfile.TemporaryDirectory() as made:
        folder = (keep or pathlib.Path(made)).resolve()
        for device in DEVICES[:1 if is_short else None]:
            for width, depth in SHAPES_SHORT if is_short else SHAPES:
                for copies in COPIES[:1 if is_short else None]:
                    design = Design(width, depth, copies)
                    if design.count * max(4096, width * depth) <= ROOM[device]:
                        try_design(tally, design, device, folder / ("%s_%dx%d_%d" % (device, width, depth, copies)))
    return tally.end()


if __name__ == "__main__":
    sys.exit(main(sys.argv[1:]))
