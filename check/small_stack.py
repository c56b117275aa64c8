#!/usr/bin/env python3
"""Gives tools long chains and long lists while the stack is small, and looks that they don't call themselves for each link of them.

Usage: check/small_stack.py [LENGTH]     100,000 if it is missing

With a stack of 256 KiB, a function that calls itself for each of 100,000 nets would have less than 3 bytes for each call. Each job below must end as
it would with a large stack: a chain of nets is explained, counted and written as a module, which is run over one list and over 64; a cycle
of all nets is refused, and so is one in which a register is a clock; a text of extra bits, of names or of comments is packed.

The last line is 'N passed, M failed'. Status 0: all passed; 1: something failed; 2: the arguments aren't taken; 127: there is no program.
"""
import os
import sys
import tempfile

from modules.small_chip import TILES, text_of
from modules.tries import Tries

STACK = 256 << 10
PINS = ".device 1k 14 18 %d\n.io_tile_bits 18 16\n" + "".join("IOB_0.PINTYPE_%d B%d[0]\n" % (row, row) for row in range(6))
INPUT, OUTPUT = TILES[:2]
# a flip-flop, and one that is reset at once
FLIP_FLOP, AT_ONCE = ((0, 37), (0, 45)), ((0, 37), (0, 45), (1, 45))
RING = (".logic_tile 1 1", 54, AT_ONCE), (".logic_tile 2 1", 54, FLIP_FLOP)


def database(length, is_cycle):
    """A chip database with a buffer from each net to the next. The first net is that of a pin, or a buffer leads to it from the last."""
    first = ".buffer 1 1 0 B0[1]\n0 %d\n" % (length - 1) if is_cycle else ".net 0\n0 1 io_0/D_IN_0\n"
    buffers = "".join(".buffer 1 1 %d B0[0]\n0 %d\n" % (net, net - 1) for net in range(1, length))
    return PINS % length + ".net %d\n0 2 io_0/D_OUT_0\n" % (length - 1) + first + buffers


def ring(length):
    """A chip database with a flip-flop that clocks another, from which a chain of buffers leads back to the reset of the first."""
    cells = ".logic_tile_bits 54 16\nLC_0 %s\n" % " ".join("B%d[%d]" % (row, column) for row in (0, 1) for column in range(36, 46))
    nets = ((0, "1 1 lutff_0/out\n2 1 lutff_global/clk"), (1, "2 1 lutff_0/out"), (length - 1, "1 1 lutff_global/s_r"))
    buffers = "".join(".buffer 1 1 %d B0[0]\n0 %d\n" % (net, net - 1) for net in range(2, length))
    return PINS % length + cells + "".join(".net %d\n%s\n" % net for net in nets) + buffers


def module(length):
    """The module of the chain."""
    wires = "".join("  wire n_%d = n_%d;\n" % (net, net - 1) for net in range(1, length))
    return ("module chip (io_0_1_0, io_0_2_0);\n  input io_0_1_0;\n  output io_0_2_0;\n  wire n_0 = io_0_1_0;\n" + wires
            + "  assign io_0_2_0 = n_%d;\nendmodule\n" % (length - 1))


class Deep(Tries):
    """Runs with a small stack."""

    def put(self, name, text):
        """Writes a file, and gives its name."""
        (self.folder / name).write_text(text)
        return self.path(name)

    def try_job(self, words, status, output, line=""):
        """A run that should end with that status and that line, and write that; anything where this is None."""
        ended = self.run(words, stack=STACK)
        written = self.output().decode(errors="replace")
        fault = ended.status != status and "status %s, %s" % (ended.status, ended.said())
        fault = fault or (ended.errors.decode() != line and "it says: " + ended.said())
        fault = fault or (output is not None and written != output and "it writes something else")
        self.tell(" ".join(os.path.basename(word) for word in words[:4]), fault)


def main(given):
    if len(given) > 1 or not all(word.isdecimal() and int(word) > 1 for word in given):
        print(__doc__, file=sys.stderr)
        return 2
    length = int(given[0]) if given else 100000
    with tempfile.TemporaryDirectory() as folder:
        tries = Deep(folder)
        chain = tries.put("chain", database(length, False))
        cycle = tries.put("cycle", database(length, True))
        pins, last = tries.put("pins", text_of((INPUT, OUTPUT))), tries.put("last", text_of((OUTPUT,)))
        tries.try_job(["icebox_explain", chain, pins], 0, None)
        tries.try_job(["icebox_diff", chain, pins, last], 0, None)
        tries.try_job(["icebox_stat", chain, pins], 0, None)
        tries.try_job(["icebox_plan", chain, pins], 0, None)
        tries.try_job(["icebox_vlog", chain, pins], 0, module(length))
        tries.try_job(["icebox_vlog", cycle, last], 1, "", "icebox_vlog: net 0: Loop\n")
        words = ["icebox_vlog", tries.put("ring", ring(length)), tries.put("cells", text_of(RING))]
        tries.try_job(words, 1, "", "icebox_vlog: tile 2 1 cell 0: Clock net 0\n")
        tries.try_job(words + ["--register-clocks"], 1, "", "icebox_vlog: net 0: Loop\n")
        events = tries.put("events", "io_0_1_0 1\n")
        tries.try_job(["vlogrun", tries.put("module", module(length)), events], 0, "0\n1\n")
        tries.try_job(["vlogsweep", tries.path("module")] + 64 * [events], 0, 64 * ("events %s\n0\n1\n" % events))
        for name, line in (("extra bits", ".extra_bit 0 330 143\n"), ("names", ".sym 0 name\n"), ("empty lines", "\n")):
            tries.try_job(["icepack", tries.put(name, ".device 1k\n" + line * length)], 0, None)
        tries.try_job(["icepack", tries.put("extra bits of an LP384", ".device 384\n" + ".extra_bit 0 180 78\n" * length)], 0, None)
        tries.try_job(["icepack", tries.put("comments", ".comment\na\n" * length + ".device 1k\n")], 0, None)
        return tries.end()


if __name__ == "__main__":
    sys.exit(main(sys.argv[1:]))
