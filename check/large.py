#!/usr/bin/env python3
"""Takes each tool over its largest ordinary inputs, and looks that each ends with 0.

Usage: check/large.py

A call may answer that memory ran out at any size, and its proof would still hold. So this looks that it doesn't where there is
memory: a full text of an HX8K, both chip databases, a module of 40,000 wires, one of 5,000 registers and as many wires, a text with 100,000
symbols and 100,000 extra bits, 10,000 names of wires, files of words of 64 digits, 1 MiB of events, a long list of 60,000 lines, 64 lists of 64
KiB of events, and 64 long lists. Beside these stands an example for an LP384.

With yosys and nextpnr-ice40 a design that fills the pins of an HX8K is routed too, with 32 block RAMs, two PLLs and a register as a clock. Without
them these runs are skipped, by name.

The chip databases are those of Debian's package fpga-icestorm-chipdb. The last line is 'N passed, M failed'. Status 0: all passed; 1:
something failed; 2: the arguments aren't taken; 127: there is no program or no database.
"""
import os
import random
import sys
import tempfile

from modules.busy_8k import busy_text
from modules.full_8k import full_text
from modules.programs import CHIPDB, TOP, missing, need
from modules.routing import PACKAGES, package_pins, placed, synthesize, write_pins
from modules.tries import Tries

WIRES = 40_000
SYMBOLS = 100_000
EXTRA_BITS = 100_000
EVENT_BYTES = 1_048_576
LISTS, LIST_BYTES = 64, 65_536
WORD_DIGITS = 64
WORDS = 256_000
REGISTERS = 5_000
NAMES = 10_000
LONG_LINES = 60_000
RAMS = 32


def module_of(wires):
    """A module in which each wire is a LUT of the input and of the wire before."""
    lines = ["module chain (a, b);", "  input a;", "  output b;", "  wire n_0 = a;"]
    for k in range(1, wires):
        lines.append("  wire n_%d = 16'h6666 >> {1'b0, 1'b0, n_%d, a};" % (k, k - 1))
    lines += ["  assign b = n_%d;" % (wires - 1), "endmodule"]
    return "\n".join(lines) + "\n"


def text_with_symbols():
    """A text of a 1k with names of nets, and one extra bit that is set many times."""
    lines = [".comment", "many names", ".device 1k"]
    lines += [".extra_bit 0 330 143"] * EXTRA_BITS
    lines += [".sym %d top.unit.net_%d" % (k, k) for k in range(SYMBOLS)]
    return "\n".join(lines) + "\n"


def registered(count):
    """A module with so many registers and wires: a ring of registers, each the inverse of the one before."""
    lines = ["module ring (clk, out);", "  input clk;", "  output out;"]
    lines += ["  reg ff_%d = 1'b0;" % k for k in range(count)]
    lines += ["  wire n_%d = 16'h5555 >> {1'b0, 1'b0, 1'b0, ff_%d};" % (k, k) for k in range(count)]
    lines += ["  assign out = n_%d;" % (count - 1)]
    lines += ["  always @(posedge clk) if (1'b1) begin if (1'b0) ff_%d <= 1'b0; else ff_%d <= 16'haaaa >> {1'b0, 1'b0, 1'b0, n_%d}; end"
              % (k, k, (k - 1) % count) for k in range(count)]
    return "\n".join([*lines, "endmodule"]) + "\n"


def filling(pins):
    """A design in Verilog that fills these pins, but for those of the PLLs: block RAMs, two PLLs, and a counter whose last bit is a clock."""
    inputs, outputs = pins[:len(pins) // 2], pins[len(pins) // 2:]
    lines = ["module top (input clk, input refa, input refb, input [%d:0] d, output [%d:0] q);" % (len(inputs) - 4, len(outputs) - 1)]
    for name in "ab":
        lines += ["  wire pll_%s; SB_PLL40_CORE #(.FEEDBACK_PATH(\"SIMPLE\"), .DIVR(4'd0), .DIVF(7'd63), .DIVQ(3'd4), .FILTER_RANGE(3'd1)) %s_pll"
                  " (.REFERENCECLK(ref%s), .PLLOUTGLOBAL(pll_%s), .RESETB(1'b1), .BYPASS(1'b0));" % (name, name, name, name)]
    lines += ["  reg [3:0] divider = 0; always @(posedge clk) divider <= divider + 1;", "  reg [7:0] at = 0; always @(posedge divider[3]) at <= at + 1;"]
    for k in range(RAMS):
        lines += ["  reg [15:0] mem_%d [0:255], rd_%d; always @(posedge %s) begin if (d[%d]) mem_%d[at] <= d[%d +: 16]; rd_%d <= mem_%d[at ^ %d]; end"
                  % (k, k, ("pll_a", "pll_b", "clk")[k % 3], k % 40, k, k % 40, k, k, k)]
    lines += ["  assign q[%d] = rd_%d[%d] ^ d[%d] ^ rd_%d[%d];" % (k, k % RAMS, k % 16, k % (len(inputs) - 3), (k + 1) % RAMS, (k + 3) % 16)
              for k in range(len(outputs))]
    return "\n".join([*lines, "endmodule"]) + "\n"


def filled_text(folder):
    """Routes such a design for an HX8K in the folder, as top.asc, and gives the number of its pins."""
    pins = package_pins(CHIPDB / "chipdb-8k.txt", PACKAGES["8k"])
    # a pin of the PLLs' outputs can't be an input
    usable = [pin for pin, port in pins.items() if port not in ("io_16_0_0", "io_16_0_1", "io_17_0_0", "io_16_33_0", "io_16_33_1", "io_17_33_0")]
    inputs = ["clk", "refa", "refb", *("d[%d]" % k for k in range(len(usable) // 2 - 3))]
    outputs = ["q[%d]" % k for k in range(len(usable) - len(usable) // 2)]
    (folder / "top.v").write_text(filling(usable))
    write_pins(dict(zip(inputs + outputs, usable)), folder)
    synthesize(folder)
    placed(folder, "8k", 1)
    return len(usable)


def words_of(seed):
    """Pseudo-random words of 64 digits from a seed, so that no two columns are equal."""
    rng = random.Random(seed)
    return "".join("%064x\n" % rng.getrandbits(4 * WORD_DIGITS) for _ in range(WORDS))


def events(size):
    """As many events as fit into so many bytes."""
    lines = ["a 1\n", "a 0\n"]
    return "".join(lines * (size // 8))


class Largest(Tries):
    """Runs that must end with 0."""

    def try_run(self, what, words, source=os.devnull):
        """Runs the program with these arguments and this file as standard input, and tells how it ended."""
        ended = self.run(words, source)
        self.tell("%s (%.2f s)" % (what, ended.seconds), ended.status and "status %d, %s" % (ended.status, ended.said()))


def try_modules(tries):
    """The runners over a module with many registers, long lists, and lists of names."""
    path = tries.path
    (tries.folder / "ring.v").write_text(registered(REGISTERS))
    (tries.folder / "clock").write_text("clk 1\nclk 0\n" * 20)
    (tries.folder / "lines").write_text("clk ~ 1\n" * (LONG_LINES - 3) + "repeat 10\nclk ~ 2\nend\n")
    (tries.folder / "few").write_text("a 1\na 0\n" * 20)
    (tries.folder / "named").write_text("".join("n_%d top.unit.bit[%d]\n" % (k, k) for k in range(NAMES // 2)))
    (tries.folder / "chained").write_text("".join("n_%d top.unit.bit[%d]\n" % (k, k) for k in range(NAMES)))
    long_list = path("lines")
    tries.try_run("vlogrun -s of 5,000 registers", ["vlogrun", "-s", path("ring.v"), path("clock")])
    tries.try_run("vlogrun --vcd of 5,000 registers", ["vlogrun", "--vcd", path("ring.v"), path("clock")])
    tries.try_run("vlogrun --vcd --names of 5,000 names", ["vlogrun", "--vcd", "--names", path("named"), path("ring.v"), path("clock")])
    tries.try_run("vlogrun --vcd --names of 10,000 names", ["vlogrun", "--vcd", "--names", path("chained"), path("chain.v"), path("few")])
    tries.try_run("vlogrun --long over a list of 60,000 lines", ["vlogrun", "--long", "--last", path("ring.v"), long_list])
    tries.try_run("vlogrun --long --changes over a list of 60,000 lines", ["vlogrun", "--long", "--changes", path("ring.v"), long_list])
    (tries.folder / "long").write_text("repeat 1000\na ~ 1000\nend\n")
    (tries.folder / "loud").write_text("repeat 2000\na ~ 2\nend\n")
    tries.try_run("vlogrun over 1,000,000 events of a long list", ["vlogrun", "--long", path("small.v"), path("long")])
    tries.try_run("vlogsweep --long over 64 lists", ["vlogsweep", "--long", path("small.v")] + [path("loud")] * LISTS)
    tries.try_run("vlogsweep --long --changes over 64 lists", ["vlogsweep", "--long", "--changes", path("small.v")] + [path("loud")] * LISTS)
    tries.try_run("vlogsweep over 64 lists of 64 KiB", ["vlogsweep", path("small.v")] + [path("list")] * LISTS)


def try_filled(tries):
    """What reads a design, over one that fills an HX8K's pins."""
    lacking = missing(["yosys", "nextpnr-ice40"])
    if lacking:
        tries.skip("a design that fills an HX8K's pins", lacking)
        return
    path, large = tries.path, str(CHIPDB / "chipdb-8k.txt")
    pins = filled_text(tries.folder)
    options = ["--used-inputs", "--all-pins", "--register-clocks"]
    tries.try_run("icebox_vlog of %d pins, 32 RAMs and two PLLs" % pins, ["icebox_vlog", *options, "--names", path("names"), large, path("top.asc")])
    (tries.folder / "out").rename(tries.folder / "chip.v")
    tries.try_run("vlogrun --vcd --names of this module", ["vlogrun", "--vcd", "--names", path("names"), path("chip.v"), os.devnull])
    tries.try_run("icebox_plan of it", ["icebox_plan", "--all-pins", "-p", path("top.pcf"), "-d", PACKAGES["8k"], large, path("top.asc")])


def try_all(tries):
    path = tries.path
    silicon = str(TOP / "layouts/silicon.layout")
    (tries.folder / "full.asc").write_text(full_text())
    (tries.folder / "busy.asc").write_text(busy_text(CHIPDB / "chipdb-8k.txt", 1))
    (tries.folder / "names.asc").write_text(text_with_symbols())
    (tries.folder / "chain.v").write_text(module_of(WIRES))
    (tries.folder / "events").write_text(events(EVENT_BYTES))
    (tries.folder / "list").write_text(events(LIST_BYTES))
    (tries.folder / "from.hex").write_text(words_of(1))
    (tries.folder / "to.hex").write_text(words_of(2))
    (tries.folder / "least.asc").write_text(".device 1k\n")
    tries.try_run("icepack of the full 8k text", ["icepack", path("full.asc"), path("full.bin")])
    tries.try_run("icepack of the full 8k text for a chip", ["icepack", "--layout", silicon, path("full.asc"), path("chip.bin")])
    tries.try_run("iceunpack of its bitstream", ["iceunpack", path("full.bin")])
    tries.try_run("iceunpack of its bitstream for a chip", ["iceunpack", "--layout", silicon, path("chip.bin")])
    tries.try_run("icepack of a text with many symbols and extra bits", ["icepack", path("names.asc")])
    tries.try_run("icepack of an example for an LP384", ["icepack", "--layout", silicon, str(TOP / "examples/dimmer_384/dimmer.asc")])
    tries.try_run("icemulti of four images", ["icemulti", "-o", path("boot.bin")] + [path("full.bin")] * 4)
    tries.try_run("icesplit of their boot file", ["icesplit", path("boot.bin")])
    tries.try_run("icesplit of its last image", ["icesplit", "-x", "3", path("boot.bin"), path("last.bin")])
    tries.try_run("icebram with words of 64 digits over the full text", ["icebram", path("from.hex"), path("to.hex")], path("full.asc"))
    for device, text in (("1k", "least.asc"), ("8k", "full.asc")):
        database = str(CHIPDB / ("chipdb-%s.txt" % device))
        tries.try_run("icebox_explain of %s" % text, ["icebox_explain", database, path(text)])
    large = str(CHIPDB / "chipdb-8k.txt")
    tries.try_run("icebox_diff of the full 8k text and a busy 8k", ["icebox_diff", large, path("full.asc"), path("busy.asc")])
    tries.try_run("icebox_diff of equal 8k texts", ["icebox_diff", "-q", large, path("busy.asc"), path("busy.asc")])
    tries.try_run("icebox_stat of a busy 8k", ["icebox_stat", str(CHIPDB / "chipdb-8k.txt"), path("busy.asc")])
    tries.try_run("icebox_plan of a busy 8k", ["icebox_plan", "--all-pins", str(CHIPDB / "chipdb-8k.txt"), path("busy.asc")])
    tries.try_run("icebox_vlog of an empty 1k", ["icebox_vlog", str(CHIPDB / "chipdb-1k.txt"), path("least.asc")])
    tries.try_run("icebox_vlog of a busy 8k", ["icebox_vlog", str(CHIPDB / "chipdb-8k.txt"), path("busy.asc")])
    tries.try_run("vlogrun of 40,000 wires", ["vlogrun", path("chain.v")])
    (tries.folder / "small.v").write_text(module_of(10))
    tries.try_run("vlogrun over 1 MiB of events", ["vlogrun", path("small.v"), path("events")])
    tries.try_run("vlogrun --vcd over 1 MiB of events", ["vlogrun", "--vcd", path("small.v"), path("events")])
    try_modules(tries)
    small = str(CHIPDB / "chipdb-1k.txt")
    (tries.folder / "few.pcf").write_text("set_io led A2\n")
    tries.try_run("icebox_plan with the pins of swg16tr", ["icebox_plan", "-p", path("few.pcf"), "-d", "swg16tr", small, path("least.asc")])
    try_filled(tries)
    tries.try_run("selfrun of an 8k", ["selfrun", "8k", "7", "1000"])


def main(words):
    if words:
        print(__doc__, file=sys.stderr)
        return 2
    need("chipdb")
    with tempfile.TemporaryDirectory() as folder:
        tries = Largest(folder)
        try_all(tries)
        return tries.end()


if __name__ == "__main__":
    sys.exit(main(sys.argv[1:]))
