#!/usr/bin/env python3
"""Makes designs in Verilog with a PLL of each primitive, takes them through yosys, nextpnr and icebox_vlog --all-pins, and compares the written
modules with the Verilog by Icarus Verilog.

Usage: check/plls.py [--short] [-k FOLDER] [COUNT]

COUNT is how many designs are made for each primitive and device, 8 if it is missing. With --short there is one, for a 1k alone. The chip
databases are those of Debian's package fpga-icestorm-chipdb. With -k the files stay in FOLDER, a folder for each design.

The outputs of the PLL clock registers at both edges, and go into logic. In the Verilog that is simulated they are inputs, as they are in the
written module: after the start and after each of 2000 events, of these or of other inputs, the outputs are compared. Designs and events are
random, but always the same.

The last line is 'N passed, M failed'. Status 0: all passed; 1: something failed; 2: the arguments aren't taken; 127: a database or a program is
missing.
"""
import pathlib
import random
import re
import sys
import tempfile

from modules.designs import Design
from modules.programs import CHIPDB, need, program
from modules.routing import PACKAGES, Refused, output_of, package_pins, placed, synthesized
from modules.tries import Tally

DEVICES = "1k", "8k"
# of each primitive the port of its reference, and the last parts of the names of its outputs' ports
PRIMITIVES = {
    "SB_PLL40_CORE": ("REFERENCECLK", {"a": ""}),
    "SB_PLL40_PAD": ("PACKAGEPIN", {"a": ""}),
    "SB_PLL40_2_PAD": ("PACKAGEPIN", {"a": "A", "b": "B"}),
    "SB_PLL40_2F_CORE": ("REFERENCECLK", {"a": "A", "b": "B"}),
    "SB_PLL40_2F_PAD": ("PACKAGEPIN", {"a": "A", "b": "B"}),
}
SETTINGS = ".FEEDBACK_PATH(\"SIMPLE\"), .DIVR(4'd0), .DIVF(7'd63), .DIVQ(3'd4), .FILTER_RANGE(3'd1)"
REGISTERS = 8
EVENTS = 2000


class Clocked(Design):
    """Registers and logic at the outputs of a PLL."""

    is_apart = True

    def __init__(self, primitive, number):
        draws = random.Random("%s %d" % (primitive, number))
        self.primitive = primitive
        self.reference, self.made = PRIMITIVES[primitive]
        # the reference of a PAD is at the place of the PLL's output, and no port of the module
        self.inputs = ["clk", "d0", "d1"] + (["reference"] if self.reference == "REFERENCECLK" else [])
        self.outputs = ["o%d" % place for place in range(REGISTERS)]
        self.ways = [way for name in self.made for way in ("global_" + name, "core_" + name)]
        self.is_locked = draws.randrange(2) == 1
        self.lines = []
        for place in range(REGISTERS):
            self.lines.append(self.line(place, draws))
        self.driven = ["pll_" + name for name in self.used()]
        self.changed = draws.choices(self.inputs + self.driven, [2] * len(self.inputs) + [5] * len(self.driven), k=EVENTS)

    def line(self, place, draws):
        """What an output becomes: logic, or a register."""
        cores = [way for way in self.ways if way.startswith("core")] + (["lock"] if self.is_locked else [])
        # logic that changes with the clock isn't data: the source would depend on the order of its blocks
        is_after_register = place > 0 and "@*" not in self.lines[place - 1]
        value = draws.choice(["d0", "d1", "d0 ^ d1", "o%d ^ d0" % (place - 1) if is_after_register else "~d0"])
        kind = draws.randrange(4) if place > 1 else place
        if kind == 0:
            return "always @(%s %s) o%d <= %s;" % (draws.choice(["posedge", "negedge"]), draws.choice(self.ways), place, value)
        if kind == 1:
            return "always @* o%d = %s ^ (d1 & %s);" % (place, draws.choice(cores), value)
        if kind == 2:
            return "always @(posedge clk) o%d <= %s & %s;" % (place, draws.choice(cores), value)
        return "always @(posedge %s) if (%s) o%d <= ~o%d;" % (draws.choice(self.ways), draws.choice(["d0", "d1"]), place, place)

    def used(self):
        """The last parts of the names of the outputs that something uses."""
        text = " ".join(self.lines)
        return [name for name in self.made if re.search("(global|core)_%s" % name, text)] + (["lock"] if re.search(r"\block\b", text) else [])

    def body(self):
        registers = ["  output reg o%d = 0" % place for place in range(REGISTERS)]
        return registers, ["  " + line for line in self.lines] + ["endmodule"]

    def text(self):
        """The design that is routed."""
        registers, body = self.body()
        pad = ["  input reference"] if self.reference == "PACKAGEPIN" else []
        ports = ["  input " + name for name in self.inputs] + pad + registers
        wires = self.ways + ["lock"]
        joined = [".%s(reference)" % self.reference, ".RESETB(1'b1)", ".BYPASS(1'b0)"]
        # nextpnr leads the lock through a LUT as soon as it is joined
        joined += [".LOCK(lock)"] if "lock" in self.used() else []
        for name, part in self.made.items():
            joined += [".PLLOUTCORE%s(core_%s)" % (part, name), ".PLLOUTGLOBAL%s(global_%s)" % (part, name)]
        pll = "  %s #(%s) pll (%s);" % (self.primitive, SETTINGS, ", ".join(joined))
        return "\n".join(["module top (", ",\n".join(ports), ");", "  wire %s;" % ", ".join(wires), pll] + body) + "\n"

    def simulated(self):
        """The same with an input in place of each output of the PLL."""
        registers, body = self.body()
        ports = ["  input " + name for name in self.inputs + ["pll_a", "pll_b", "pll_lock"]] + registers
        wires = ["  wire %s = pll_%s;" % (way, way[-1]) for way in self.ways] + ["  wire lock = pll_lock;"]
        return "\n".join(["module source (", ",\n".join(ports), ");"] + wires + body) + "\n"

    def compared(self, module, place):
        """A module that runs the source beside the written module over the events, and writes a line for each."""
        last = REGISTERS - 1
        all_driven = ["pll_a", "pll_b", "pll_lock"]
        lines = ["module bench;", "  reg %s;" % ", ".join("%s = 0" % name for name in self.inputs + all_driven), "  wire [0:%d] one, other;" % last]
        shown = lambda word: [".o%d(%s[%d])" % (place, word, place) for place in range(REGISTERS)]
        given = [".%s(%s)" % (name, name) for name in self.inputs]
        lines += ["  source source (%s);" % ", ".join(given + [".%s(%s)" % (name, name) for name in all_driven] + shown("one"))]
        # a reference that moves nothing is a port of the module only if its pin is an input
        ports = set(re.findall(r"^  input (\w+);$", module, re.M))
        given = [".%s(%s)" % (name, name) for name in self.inputs if name in ports]
        given += [".pll_%s_%s(%s)" % (place, name[4:], name) for name in self.driven]
        lines += ["  chip chip (%s);" % ", ".join(given + shown("other")), "  initial begin #1;"]
        # a pin that comes from x to 0 isn't an event, but may be an edge: the registers begin anew
        lines += ["    source.o%d = 0;" % place for place, line in enumerate(self.lines) if "@*" not in line]
        lines += ["    chip.%s = %s;" % start for start in re.findall(r"^  reg (\w+) = (1'b[01]);$", module, re.M)]
        lines += ["    #1 $display(\"%b %b\", one, other);"]
        lines += ["    %s = ~%s; #1 $display(\"%%b %%b\", one, other);" % (name, name) for name in self.changed]
        return "\n".join(lines + ["  end", "endmodule"]) + "\n"


def places_of_plls(database):
    """The places of outputs of PLLs as ports' names, in a list for each output."""
    places, here = {"PLLOUT_A": [], "PLLOUT_B": []}, False
    for line in open(database):
        words = line.split()
        if words[:1] == [".extra_cell"]:
            here = words[3:] == ["PLL"]
        elif here and words and words[0] in places:
            places[words[0]].append("io_%s_%s_%s" % tuple(words[1:]))
    return places


def compare(design, device, seed, work):
    """The lines of the run of a design, and those of its written module."""
    database = CHIPDB / ("chipdb-%s.txt" % device)
    places = places_of_plls(database)
    pins = package_pins(database, PACKAGES[device])
    synthesized(design, {pin: port for pin, port in pins.items() if port not in places["PLLOUT_A"] + places["PLLOUT_B"]}, work)
    pads = [pin for pin, port in pins.items() if port in places["PLLOUT_A"]]
    if design.reference == "PACKAGEPIN":
        with open(work / "top.pcf", "a") as pin_file:
            pin_file.write("set_io reference %s\n" % pads[seed % len(pads)])
    placed(work, device, seed)
    module = output_of([program(), "icebox_vlog", "--used-inputs", "--all-pins", "-p", "top.pcf", "-d", PACKAGES[device], database, "top.asc"], work)
    found = re.findall(r"^  input pll_(\d+_\d+)_(\w+);$", module, re.M)
    if [name for _, name in found] != design.used():
        raise Refused("outputs of PLLs: %s in place of %s" % ([name for _, name in found], design.used()))
    for name, text in ("chip.v", module), ("bench.v", design.compared(module, found[0][0])), ("source.v", design.simulated()):
        (work / name).write_text(text)
    output_of(["iverilog", "-g2012", "-o", "bench", "bench.v", "source.v", "chip.v"], work)
    lines = [line.split() for line in output_of(["vvp", "-n", "bench"], work).splitlines()]
    if len(lines) != EVENTS + 1:
        raise Refused("%d lines in place of %d" % (len(lines), EVENTS + 1))
    return lines


def difference(lines):
    """Where the two runs differ. The first one has to have 0 and 1 at each output."""
    for number, (one, other) in enumerate(lines):
        if one != other or not set(one) <= {"0", "1"}:
            return "line %d: the source %s, the module %s" % (number + 1, one, other)
    still = [place for place in range(REGISTERS) if len({one[place] for one, _ in lines}) < 2]
    return "outputs that never change: %s" % still if still else ""


def try_design(tally, primitive, device, number, work):
    """Makes a design, and compares it."""
    work.mkdir(parents=True)
    try:
        fault = difference(compare(Clocked(primitive, number), device, number, work))
    except Refused as error:
        fault = "refused: %s" % error
    tally.tell("%s %s, seed %d" % (device, primitive, number), fault)


def main(words):
    is_short = words[:1] == ["--short"]
    words, keep = words[is_short:], None
    if len(words) >= 2 and words[0] == "-k":
        keep, words = pathlib.Path(words[1]), words[2:]
    if len(words) > 1 or not all(word.isdecimal() for word in words):
        print(__doc__, file=sys.stderr)
        return 2
    need("yosys", "nextpnr-ice40", "iverilog", "vvp", "chipdb")
    count = 1 if is_short else int(words[0]) if words else 8
    tally = Tally()
    with tempfile.TemporaryDirectory() as made:
        folder = (keep or pathlib.Path(made)).resolve()
        for device in DEVICES[:1 if is_short else None]:
            for primitive in PRIMITIVES:
                for number in range(1, 1 + count):
                    try_design(tally, primitive, device, number, folder / ("%s_%s_%d" % (device, primitive, number)))
    return tally.end()


if __name__ == "__main__":
    sys.exit(main(sys.argv[1:]))
