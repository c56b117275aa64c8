#!/usr/bin/env python3
"""Makes designs in Verilog with an SB_IO cell of each PIN_TYPE, takes them through yosys, nextpnr and icebox_vlog --all-pins, and compares the
written modules with the Verilog by Icarus Verilog.

Usage: check/pins.py [--short] [-k FOLDER] [COUNT]

COUNT is how many designs are made of the same eight types for each device, 2 if it is missing: the registers of a pin are at one edge in the first
design and at the other in the second. With --short there is one, for a 1k alone. The chip databases are those of Debian's package
fpga-icestorm-chipdb. With -k the files stay in FOLDER, a folder for each design.

The cells have the model that yosys ships, with two changes: `always @*` is made `always_comb`, which is run at the start too, and its registers
start at 0. A type whose last bit but one is 1 has a latch, and its D_IN_0 isn't used. All else is: two clocks, both inputs, what each type puts
out, the output enable, and of some cells the clock enable. Around the module pads are joined to buses: a pin drives its bus where its port
_en is 1, and the bus comes back at its port _in. From outside each bus is driven weakly, so that its pin decides where it drives. If all pins
can be switched off, two instances share the buses, and one is on where the other is off. Designs and events are random, but always the same.
After the start and after each event the pads, D_IN_0 and D_IN_1 are compared. Each type counts as one check.

The last line is 'N passed, M failed'. Status 0: all passed; 1: something failed; 2: the arguments aren't taken; 127: a database or a program is
missing.
"""
import pathlib
import random
import re
import sys
import tempfile

from modules.designs import Design, bus
from modules.programs import CHIPDB, need, program
from modules.routing import PACKAGES, Refused, output_of, package_pins, placed, synthesized
from modules.tries import Tally

DEVICES = "1k", "8k"
CELLS = "/usr/share/yosys/ice40/cells_sim.v"
REGISTERS = "din_q_0", "din_q_1", "dout_q_0", "dout_q_1", "outena_q", "clken_pulled_ri", "clken_pulled_ro"
TYPES = 8
EVENTS = 3000


class Cell:
    """An SB_IO cell: its type, its edge, and what comes to it."""

    def __init__(self, place, kind, falling, draws):
        self.pad, self.first, self.second = "bus%d" % place, "a%d" % place, "b%d" % place
        self.name = "cell%d" % place
        self.kind = kind
        self.falling = falling
        drive, self.data = kind >> 4, kind >> 2 & 3
        self.drives, self.is_switched = drive > 0, drive > 1
        # a latch may hold the first input
        self.outputs = [self.second] if kind & 2 else [self.first, self.second]
        self.has_enable = draws.randrange(3) > 0
        # where the clock itself goes to the pad, a register of the same clock can't tell which comes first
        self.input_clock = "oclk" if self.data and draws.randrange(3) == 0 else "iclk"
        self.values = draws.sample(["d0", "d1", "d0 ^ count[0]", "d1 ^ count[1]", "d0 ^ d1"], 2)
        self.switch = draws.choice(["oe", "~oe", "oe ^ count[0]"])

    def line(self):
        ports = {"PACKAGE_PIN": self.pad, "INPUT_CLK": self.input_clock, "D_IN_1": self.second}
        if self.first in self.outputs:
            ports["D_IN_0"] = self.first
        if self.has_enable:
            ports["CLOCK_ENABLE"] = "ce"
        if self.drives:
            ports.update({"OUTPUT_CLK": "oclk", "D_OUT_0": self.values[0]})
        if self.drives and self.data == 0:
            ports["D_OUT_1"] = self.values[1]
        if self.is_switched:
            ports["OUTPUT_ENABLE"] = self.switch
        return "  SB_IO #(.PIN_TYPE(6'b%s), .NEG_TRIGGER(1'b%d)) %s (%s);" % (
            format(self.kind, "06b"), self.falling, self.name, ", ".join(".%s(%s)" % port for port in ports.items()))

    def joined(self, place, instance):
        """What stands at the ports of its pin in an instance of the written module, and what joins these to the bus of the module."""
        wire = "other[%d]" % place
        if not self.is_switched:
            return {self.pad: wire}, []
        value, enable = "%s_of_%s" % (self.pad, instance), "%s_en_of_%s" % (self.pad, instance)
        around = ["  wire %s, %s;" % (value, enable), "  assign %s = %s ? %s : 1'bz;" % (wire, enable, value)]
        return {self.pad: value, self.pad + "_en": enable, self.pad + "_in": wire}, around


class Buses(Design):
    """Pins of eight types whose first three bits are the same."""

    is_apart = True

    def __init__(self, group, number):
        draws = random.Random("%d %d" % (group, number))
        edges = random.Random(group).choices([0, 1], k=TYPES)
        self.cells = [Cell(place, group * TYPES + place, (edges[place] + number) % 2, draws) for place in range(TYPES)]
        self.inputs = ["iclk", "oclk", "ce", "oe", "d0", "d1"]
        self.shown = [name for cell in self.cells for name in cell.outputs]
        self.outputs = bus("bus", TYPES) + self.shown
        # what comes to the inputs of each instance
        self.instances = [dict(zip(self.inputs, self.inputs))]
        if all(cell.is_switched for cell in self.cells):
            self.instances.append({**self.instances[0], "oe": "~oe", "d0": "d1", "d1": "d0"})
        # each event is the change of an input or of what drives a bus from outside
        self.changed = draws.choices(self.inputs + ["outside[%d]" % place for place in range(TYPES)], [5, 5, 2, 3, 3, 3] + [2] * TYPES, k=EVENTS)

    def text(self):
        ports = ["input " + name for name in self.inputs] + ["inout " + cell.pad for cell in self.cells] + ["output " + name for name in self.shown]
        lines = ["module top (%s);" % ", ".join(ports), "  reg [1:0] count = 0;", "  always @(posedge oclk) count <= count + 1;"]
        return "\n".join(lines + [cell.line() for cell in self.cells] + ["endmodule"]) + "\n"

    def compared(self, module):
        """A module that runs the instances of the design beside those of its written module over the events, and writes a line for each: the
        pads and the outputs of the design, and those of the module."""
        last = len(self.instances) * len(self.shown) - 1
        lines = ["module bench;", "  reg %s;" % ", ".join("%s = 0" % name for name in self.inputs), "  reg [0:%d] outside = 0;" % (TYPES - 1),
                 "  wire [0:%d] one, other;" % (TYPES - 1), "  wire [0:%d] shown, written;" % last]
        lines += ["  assign (weak0, weak1) %s[%d] = outside[%d];" % (wire, place, place) for wire in ("one", "other") for place in range(TYPES)]
        for number in range(len(self.instances)):
            lines += self.instance(number)
        lines += ["  initial begin #1;"]
        # a pin that comes from x to 0 isn't an event, but may be an edge: the registers begin anew
        for number in range(len(self.instances)):
            lines += ["    top%d.count = 0;" % number]
            lines += ["    top%d.%s.%s = 0;" % (number, cell.name, register) for cell in self.cells for register in REGISTERS]
            lines += ["    chip%d.%s = %s;" % (number, *start) for start in re.findall(r"^  reg (\w+) = (1'b[01]);$", module, re.M)]
        lines += ["    #1 $display(\"%b%b %b%b\", one, shown, other, written);"]
        lines += ["    %s = ~%s; #1 $display(\"%%b%%b %%b%%b\", one, shown, other, written);" % (name, name) for name in self.changed]
        return "\n".join(lines + ["  end", "endmodule"]) + "\n"

    def instance(self, number):
        """An instance of the design and one of its written module, joined to the buses of each."""
        given = [".%s(%s)" % port for port in self.instances[number].items()]
        outputs = {wire: [".%s(%s[%d])" % (name, wire, number * len(self.shown) + place) for place, name in enumerate(self.shown)]
                   for wire in ("shown", "written")}
        pads = [".%s(one[%d])" % (cell.pad, place) for place, cell in enumerate(self.cells)]
        lines = ["  top top%d (%s);" % (number, ", ".join(given + pads + outputs["shown"]))]
        for place, cell in enumerate(self.cells):
            named, around = cell.joined(place, "chip%d" % number)
            given += [".%s(%s)" % port for port in named.items()]
            lines += around
        return lines + ["  chip chip%d (%s);" % (number, ", ".join(given + outputs["written"]))]

    def places(self, cell):
        """The places of its pad and of its outputs in a line."""
        own = [self.outputs.index(name) for name in [cell.pad] + cell.outputs]
        return own + [place + number * len(self.shown) for number in range(1, len(self.instances)) for place in own[1:]]


def model():
    """The model of SB_IO, which is run at the start too, and whose registers start at 0."""
    text = pathlib.Path(CELLS).read_text()
    text = text[text.index("module SB_IO ("):]
    text = text[:text.index("\nendmodule") + len("\nendmodule\n")].replace("`ICE40_DEFAULT_ASSIGNMENT_1", "").replace("always @*", "always_comb")
    for register in REGISTERS:
        text = re.sub(r"^(\treg [^;]*)\b%s\b" % register, r"\1%s = 0" % register, text, count=1, flags=re.M)
    return text


def compare(design, device, work):
    """The lines of the run of a design, and those of its written module."""
    database = CHIPDB / ("chipdb-%s.txt" % device)
    synthesized(design, package_pins(database, PACKAGES[device]), work)
    placed(work, device, 1)
    module = output_of([program(), "icebox_vlog", "--used-inputs", "--all-pins", "-p", "top.pcf", "-d", PACKAGES[device], database, "top.asc"], work)
    for name, text in ("chip.v", module), ("bench.v", design.compared(module)), ("cells.v", model()):
        (work / name).write_text(text)
    output_of(["iverilog", "-g2012", "-o", "bench", "bench.v", "top.v", "cells.v", "chip.v"], work)
    lines = [line.split() for line in output_of(["vvp", "-n", "bench"], work).splitlines()]
    if len(lines) != EVENTS + 1:
        raise Refused("%d lines in place of %d" % (len(lines), EVENTS + 1))
    return lines


def difference(lines, places):
    """Where the two runs differ at these places, and which bits were 0 or 1 in the first one, which has to have both."""
    for number, (one, other) in enumerate(lines):
        bits, others = ["".join(line[place] for place in places) for line in (one, other)]
        if bits != others or not set(bits) <= {"0", "1"}:
            return "line %d: the source %s, the module %s" % (number + 1, bits, others)
    still = [place for place in places if len({one[place] for one, _ in lines}) < 2]
    return "%d of its values never change" % len(still) if still else ""


def try_design(tally, device, group, number, work):
    """Makes a design, and compares each of its types."""
    work.mkdir(parents=True)
    design = Buses(group, number)
    try:
        lines, refused = compare(design, device, work), ""
    except Refused as error:
        lines, refused = [], "refused: %s" % error
    for cell in design.cells:
        what = "%s PIN_TYPE %s, %s edge%s" % (
            device, format(cell.kind, "06b"), "falling" if cell.falling else "rising", ", clock enable" if cell.has_enable else "")
        tally.tell(what, refused or difference(lines, design.places(cell)))


def main(words):
    is_short = words[:1] == ["--short"]
    words, keep = words[is_short:], None
    if len(words) >= 2 and words[0] == "-k":
        keep, words = pathlib.Path(words[1]), words[2:]
    if len(words) > 1 or not all(word.isdecimal() for word in words):
        print(__doc__, file=sys.stderr)
        return 2
    need("yosys", "nextpnr-ice40", "iverilog", "vvp", "chipdb")
    count = 1 if is_short else int(words[0]) if words else 2
    tally = Tally()
    with tempfile.TemporaryDirectory() as made:
        folder = (keep or pathlib.Path(made)).resolve()
        for device in DEVICES[:1 if is_short else None]:
            for group in range(64 // TYPES):
                for number in range(1, 1 + count):
                    try_design(tally, device, group, number, folder / ("%s_%s_%d" % (device, format(group * TYPES, "06b"), number)))
    return tally.end()


if __name__ == "__main__":
    sys.exit(main(sys.argv[1:]))
