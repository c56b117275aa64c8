#!/usr/bin/env python3
"""Writes the module of each example by icebox_vlog, runs it by vlogrun and by Icarus Verilog over one list of events, and compares the
lines.

Usage: check/simulated_examples.py [--short] [-k FOLDER]

An event gives an input pin a bit; the events are random, but always the same, and half of them are of clocks. There are 10,000, and with
--short 1,000. After the start and after each event there is a line with the outputs and the registers. With -k the files stay in FOLDER, a
folder for each example: the module chip.v, the events, the lines of vlogrun, and those of vvp.

No contract speaks of other programs. Where a register's input depends on its clock pin without a register between, a simulator may see the
new value of the pin, and vlogrun has the old one. In the examples the clock is nothing but a clock, so the lines should be equal.

Two examples are taken with --used-inputs: in both the router wires the output of a cell to an input that the cell's table doesn't use,
which is a loop.

The last line is 'N passed, M failed'. Status 0: all passed; 1: something failed; 2: the arguments aren't taken; 127: a database or a program is
missing.
"""
import pathlib
import random
import re
import sys
import tempfile

from modules.programs import CHIPDB, TOP, need, program
from modules.routing import Refused, output_of
from modules.tries import Tally

# each example: its folder, which ends in the device's word, the text in it, and the options of icebox_vlog
DESIGNS = [
    ("lamp_1k", "lamp.asc", ()),
    ("delay_1k", "delay.asc", ()),
    ("timer_1k", "timer.asc", ()),
    ("bus_1k", "bus.asc", ()),
    ("player_1k", "player.asc", ()),
    ("blink_1k", "blink.asc", ("--used-inputs",)),
    ("lights_8k", "lights.asc", ("--used-inputs",)),
]

EVENTS, EVENTS_SHORT = 10000, 1000


class Module:
    """The names of a written module by kind, and what its registers and memories have at the start."""

    def __init__(self, text, count):
        self.count = count
        self.inputs = re.findall(r"^  input (\w+);$", text, re.M)
        self.outputs = re.findall(r"^  output (\w+);$", text, re.M)
        bits = re.findall(r"^  reg (\w+) = (1'b[01]);$", text, re.M)
        words = re.findall(r"^  reg \[15:0\] (\w+) = (16'h[0-9a-f]{4});$", text, re.M)
        self.registers = [name for name, _ in bits]
        self.words = [name for name, _ in words]
        self.starts = bits + words + re.findall(r"^  initial (\w+\[\d+\]) = (16'h[0-9a-f]{4});$", text, re.M)
        clocks = set(re.findall(r"^  always @\((?:posedge|negedge) (\w+)(?: or posedge \w+)?\)", text, re.M))
        self.clocks = [name for name in self.inputs if name in clocks]

    def events(self):
        """Events, each a place among the inputs and a bit."""
        draws = random.Random(1)
        places = {name: place for place, name in enumerate(self.inputs)}
        names = [draws.choice(self.clocks if self.clocks and draws.randrange(2) else self.inputs) for _ in range(self.count)]
        return [(places[name], draws.randrange(2)) for name in names]

    def show(self):
        """Statements that write a line of vlogrun -s."""
        formats = "%b" * len(self.registers)
        bits = "".join(", chip." + name for name in self.registers)
        lines = ['    $write("%b", out);', '    $write(" %s"%s);' % (formats, bits)]
        lines += ['    $write(" %%h", chip.%s);' % name for name in self.words]
        return lines + ['    $write("\\n");']

    def bench(self):
        """A module that runs this one over the events in the files pins and bits, and writes the lines of vlogrun -s."""
        ports = [".%s(in[%d])" % (name, place) for place, name in enumerate(self.inputs)]
        ports += [".%s(out[%d])" % (name, place) for place, name in enumerate(self.outputs)]
        lines = ["module bench;", "  reg [%d:0] in = 0;" % (len(self.inputs) - 1), "  wire [0:%d] out;" % (len(self.outputs) - 1),
                 "  reg [31:0] pins [0:%d];" % (self.count - 1), "  reg bits [0:%d];" % (self.count - 1), "  integer e;",
                 "  chip chip (%s);" % ", ".join(ports), "  task show; begin"]
        lines += self.show()
        lines += ["  end endtask", "  initial begin", '    $readmemh("pins", pins);', '    $readmemb("bits", bits);', "    #1;"]
        # a pin that comes from x to 0 isn't an event, but may be an edge: the state begins anew
        lines += ["    chip.%s = %s;" % start for start in self.starts]
        lines += ["    #1 show;", "    for (e = 0; e < %d; e = e + 1) begin" % self.count, "      in[pins[e]] = bits[e];", "      #1 show;",
                  "    end", "  end", "endmodule"]
        return "\n".join(lines) + "\n"


def fault_of(text, options, count, work):
    """Runs an example by both, and tells what is different, or nothing."""
    database = CHIPDB / ("chipdb-%s.txt" % text.parent.name.rpartition("_")[2])
    written = output_of([program(), "icebox_vlog", *options, database, text], work)
    (work / "chip.v").write_text(written)
    module = Module(written, count)
    if not module.inputs or not module.outputs:
        return "the module has no inputs or no outputs"
    events = module.events()
    (work / "events").write_text("".join("%s %d\n" % (module.inputs[pin], bit) for pin, bit in events))
    (work / "pins").write_text("".join("%x\n" % pin for pin, _ in events))
    (work / "bits").write_text("".join("%d\n" % bit for _, bit in events))
    (work / "bench.v").write_text(module.bench())
    ours = output_of([program(), "vlogrun", "-s", "chip.v", "events"], work)
    output_of(["iverilog", "-g2005", "-o", "bench", "bench.v", "chip.v"], work)
    theirs = output_of(["vvp", "-n", "bench"], work)
    (work / "vlogrun.lines").write_text(ours)
    (work / "vvp.lines").write_text(theirs)
    return difference(ours.splitlines(), theirs.splitlines(), count)


def difference(ours, theirs, count):
    """What is different between lines, or nothing."""
    if len(ours) != count + 1 or len(theirs) != count + 1:
        return "vlogrun has %d lines and vvp %d, where there should be %d" % (len(ours), len(theirs), count + 1)
    for number, (one, other) in enumerate(zip(ours, theirs), 1):
        if one != other:
            return "line %d differs: vlogrun '%s', vvp '%s'" % (number, one, other)
    return ""


def main(words):
    is_short = words[:1] == ["--short"]
    words, keep = words[is_short:], None
    if len(words) == 2 and words[0] == "-k":
        keep, words = pathlib.Path(words[1]), []
    if words:
        print(__doc__, file=sys.stderr)
        return 2
    need("iverilog", "vvp", "chipdb")
    tally = Tally()
    with tempfile.TemporaryDirectory() as made:
        for name, text, options in DESIGNS:
            work = (keep or pathlib.Path(made)).resolve() / name
            work.mkdir(parents=True, exist_ok=True)
            try:
                fault = fault_of(TOP / "examples" / name / text, options, EVENTS_SHORT if is_short else EVENTS, work)
            except Refused as refused:
                fault = "refused: %s" % refused
            tally.tell(name, fault)
    return tally.end()


if __name__ == "__main__":
    sys.exit(main(sys.argv[1:]))
