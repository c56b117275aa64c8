#!/usr/bin/env python3
"""Takes designs in Verilog whose clocks come from registers through yosys, nextpnr and icebox_vlog --register-clocks, and compares the written
modules with the Verilog by Icarus Verilog.

Usage: check/clocks.py [--short] [-k FOLDER] [SEEDS]

SEEDS is with how many seeds each design is placed and routed for each device, 3 if it is missing. With --short there is one, for a 1k alone,
and there are fewer designs and events. The chip databases are those of Debian's package fpga-icestorm-chipdb. With -k the files stay in
FOLDER, a folder for each design.

The designs are such as people write: a divider that clocks a shift register, a ripple counter, counters of digits that clock one another, a
divided clock on a global network, one that is inverted, dividers with asynchronous resets, memories, and pins with registers. In none of them
does a register whose clock is a register read what changes together with that clock, since Verilog leaves open which value it sees. Events are
random, but always the same. Of each design

- icebox_vlog without the option says that a clock comes from logic, and where;
- with it there is a module, whose outputs are those of the Verilog after the start and after each event, in Icarus Verilog and by vlogrun;
- vlogsweep runs parts of the events side by side as vlogrun runs each of them.

Then there are designs whose registers clock or reset one another in a ring: with the option each is a loop, and a net of the ring is told. The
examples, which have no such clocks, have the same modules with the option and without.

The last line is 'N passed, M failed'. Status 0: all passed; 1: something failed; 2: the arguments aren't taken; 127: a database or a program is
missing.
"""
import pathlib
import random
import re
import subprocess
import sys
import tempfile

from modules.designs import Design, bus, joined
from modules.programs import CHIPDB, TOP, need, program
from modules.routing import PACKAGES, Refused, output_of, package_pins, placed, synthesized
from modules.tries import Tally

DEVICES = "1k", "8k"
CELLS = "/usr/share/yosys/ice40/cells_sim.v"
EVENTS, EVENTS_SHORT = 20000, 8000
LISTS = 8
CLOCK = re.compile(r"icebox_vlog: tile \d+ \d+ (?:cell \d|input [01]|output [01]|read|write): Clock net (\d+)\n")
LOOP = re.compile(r"icebox_vlog: net (\d+): Loop\n")


class Clocked(Design):
    """A design with a clock `clk` from a pin. body: the lines of its module. starts: the registers of the module with their values at the
    start. clocks: how many of its registers are clocks of others, at least. in_short: whether it is tried with --short."""

    body = ""
    starts = {}
    clocks = 1
    weights = {}
    in_short = True

    def __init__(self, count):
        draws = random.Random(self.body)
        names = draws.choices(self.inputs, [self.weights.get(name, 1) for name in self.inputs], k=count)
        bits = dict.fromkeys(self.inputs, 0)
        self.events = []
        for name in names:
            # now and then an event is none, since the input has the bit
            bits[name] ^= draws.randrange(12) > 0
            self.events.append((name, bits[name]))

    def text(self):
        ports = ["input " + name for name in self.inputs] + ["output " + name for name in self.outputs]
        return "module top (%s);\n%sendmodule\n" % (", ".join(ports), self.body)


class Shift(Clocked):
    """A divider by 256 that clocks a shift register."""

    inputs, weights = ["clk", "d"], {"clk": 60}
    outputs = bus("q", 8) + ["slow"]
    starts = {"count": 0, "shift": 0}
    body = """
  reg [7:0] count = 0, shift = 0;
  always @(posedge clk) count <= count + 1;
  always @(posedge count[7]) shift <= {shift[6:0], d};
  assign %s = shift;
  assign slow = count[7];
""" % joined(bus("q", 8))


class Ripple(Clocked):
    """A ripple counter of eight stages."""

    inputs, weights = ["clk", "d"], {"clk": 60}
    outputs = bus("q", 8) + ["held"]
    starts = {"held": 0, **{"stage[%d].turned" % stage: 0 for stage in range(8)}}
    clocks = 7
    body = """
  wire [8:0] clocks;
  assign clocks[0] = clk;
  genvar k;
  generate
    for (k = 0; k < 8; k = k + 1) begin : stage
      reg turned = 0;
      always @(negedge clocks[k]) turned <= ~turned;
      assign clocks[k + 1] = turned;
    end
  endgenerate
  reg held = 0;
  always @(posedge clocks[3]) held <= d;
  assign %s = clocks[8:1];
""" % joined(bus("q", 8))


class Digits(Clocked):
    """Counters of digits, each with a register that clocks the next one."""

    inputs, weights = ["clk", "up"], {"clk": 60}
    outputs = bus("a", 3) + bus("b", 2) + bus("c", 3)
    starts = dict.fromkeys(["first", "second", "third", "carry", "more"], 0)
    clocks = 2
    in_short = False
    body = """
  reg [2:0] first = 0, third = 0;
  reg [1:0] second = 0;
  reg carry = 0, more = 0;
  always @(posedge clk)
    if (first == 4) begin first <= 0; carry <= ~carry; end
    else first <= first + 1;
  always @(posedge carry)
    if (second == 2) begin second <= 0; more <= 1; end
    else begin second <= second + 1; more <= 0; end
  always @(negedge more)
    third <= up ? third + 1 : third - 1;
  assign %s = first;
  assign %s = second;
  assign %s = third;
""" % (joined(bus("a", 3)), joined(bus("b", 2)), joined(bus("c", 3)))


class Global(Clocked):
    """A divided clock on a global network, at both of its edges."""

    inputs, weights = ["clk", "d", "enable"], {"clk": 30}
    outputs = bus("q", 6) + bus("h", 3)
    starts = {"count": 0, "random": 0, "held": 0}
    body = """
  reg [2:0] count = 0;
  reg [5:0] random = 0;
  reg [2:0] held = 0;
  wire slow;
  always @(posedge clk) count <= count + 1;
  SB_GB buffered (.USER_SIGNAL_TO_GLOBAL_BUFFER(count[2]), .GLOBAL_BUFFER_OUTPUT(slow));
  always @(posedge slow) if (enable) random <= {random[4:0], ~(random[5] ^ random[4]) ^ d};
  always @(negedge slow) held <= held + random[2:0];
  assign %s = random;
  assign %s = held;
""" % (joined(bus("q", 6)), joined(bus("h", 3)))


class Inverted(Clocked):
    """A divided clock that LUTs invert, once and twice, and its inverse on a global network."""

    inputs, weights = ["clk", "d"], {"clk": 30}
    outputs = bus("q", 6) + ["inverse"]
    starts = dict.fromkeys(["count", "rise", "fall", "back", "spread"], 0)
    in_short = False
    body = """
  reg [1:0] count = 0;
  reg [1:0] rise = 0, fall = 0;
  reg back = 0, spread = 0;
  wire turned, again, driven;
  always @(negedge clk) count <= count + 1;
  (* keep *) SB_LUT4 #(.LUT_INIT(16'h5555)) one (.I0(count[1]), .I1(1'b0), .I2(1'b0), .I3(1'b0), .O(turned));
  (* keep *) SB_LUT4 #(.LUT_INIT(16'h00ff)) two (.I0(1'b0), .I1(1'b0), .I2(1'b0), .I3(turned), .O(again));
  SB_GB buffered (.USER_SIGNAL_TO_GLOBAL_BUFFER(turned), .GLOBAL_BUFFER_OUTPUT(driven));
  always @(posedge turned) rise <= rise + 1;
  always @(negedge turned) fall <= fall + 1;
  always @(posedge again) back <= d;
  always @(posedge driven) spread <= spread ^ d;
  assign %s = {spread, back, fall, rise};
  assign inverse = turned;
""" % joined(bus("q", 6))


class Reset(Clocked):
    """Dividers that are set and reset at once, and what they clock."""

    inputs, weights = ["clk", "d", "reset", "ready"], {"clk": 30, "d": 5}
    outputs = bus("q", 3) + bus("t", 3) + bus("s", 2) + bus("u", 2)
    starts = {"count": 0, "ring": 0, "taken": 0, "slow": 1, "seen": 0, "late": 0, "shut": 0}
    clocks = 3
    body = """
  reg [2:0] count = 0;
  reg [2:0] ring = 0, taken = 0;
  reg slow = 1, seen = 0, late = 0, shut = 0;
  always @(posedge clk or posedge reset)
    if (reset) count <= 0; else count <= count + 1;
  always @(posedge count[2] or posedge reset)
    if (reset) ring <= 0; else ring <= {ring[1:0], ~ring[2]};
  always @(negedge count[1]) taken <= {taken[1:0], d};
  always @(posedge clk or negedge ready)
    if (!ready) slow <= 1; else slow <= ~slow;
  always @(posedge slow) seen <= ~seen;
  always @(negedge slow) late <= late ^ d;
  always @(posedge slow or negedge ready)
    if (!ready) shut <= 0; else shut <= ~shut;
  assign %s = ring;
  assign %s = taken;
  assign %s = {slow, seen};
  assign %s = {late, shut};
""" % (joined(bus("q", 3)), joined(bus("t", 3)), joined(bus("s", 2)), joined(bus("u", 2)))


class Memory(Clocked):
    """A memory that is written at a divided clock, and read at the clock of the pin."""

    inputs, weights = ["clk", "we"] + bus("a", 6) + bus("d", 4), {"clk": 40, "we": 3}
    outputs = bus("q", 4)
    starts = {"count": 0, "q": 0}
    read_clock = "clk"
    body = """
  reg [1:0] count = 0;
  always @(posedge clk) count <= count + 1;
  wire slow = count[1];
  wire [5:0] a = %s;
  reg [3:0] memory [0:63];
  reg [3:0] q = 0;
  integer k;
  initial for (k = 0; k < 64; k = k + 1) memory[k] = k * 5;
  always @(posedge slow) if (we) memory[a] <= %s;
  always @(posedge READ) q <= memory[a];
  assign %s = q;
""" % (joined(bus("a", 6)), joined(bus("d", 4)), joined(bus("q", 4)))

    def text(self):
        return super().text().replace("READ", self.read_clock)


class SlowMemory(Memory):
    """A memory that is written and read at a divided clock."""

    read_clock = "slow"
    in_short = False


class Pads(Clocked):
    """Pins with registers at a divided clock, and a register of a pin that is a clock."""

    is_apart = True
    inputs, weights = ["clk", "i0", "i1", "i2"], {"clk": 30}
    outputs = bus("o", 2) + bus("p", 3) + ["x"]
    starts = {"count": 0, "pressed": 0, "kept": 0, "button.din_q_0": 0, "input_1.din_q_0": 0, "input_2.din_q_0": 0, "output_0.dout_q_0": 0,
              "output_1.dout_q_0": 0}
    clocks = 2
    in_short = False
    body = """
  reg [1:0] count = 0;
  reg [2:0] pressed = 0;
  reg kept = 0;
  wire button_of, one, two;
  always @(posedge clk) count <= count + 1;
  wire slow = count[1];
  SB_IO #(.PIN_TYPE(6'b000000)) button (.PACKAGE_PIN(i0), .INPUT_CLK(clk), .D_IN_0(button_of));
  SB_IO #(.PIN_TYPE(6'b000000)) input_1 (.PACKAGE_PIN(i1), .INPUT_CLK(slow), .D_IN_0(one));
  SB_IO #(.PIN_TYPE(6'b000000), .NEG_TRIGGER(1'b1)) input_2 (.PACKAGE_PIN(i2), .INPUT_CLK(slow), .D_IN_0(two));
  SB_IO #(.PIN_TYPE(6'b010101)) output_0 (.PACKAGE_PIN(o0), .OUTPUT_CLK(slow), .D_OUT_0(one ^ kept));
  SB_IO #(.PIN_TYPE(6'b010101), .NEG_TRIGGER(1'b1)) output_1 (.PACKAGE_PIN(o1), .OUTPUT_CLK(slow), .D_OUT_0(two ^ kept));
  always @(posedge button_of) pressed <= pressed + 1;
  always @(posedge slow) kept <= ~kept & two;
  assign %s = pressed;
  assign x = one ^ two;
""" % joined(bus("p", 3))


DESIGNS = Shift, Ripple, Digits, Global, Inverted, Reset, Memory, SlowMemory, Pads

# designs that are loops by the clocks of their registers: the outputs, which are the registers of the ring, and the lines of the module
RINGS = {
    "Two registers that clock each other": (["a", "b"], """
  reg a = 0, b = 0;
  always @(posedge b) a <= ~a;
  always @(posedge a) b <= ~b;
"""),
    "A register that is its own clock": (["a"], """
  reg a = 0;
  always @(negedge a) a <= d;
"""),
    "A divider that is reset by what it clocks": (["a", "b"], """
  reg a = 0, b = 0;
  always @(posedge d or posedge b) if (b) a <= 0; else a <= ~a;
  always @(posedge a) b <= ~b;
"""),
}


class Ring(Design):
    """A design whose registers are in a ring."""

    inputs = ["d"]

    def __init__(self, outputs, body):
        self.outputs, self.body = outputs, body

    def text(self):
        return "module top (input d, %s);\n%sendmodule\n" % (", ".join("output " + name for name in self.outputs), self.body)


class Ended:
    """A run of icebox_vlog as the installed script runs it, with more options, over the text top.asc or another one."""

    def __init__(self, device, options, work, text="top.asc"):
        words = [program(), "icebox_vlog", "--used-inputs", "--all-pins", *options, CHIPDB / ("chipdb-%s.txt" % device), text]
        run = subprocess.run(words, cwd=work, capture_output=True, text=True)
        self.status, self.output, self.said = run.returncode, run.stdout, run.stderr
        self.all = self.status, self.output, self.said

    def net(self, pattern):
        """The net that it tells where it refuses a design with a line like that. Another end is a fault."""
        match = pattern.fullmatch(self.said)
        if self.status != 1 or self.output or not match:
            raise Refused("status %d, it says: %s" % (self.status, self.said.strip()))
        return match.group(1)


def name_of(net, work):
    """What nextpnr calls a net."""
    names = re.findall(r"^\.sym %s (.*)$" % net, (work / "top.asc").read_text(), re.M)
    if not names:
        raise Refused("the net %s has no name" % net)
    return names[0]


def refuse(device, work):
    """Looks that a design is refused without the option: the net that is told isn't that of the pin's clock."""
    name = name_of(Ended(device, [], work).net(CLOCK), work)
    if name.startswith("clk$"):
        raise Refused("the clock that is told is %s" % name)


def start_of(module):
    """What each register of a module has at the start. One that is set at once has that bit where its wire is 1."""
    starts = dict(re.findall(r"^  reg (?:\[15:0\] )?(\w+) = (\d+'[bh]\w+);$", module, re.M))
    for wire, name, bit in re.findall(r"posedge (\w+)\) (?:if \(\1\) )?(\w+) <= (1'b[01]);", module):
        starts[name] = "chip.%s ? %s : %s" % (wire, bit, starts[name])
    return ["chip.%s = %s;" % start for start in starts.items()]


def bench(design, module):
    """A module that runs the design beside its written module over the events, and writes a line for each: the outputs of the two."""
    inputs, outputs = design.inputs, design.outputs
    lines = ["module bench;", "  reg %s;" % ", ".join("%s = 0" % name for name in inputs), "  wire [0:%d] one, other;" % (len(outputs) - 1)]
    for name, wire in ("top", "one"), ("chip", "other"):
        ports = [".%s(%s)" % (port, port) for port in inputs] + [".%s(%s[%d])" % (port, wire, place) for place, port in enumerate(outputs)]
        lines += ["  %s %s (%s);" % (name, name, ", ".join(ports))]
    lines += ["  initial begin #1;"]
    # a pin or a clock that comes from x to 0 isn't an event, but may be an edge: all registers begin anew, at once
    starts = ["top.%s = %d;" % start for start in design.starts.items()] + start_of(module)
    lines += ["    force " + start for start in starts] + ["    #1;"] + ["    release %s;" % start.split()[0] for start in starts]
    lines += ["    #1 $display(\"%b %b\", one, other);"]
    lines += ["    %s = %d; #1 $display(\"%%b %%b\", one, other);" % event for event in design.events]
    return "\n".join(lines + ["  end", "endmodule"]) + "\n"


def compare(design, device, work):
    """Compares a design with its written module, and tells what differs, or nothing."""
    ended = Ended(device, ["--register-clocks", "-p", "top.pcf", "-d", PACKAGES[device]], work)
    if ended.status != 0:
        raise Refused(ended.said.strip())
    module = ended.output
    clocks = set(re.findall(r"(?:pos|neg)edge ((?:ff|pi|pj)_\w+)", module))
    if len(clocks) < design.clocks:
        return "only %d registers are clocks" % len(clocks)
    (work / "chip.v").write_text(module)
    (work / "bench.v").write_text(bench(design, module))
    (work / "events").write_text("".join("%s %d\n" % event for event in design.events))
    # Icarus Verilog takes no default for a port
    output_of(["iverilog", "-g2009", "-DNO_ICE40_DEFAULT_ASSIGNMENTS", "-o", "bench", "bench.v", "top.v", CELLS, "chip.v"], work)
    lines = [line.split() for line in output_of(["vvp", "-n", "bench"], work).splitlines()]
    given = re.findall(r"^  output (\w+);$", module, re.M)
    ours = output_of([program(), "vlogrun", "chip.v", "events"], work).splitlines()
    if not len(lines) == len(ours) == len(design.events) + 1:
        return "%d lines in place of %d, and %d of vlogrun" % (len(lines), len(design.events) + 1, len(ours))
    for number, ((one, other), line) in enumerate(zip(lines, ours), 1):
        run = "".join(line[given.index(name)] for name in design.outputs)
        if not one == other == run:
            return "line %d: the source %s, the module %s, vlogrun %s" % (number, one, other, run)
    still = [name for place, name in enumerate(design.outputs) if len({one[place] for one, _ in lines}) < 2]
    return "these outputs never change: " + ", ".join(still) if still else swept(design.events, work)


def swept(events, work):
    """Compares runs side by side, each of them over a part of the events, with the runs one by one."""
    size = len(events) // LISTS
    names = ["events%d" % number for number in range(LISTS)]
    for number, name in enumerate(names):
        # parts of several lengths: a run may end before others
        part = events[number * size:(number + 1) * size - 10 * number]
        (work / name).write_text("".join("%s %d\n" % event for event in part))
    wanted = "".join("events %s\n%s" % (name, output_of([program(), "vlogrun", "chip.v", name], work)) for name in names)
    return "" if output_of([program(), "vlogsweep", "chip.v", *names], work) == wanted else "vlogsweep and vlogrun differ"


def try_design(tally, design, device, pins, seeds, work):
    """Takes a design through the router with some seeds, and compares."""
    work.mkdir(parents=True)
    for seed in range(1, 1 + seeds):
        what = "%s seed %d: %s" % (device, seed, design.__doc__.rstrip("."))
        try:
            if seed == 1:
                synthesized(design, pins, work)
            placed(work, device, seed)
            refuse(device, work)
            fault = compare(design, device, work)
        except Refused as refused:
            fault = "refused: %s" % refused
        tally.tell(what, fault)


def try_ring(tally, what, device, pins, work):
    """A design that is a loop by the clocks of its registers: a net of one of them is told."""
    work.mkdir(parents=True)
    ring = Ring(*RINGS[what])
    try:
        synthesized(ring, pins, work)
        placed(work, device, 1)
        refuse(device, work)
        name = name_of(Ended(device, ["--register-clocks"], work).net(LOOP), work)
        fault = "" if name.partition("$")[0] in ring.outputs else "the net that is told is %s" % name
    except Refused as refused:
        fault = "refused: %s" % refused
    tally.tell("%s: %s" % (device, what), fault)


def try_examples(tally, device):
    """Texts without such clocks: the option changes nothing."""
    for text in sorted((TOP / "examples").glob("*_%s/*.asc" % device)):
        with_option, without = (Ended(device, options, text.parent, text.name) for options in (["--register-clocks"], []))
        fault = "" if with_option.all == without.all and without.status == 0 else "the option changes it"
        tally.tell("the module of %s" % text.name, fault)


def main(words):
    is_short = words[:1] == ["--short"]
    words, keep = words[is_short:], None
    if len(words) >= 2 and words[0] == "-k":
        keep, words = pathlib.Path(words[1]), words[2:]
    if len(words) > 1 or not all(word.isdecimal() for word in words):
        print(__doc__, file=sys.stderr)
        return 2
    need("yosys", "nextpnr-ice40", "iverilog", "vvp", "chipdb")
    seeds = 1 if is_short else int(words[0]) if words else 3
    tally = Tally()
    with tempfile.TemporaryDirectory() as made:
        folder = (keep or pathlib.Path(made)).resolve()
        for device in DEVICES[:1 if is_short else None]:
            pins = package_pins(CHIPDB / ("chipdb-%s.txt" % device), PACKAGES[device])
            for kind in DESIGNS:
                if kind.in_short or not is_short:
                    design = kind(EVENTS_SHORT if is_short else EVENTS)
                    try_design(tally, design, device, pins, seeds, folder / ("%s_%s" % (kind.__name__.lower(), device)))
            for number, what in enumerate(list(RINGS)[:1 if is_short else None]):
                try_ring(tally, what, device, pins, folder / ("ring%d_%s" % (number, device)))
            try_examples(tally, device)
    return tally.end()


if __name__ == "__main__":
    sys.exit(main(sys.argv[1:]))
