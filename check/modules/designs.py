"""Designs in Verilog, made from a number: registers that are set and reset, memories, pins with registers, and clocks that go through LUTs.

A design has inputs and outputs of one bit, a text, events, and what its simulation begins with. They are random, but always the same.
"""
import random

REGISTERS = 20
OUTPUTS = 6
EVENTS = 4000
# bits of a word, and words
SHAPES = (8, 256), (4, 256), (16, 512), (16, 1024), (2, 2048), (1, 4096), (8, 512), (4, 1024)


class Design:
    """What all designs have."""

    # how many designs there are in a family that doesn't go on for ever
    COUNT = None
    # whether no two of its pins may be in one tile, which has one clock for registers of inputs and one for those of outputs
    is_apart = False
    inputs = []
    outputs = []
    events = []

    def drawn(self, draws, weights):
        """Events, each of an input that is drawn by these weights."""
        names = draws.choices(self.inputs, weights, k=EVENTS)
        return [(name, draws.randrange(2)) for name in names]

    def start_lines(self):
        """Lines of the simulation that give its registers their start, which is none in Verilog."""
        return []

    def bench(self):
        """A module that runs the design over the events, and writes the outputs after the start and after each."""
        ports = ["." + name + "(in[%d])" % place for place, name in enumerate(self.inputs)]
        ports += ["." + name + "(out[%d])" % place for place, name in enumerate(self.outputs)]
        lines = ["module bench;", "  reg [%d:0] in = 0;" % (len(self.inputs) - 1), "  wire [0:%d] out;" % (len(self.outputs) - 1),
                 "  top top (%s);" % ", ".join(ports),
                 "  task give(input integer pin, input value); begin in[pin] = value; #1; $display(\"%b\", out); end endtask",
                 "  initial begin #1;"]
        # a pin that comes from x to 0 isn't an event, but may be an edge: the registers begin anew
        lines += ["    %s" % line for line in self.start_lines()]
        lines += ["    #1 $display(\"%b\", out);"]
        lines += ["    give(%d, %d);" % (self.inputs.index(name), bit) for name, bit in self.events]
        return "\n".join(lines + ["  end", "endmodule"]) + "\n"


class Register:
    """A register: its edge, its enable, its reset, and what it takes."""

    def __init__(self, number, draws):
        self.name = "r%d" % number
        self.edge = draws.choice(["posedge", "posedge", "negedge"])
        self.enable = draws.choice(["", "", "in0", "~in1"])
        self.kind = draws.choice(["none", "in time", "at once", "at once", "at once"])
        # the first four registers reset others, and are reset by pins alone
        others = [] if number < 4 else ["r%d" % draws.randrange(4)]
        self.reset = draws.choice(["high", "low"] + ["either"] * len(others))
        self.other = others[0] if others else ""
        self.set = draws.randrange(2)
        self.start = draws.randrange(2)
        self.value = "r%d ^ (r%d & in%d) ^ %s" % (
            draws.randrange(REGISTERS), draws.randrange(REGISTERS), draws.randrange(2), draws.choice(["in0", "in1", "1'b1"]))

    def reset_wire(self):
        """The declaration of the wire that resets at once, if there is one."""
        if self.kind == "at once" and self.reset == "either":
            return ["  wire %s_reset = high | %s;" % (self.name, self.other)]
        return []

    def condition(self):
        """When the reset acts, and the edge with which that begins."""
        if self.reset == "high":
            return "high", "posedge high"
        if self.reset == "low":
            return "~low", "negedge low"
        if self.kind == "at once":
            return "%s_reset" % self.name, "posedge %s_reset" % self.name
        return "high | %s" % self.other, ""

    def first(self):
        """The value at the start, where all pins are 0."""
        return self.set if self.kind == "at once" and self.reset == "low" else self.start

    def lines(self):
        condition, begins = self.condition()
        edges = "%s clk" % self.edge + (" or %s" % begins if self.kind == "at once" else "")
        taken = "    %s%s <= %s;" % ("if (%s) " % self.enable if self.enable else "", self.name, self.value)
        lines = ["  always @(%s)" % edges]
        if self.kind != "none":
            lines += ["    if (%s) %s <= 1'b%d;" % (condition, self.name, self.set), "    else"]
        return self.reset_wire() + lines + [taken]


class Resets(Design):
    """Registers that are set and reset, at an edge or at once."""

    def __init__(self, number):
        draws = random.Random(number)
        self.registers = [Register(k, draws) for k in range(REGISTERS)]
        self.inputs = ["clk", "high", "low", "in0", "in1"]
        self.outputs = ["out%d" % k for k in range(OUTPUTS)]
        self.shown = [draws.sample(range(REGISTERS), 3) for _ in self.outputs]
        # a register whose reset another one gives may begin with that one at 1
        starts = {register.name: register.first() for register in self.registers}
        for register in self.registers:
            if register.kind == "at once" and register.reset == "either" and starts[register.other]:
                starts[register.name] = register.set
        self.starts = starts
        self.events = self.drawn(draws, [6, 1, 1, 2, 2])

    def text(self):
        ports = ["input %s" % name for name in self.inputs] + ["output %s" % name for name in self.outputs]
        lines = ["module top (%s);" % ", ".join(ports)]
        lines += ["  reg %s = 1'b%d;" % (register.name, register.start) for register in self.registers]
        for register in self.registers:
            lines += register.lines()
        lines += ["  assign %s = r%d ^ r%d ^ r%d;" % (name, *shown) for name, shown in zip(self.outputs, self.shown)]
        return "\n".join(lines + ["endmodule"]) + "\n"

    def start_lines(self):
        return ["top.%s = 1'b%d;" % start for start in self.starts.items()]

    def seen(self, module):
        return "%d registers that are set or reset at once" % module.count(" or posedge n_")


def bus(name, width):
    return ["%s%d" % (name, bit) for bit in range(width)]


def joined(names):
    """A vector of bits, the first of them the lowest."""
    return "{%s}" % ", ".join(reversed(names))


class Memory(Design):
    """A memory of each shape, and after these the same read only."""

    COUNT = 2 * len(SHAPES)

    def __init__(self, number):
        draws = random.Random(number)
        self.width, self.words = SHAPES[(number - 1) % len(SHAPES)]
        self.is_written = number <= len(SHAPES)
        bits = (self.words - 1).bit_length()
        self.address = bus("a", bits)
        self.data = bus("d", self.width) if self.is_written else []
        self.outputs = bus("q", self.width)
        self.inputs = ["clk", "re"] + (["we"] if self.is_written else []) + self.address + self.data
        self.content = [draws.randrange(1 << self.width) for _ in range(self.words)]
        # few address bits change, so that words that were written are read
        weights = [24] * (len(self.inputs) - len(self.address) - len(self.data)) + [4] * len(self.address) + [3] * len(self.data)
        self.events = self.drawn(draws, weights)

    def text(self):
        ports = ["input %s" % name for name in self.inputs] + ["output %s" % name for name in self.outputs]
        lines = ["module top (%s);" % ", ".join(ports),
                 "  reg [%d:0] memory [0:%d];" % (self.width - 1, self.words - 1), "  reg [%d:0] q;" % (self.width - 1),
                 "  wire [%d:0] a = %s;" % (len(self.address) - 1, joined(self.address)), "  initial begin"]
        lines += ["    memory[%d] = %d;" % place for place in enumerate(self.content)]
        lines += ["  end", "  always @(posedge clk) if (re) q <= memory[a];"]
        if self.data:
            lines += ["  wire [%d:0] d = %s;" % (self.width - 1, joined(self.data)), "  always @(posedge clk) if (we) memory[a] <= d;"]
        lines += ["  assign %s = q[%d];" % (name, place) for place, name in enumerate(self.outputs)]
        return "\n".join(lines + ["endmodule"]) + "\n"

    def start_lines(self):
        return ["top.q = 0;"]

    def seen(self, module):
        narrow = module.count("] >> {") + module.count("& ~(16'h")
        return "%d words of %d bits%s; %d RAMs, %d narrow ports" % (
            self.words, self.width, "" if self.is_written else ", read only", module.count("[0:255];"), narrow)


class Pins(Design):
    """Pins with registers, and pins that can be switched off."""

    is_apart = True
    CELL = "  SB_IO #(.PIN_TYPE(6'b%s), .NEG_TRIGGER(1'b%d)) %s (.PACKAGE_PIN(%s)%s);"

    def __init__(self, number):
        draws = random.Random(number)
        self.plain = ["clk", "enable", "off", "in0", "in1"]
        self.taken = bus("i", 4)
        self.registered = bus("o", 4)
        self.switched = bus("t", 3)
        self.inputs = self.plain + self.taken
        self.outputs = self.registered + self.switched + ["p"]
        self.falling = {name: draws.randrange(2) for name in self.taken + self.registered}
        self.enabled = {name: draws.randrange(2) for name in self.taken + self.registered}
        self.mixed = {name: draws.sample(range(len(self.taken)), 2) for name in self.outputs}
        self.events = self.drawn(draws, [8, 2, 2, 2, 2] + [3] * len(self.taken))

    def cells(self):
        for name in self.taken:
            yield "0000_00", name, ", .INPUT_CLK(clk), .D_IN_0(x_%s)" % name
        for name in self.registered:
            yield "0101_01", name, ", .OUTPUT_CLK(clk), .D_OUT_0(y_%s)" % name
        for place, name in enumerate(self.switched):
            enable = ("off", "in0 ^ i_of[%d]" % place, "1'b1")[place % 3]
            yield "1010_01", name, ", .OUTPUT_ENABLE(%s), .D_OUT_0(y_%s)" % (enable, name)

    def text(self):
        ports = ["input %s" % name for name in self.inputs] + ["output %s" % name for name in self.outputs]
        lines = ["module top (%s);" % ", ".join(ports)]
        lines += ["  wire x_%s;" % name for name in self.taken]
        lines += ["  wire [%d:0] i_of = %s;" % (len(self.taken) - 1, joined(["x_%s" % name for name in self.taken]))]
        lines += ["  reg [1:0] count = 0;", "  always @(posedge clk) count <= count + in1;"]
        lines += ["  wire y_%s = i_of[%d] ^ (in0 & i_of[%d]) ^ count[%d];" % (name, *self.mixed[name], place % 2)
                  for place, name in enumerate(self.outputs)]
        for kind, name, rest in self.cells():
            enable = ", .CLOCK_ENABLE(enable)" if self.enabled.get(name) else ""
            lines += [self.CELL % (kind, self.falling.get(name, 0), "cell_%s" % name, name, enable + rest)]
        return "\n".join(lines + ["  assign p = y_p;", "endmodule"]) + "\n"

    def start_lines(self):
        kept = [("din_q_0", name) for name in self.taken] + [("dout_q_0", name) for name in self.registered]
        return ["top.cell_%s.%s = 0;" % (name, register) for register, name in kept] + ["top.count = 0;"]

    def seen(self, module):
        return "%d pins with a register, %d that can be switched off" % (
            module.count("reg pi_") + module.count("reg po_"), module.count("output io_") - len(self.outputs))


class Clocks(Design):
    """Registers whose clocks go through LUTs: tables that pass a clock on or invert it, one after the other, on a global net, or that hold a bit."""

    TABLES = {"passed": ("0002", "aaaa"), "turned": ("0001", "5555"), "back": ("0001", "5555"), "held": ("0000", "0008"), "set": ("ffff", "000b")}
    SOURCES = {"passed": "clk", "turned": "clk", "back": "turned", "held": "clk", "set": "clk"}
    CLOCKS = "clk", "passed", "turned", "back", "held", "set", "driven"

    def __init__(self, number):
        draws = random.Random(number)
        self.inputs = ["clk", "in0", "in1"]
        self.outputs = ["out%d" % k for k in range(OUTPUTS)]
        self.tables = {name: draws.choice(tables) for name, tables in self.TABLES.items()}
        # each clock has a register at one edge at least
        self.registers = [(clock, draws.choice(["posedge", "negedge"])) for clock in self.CLOCKS]
        self.registers += [(draws.choice(self.CLOCKS), draws.choice(["posedge", "negedge"])) for _ in self.CLOCKS]
        self.mixed = [[draws.randrange(len(self.registers)) for _ in range(2)] for _ in self.registers]
        self.shown = [draws.sample(range(len(self.registers)), 2) for _ in self.outputs]
        self.events = self.drawn(draws, [6, 2, 2])

    def text(self):
        ports = ["input %s" % name for name in self.inputs] + ["output %s" % name for name in self.outputs]
        lines = ["module top (%s);" % ", ".join(ports), "  wire driven, %s;" % ", ".join(self.TABLES),
                 "  SB_GB buffered (.USER_SIGNAL_TO_GLOBAL_BUFFER(turned), .GLOBAL_BUFFER_OUTPUT(driven));"]
        for name, table in self.tables.items():
            lines += ["  (* keep *) SB_LUT4 #(.LUT_INIT(16'h%s)) lut_%s (.I0(%s), .I1(1'b0), .I2(1'b0), .I3(1'b0), .O(%s));" % (
                table, name, self.SOURCES[name], name)]
        for place, (clock, edge) in enumerate(self.registers):
            lines += ["  reg r%d = 1'b0;" % place, "  always @(%s %s) r%d <= r%d ^ (r%d & in0) ^ in1;" % (edge, clock, place, *self.mixed[place])]
        # the clock and its inverse are values as others are
        lines += ["  assign %s = r%d ^ r%d ^ %s;" % (name, *shown, ("clk", "turned", "in0")[place % 3])
                  for place, (name, shown) in enumerate(zip(self.outputs, self.shown))]
        return "\n".join(lines + ["endmodule"]) + "\n"

    def start_lines(self):
        return ["top.r%d = 1'b0;" % place for place in range(len(self.registers))]

    def seen(self, module):
        return "%d registers with a clock, %d at falling edges" % (module.count("edge io_"), module.count("negedge io_"))


FAMILIES = {"resets": Resets, "memory": Memory, "pins": Pins, "clocks": Clocks}
