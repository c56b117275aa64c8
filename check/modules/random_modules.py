"""Random modules of the Verilog subset, each made from a seed: ports, registers of one bit and of 16, memories, wires of each form, both
clock edges. No register's input depends on a clock without a register between, since simulators of full Verilog may then see the new
value of the clock.

A module may have levels above 0. What is at level 0 has an input as its clock, and what is at a level above that a register of the level below.
So an event changes a level after the one below. What is at a level reads nothing of the level below, which changes together with its clock:
simulators of full Verilog may see the old value or the new one.
"""
import random


class Size:
    """How much a module has of each thing."""

    def __init__(self, inputs, outputs, luts, registers, memories, events):
        self.inputs = inputs
        self.outputs = outputs
        self.luts = luts
        self.registers = registers
        self.memories = memories
        self.events = events


SMALL = Size(6, 5, 30, 12, 2, 300)
LARGE = Size(32, 32, 8000, 4000, 32, 10000)

# of the inputs the first two are clocks
CLOCKS = 2
# the time in Icarus Verilog's dump at which the start is dumped
DUMP_START = 3


class Module:
    """A random module: its text, and its names by kind. levels: how many there are above 0. level: that of each register and memory, which is the
    level of the item that assigns it. wires: those that depend on nothing of a level, by that level, and all of them by None."""

    def __init__(self, seed, size, levels=0):
        self.random = random.Random(seed)
        self.levels = levels
        self.inputs = ["in_%d" % i for i in range(size.inputs)]
        self.outputs = ["out_%d" % i for i in range(size.outputs)]
        self.registers = ["ff_%d" % i for i in range(size.registers)]
        self.words = ["rd_%d" % i for i in range(size.memories)]
        self.memories = ["mem_%d" % i for i in range(size.memories)]
        self.wires = {level: [] for level in (None, *range(levels))}
        self.level = {name: place % (levels + 1) for place, name in enumerate(self.registers)}
        self.level.update((name, self.random.randrange(levels + 1) if levels else 0) for name in self.words)
        for word, memory in zip(self.words, self.memories):
            below = self.level[word] - 1
            self.level[memory] = self.random.choice([level for level in range(levels + 1) if level != below]) if levels else 0
        self.starts = {}
        self.lines = []
        self.write(size)

    def word(self):
        return "16'h%04x" % self.random.randrange(65536)

    def below(self, name):
        """The level of which nothing is read where this name is assigned."""
        return self.level[name] - 1 if self.level[name] else None

    def atom(self, left_out=None):
        """A bit that doesn't depend on a clock from outside, nor on anything of a level that is left out."""
        registers, words = ([name for name in names if self.level[name] != left_out] for names in (self.registers, self.words))
        wires = self.wires[left_out]
        kinds = [lambda: self.random.choice(["1'b0", "1'b1"]), lambda: self.random.choice(self.inputs[CLOCKS:]),
                 lambda: self.random.choice(registers), lambda: "%s[%d]" % (self.random.choice(words), self.random.randrange(16)),
                 lambda: self.random.choice(wires[-2000:]), lambda: self.random.choice(wires[-2000:])]
        kinds = kinds if wires else kinds[:4]
        return self.random.choice(kinds if words else kinds[:3] + kinds[4:])()

    def atoms(self, count, left_out=None):
        return "{%s}" % ", ".join(self.atom(left_out) for _ in range(count))

    def right(self, left_out):
        """The right side of a wire, mostly a LUT."""
        kind = self.random.randrange(8)
        if kind == 0:
            return self.atom(left_out)
        if kind == 1:
            a, b, c = (self.atom(left_out) for _ in range(3))
            return "(%s & %s) | (%s & %s) | (%s & %s)" % (a, b, a, c, b, c)
        return "%s >> %s" % (self.word(), self.atoms(4, left_out))

    def wire(self, name):
        """A wire, which may leave out a level."""
        left_out = self.random.choice(list(self.wires)) if self.levels else None
        line = "  wire %s = %s;" % (name, self.right(left_out))
        for level in {None, left_out}:
            self.wires[level].append(name)
        return line

    def edge(self, name):
        """The edge at which a name is assigned."""
        level = self.level[name]
        clocks = [clock for clock in self.registers if self.level[clock] == level - 1] if level else self.inputs[:CLOCKS]
        return "%s %s" % (self.random.choice(["posedge", "negedge"]), self.random.choice(clocks))

    def write(self, size):
        put = self.lines.append
        put("module chip (%s);" % ", ".join(self.inputs + self.outputs))
        for name in self.inputs:
            put("  input %s;" % name)
        for name in self.outputs:
            put("  output %s;" % name)
        for name in self.registers:
            self.starts[name] = "1'b%d" % self.random.randrange(2)
            put("  reg %s = %s;" % (name, self.starts[name]))
        for name in self.words:
            self.starts[name] = self.word()
            put("  reg [15:0] %s = %s;" % (name, self.starts[name]))
        for name in self.memories:
            put("  reg [15:0] %s [0:255];" % name)
        for i in range(size.luts):
            put(self.wire("n_%d" % i))
        for name in self.outputs:
            put("  assign %s = %s;" % (name, self.atom()))
        for name in self.registers:
            left_out = self.below(name)
            put("  always @(%s) if (%s) begin if (%s) %s <= 1'b%d; else %s <= %s >> %s; end"
                % (self.edge(name), self.atom(left_out), self.atom(left_out), name, self.random.randrange(2), name, self.word(),
                   self.atoms(4, left_out)))
        for name, memory in zip(self.words, self.memories):
            left_out = self.below(name)
            put("  always @(%s) if (%s & %s) %s <= %s[%s];"
                % (self.edge(name), self.atom(left_out), self.atom(left_out), name, memory, self.atoms(8, left_out)))
        for memory in self.memories:
            left_out = self.below(memory)
            address, mask = self.atoms(8, left_out), self.atoms(16, left_out)
            put("  always @(%s) if (%s & %s) %s[%s] <= (%s[%s] & %s) | (%s & ~%s);"
                % (self.edge(memory), self.atom(left_out), self.atom(left_out), memory, address, memory, address, mask,
                   self.atoms(16, left_out), mask))
        for memory in self.memories:
            for k in range(256):
                self.starts["%s[%d]" % (memory, k)] = self.word()
                put("  initial %s[%d] = %s;" % (memory, k, self.starts["%s[%d]" % (memory, k)]))
        put("endmodule")

    def text(self):
        return "\n".join(self.lines) + "\n"

    def events(self, count):
        """Events, half of them of clocks."""
        pins = [self.random.randrange(CLOCKS if self.random.randrange(2) else len(self.inputs)) for _ in range(count)]
        return [(pin, self.random.randrange(2)) for pin in pins]

    def write_files(self, events, work):
        """Writes the module as chip.v, the events for vlogrun, and the pins and bits of the events for what Icarus Verilog runs."""
        (work / "chip.v").write_text(self.text())
        (work / "events").write_text("".join("%s %d\n" % (self.inputs[pin], bit) for pin, bit in events))
        (work / "pins").write_text("".join("%x\n" % pin for pin, _ in events))
        (work / "bits").write_text("".join("%d\n" % bit for _, bit in events))

    def bench_head(self, events):
        """The lines that begin a module which runs this one over events."""
        ports = [".%s(in[%d])" % (name, i) for i, name in enumerate(self.inputs)]
        ports += [".%s(out[%d])" % (name, i) for i, name in enumerate(self.outputs)]
        return ["`timescale 1 ns / 1 ns", "module bench;", "  reg [%d:0] in = 0;" % (len(self.inputs) - 1),
                "  wire [0:%d] out;" % (len(self.outputs) - 1), "  reg [31:0] pins [0:%d];" % (len(events) - 1),
                "  reg bits [0:%d];" % (len(events) - 1), "  integer e;", "  chip chip (%s);" % ", ".join(ports)]

    def bench_start(self):
        """The lines that read the events and bring the state to its start. A clock that comes from x to 0 isn't the event of a list, but may be an
        edge: the state begins anew, all registers at once and then the words of memories."""
        lines = ["  initial begin", '    $readmemh("pins", pins);', '    $readmemb("bits", bits);', "    #1;"]
        registers = [name for name in self.starts if "[" not in name]
        lines += ["    force chip.%s = %s;" % (name, self.starts[name]) for name in registers] + ["    #1;"]
        lines += ["    release chip.%s;" % name for name in registers]
        return lines + ["    chip.%s = %s;" % (name, start) for name, start in self.starts.items() if "[" in name]

    def bench(self, events, shown):
        """A module that runs this one over events, and writes the lines of vlogrun."""
        lines = self.bench_head(events) + ["  task show; begin", '    $write("%b", out);']
        if shown:
            lines.append('    $write(" %s", %s);' % ("%b" * len(self.registers), ", ".join("chip." + name for name in self.registers)))
            lines += ['    $write(" %%h", chip.%s);' % name for name in self.words]
        lines += ['    $write("\\n");', "  end endtask"] + self.bench_start()
        lines += ["    #1 show;", "    for (e = 0; e < %d; e = e + 1) begin" % len(events), "      in[pins[e]] = bits[e];", "      #1 show;",
                  "    end", "  end", "endmodule"]
        return "\n".join(lines) + "\n"

    def bench_of_waves(self, events):
        """A module that runs this one over events, one at a time, and dumps its variables."""
        lines = self.bench_head(events) + self.bench_start()
        lines += ["    #%d;" % (DUMP_START - 2), '    $dumpfile("icarus.vcd");', "    $dumpvars(1, chip);",
                  "    for (e = 0; e < %d; e = e + 1) #1 in[pins[e]] = bits[e];" % len(events), "    #1;", "  end", "endmodule"]
        return "\n".join(lines) + "\n"
