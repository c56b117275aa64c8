"""Reads the module that icebox_vlog writes of a design into a circuit.

It takes the forms of docs/FORMATS.md, "The Verilog subset", exactly as icebox_vlog prints them, and their meaning is the one that stands
there. Any other line ends the run.
"""
import re
from dataclasses import dataclass
from typing import Dict, List, Optional

from circuit import FALLING, ONE, RISING, ZERO, Circuit, Function, Memory, MemoryPort, Output, Register
from stopping import REFUSED, Stop

ATOM = r"(?:1'b[01]|\w+\[\d+\]|\w+)"
LUT = r"16'h([0-9a-f]{4}) >> \{(%s), (%s), (%s), (%s)\}" % ((ATOM,) * 4)
LIST = r"\{([^{}]*)\}"
NARROW = {"5555": 1, "1111": 2, "0101": 3}

PATTERNS = {name: re.compile(pattern + "$") for name, pattern in {
    "port": r"(input|output) (\w+);",
    "register": r"reg (\w+) = 1'b([01]);",
    "word": r"reg \[15:0\] (\w+) = 16'h0000;",
    "memory": r"reg \[15:0\] (\w+) \[0:255\];",
    "wire": r"wire (\w+) = (.*);",
    "assign": r"assign (\w+) = (%s);" % ATOM,
    "clocked": r"always @\((pos|neg)edge (\w+)\) if \((%s)\) begin if \((%s)\) (\w+) <= 1'b([01]); else \5 <= %s; end" % (ATOM, ATOM, LUT),
    "at_once": r"always @\((pos|neg)edge (\w+) or posedge (\w+)\) if \(\3\) (\w+) <= 1'b([01]); else if \((%s)\) \4 <= %s;" % (ATOM, LUT),
    "no_clock": r"always @\(posedge (\w+)\) (\w+) <= 1'b([01]);",
    "read": r"always @\((pos|neg)edge (\w+)\) if \((%s) & (%s)\) (rd_\w+) <= (\w+)\[%s\];" % (ATOM, ATOM, LIST),
    "read_narrow": r"always @\((pos|neg)edge (\w+)\) if \((%s) & (%s)\) (rd_\w+) <= \((\w+)\[%s\] >> %s\) & 16'h([0-9a-f]{4});"
                   % (ATOM, ATOM, LIST, LIST),
    "write": r"always @\((pos|neg)edge (\w+)\) if \((%s) & (%s)\) (mem_\w+)\[%s\] <= \(\5\[\{\6\}\] & %s\) \| \(%s & ~\{\7\}\);"
             % (ATOM, ATOM, LIST, LIST, LIST),
    "write_narrow": r"always @\((pos|neg)edge (\w+)\) if \((%s) & (%s)\) (mem_\w+)\[%s\] <= \(\5\[\{\6\}\] & ~\(16'h([0-9a-f]{4}) << %s\)\) "
                    r"\| \(%s & \(16'h\7 << \{\8\}\)\);" % (ATOM, ATOM, LIST, LIST, LIST),
    "content": r"initial (\w+)\[(\d+)\] = 16'h([0-9a-f]{4});",
}.items()}
WIRES = {name: re.compile(pattern + "$") for name, pattern in {
    "alias": r"(%s)" % ATOM,
    "lut": LUT,
    "majority": r"\((\w+|1'b[01]) & (\w+|1'b[01])\) \| \(\1 & (\w+|1'b[01])\) \| \(\2 & \3\)",
    "set_at_once": r"(\w+) \? 1'b([01]) : (\w+)",
}.items()}
KINDS = {"input": ("port",), "output": ("port",), "reg": ("register", "word", "memory"), "wire": ("wire",), "assign": ("assign",),
         "initial": ("content",), "always": ("clocked", "at_once", "read", "read_narrow", "write", "write_narrow", "no_clock")}


@dataclass
class Module:
    """A written module: its circuit, and the wires that show what drives what. An input of a pin that can be switched off has the name of the
    output in the circuit.

    readers: the number of the net whose wire is just a register, an input, the pad of such a pin, or a bit of a word that was read, by that name.
    values: the number of the net whose wire an output, or the register of an output pin, takes, by the name of the output or register.
    """

    circuit: Circuit
    readers: Dict[str, List[int]]
    values: Dict[str, int]


def net(atom: str) -> str:
    """The net of an atom."""
    return {"1'b0": ZERO, "1'b1": ONE}.get(atom, atom)


def number(name: str) -> Optional[int]:
    """The number of the net whose wire has that name."""
    return int(name[2:]) if re.fullmatch("n_[0-9]{1,9}", name) else None


class Reader:
    """Takes a module line by line."""

    def __init__(self):
        self.circuit = Circuit()
        self.module = Module(self.circuit, {}, {})
        self.outputs: List[str] = []
        self.pads: Dict[str, str] = {}
        self.at_once: Dict[str, tuple] = {}
        self.words: Dict[str, List[int]] = {}
        self.reads: Dict[str, tuple] = {}
        self.writes: Dict[str, MemoryPort] = {}
        self.read_words: List[str] = []
        self.made = 0

    def add(self, function: Function) -> str:
        """A new net with a function."""
        self.made += 1
        name = "made_%d" % self.made
        self.circuit.functions[name] = function
        return name

    def lut(self, word: str, atoms) -> Function:
        """A LUT: its atoms stand from the highest input to the lowest."""
        return Function(tuple(net(atom) for atom in reversed(atoms)), int(word, 16))

    def line(self, text: str) -> bool:
        """Takes a line, and says whether it has a known form."""
        for kind in KINDS.get(text.split(" ", 1)[0], ()):
            match = PATTERNS[kind].match(text)
            if match:
                return getattr(self, "take_" + kind)(*match.groups()) is not False
        return False

    def take_port(self, direction, name):
        if name.startswith("pll_"):
            raise Stop(REFUSED, "the file uses a PLL, whose output is the input port %s: PLLs aren't compared" % name)
        if direction == "input":
            self.circuit.inputs[name] = name
        else:
            self.outputs.append(name)

    def take_register(self, name, start):
        self.circuit.registers[name] = Register(name, name, None, RISING, name, start=int(start))

    def take_word(self, name):
        self.read_words.append(name)

    def take_memory(self, name):
        self.words[name] = [0] * 256

    def take_wire(self, name, right):
        """Takes a wire. One of a form that isn't known is False."""
        for kind, pattern in WIRES.items():
            match = pattern.match(right)
            if match and name not in self.circuit.functions:
                self.circuit.functions[name] = getattr(self, "wire_" + kind)(name, *match.groups())
                return True
        return False

    def note(self, name, source):
        """Notes that a wire is just that register, input, pad or bit."""
        if number(name) is not None:
            self.module.readers.setdefault(self.pads.get(source, source), []).append(number(name))

    def wire_alias(self, name, atom):
        self.note(name, atom)
        return Function((net(atom),), 2)

    def wire_lut(self, name, word, *atoms):
        if atoms[-1].endswith("_in"):
            self.pads[name] = atoms[-1][:-3]
        return self.lut(word, atoms)

    def wire_majority(self, _, *atoms):
        return Function(tuple(net(atom) for atom in atoms), 0b11101000)

    def wire_set_at_once(self, name, condition, value, register):
        """The register alone stands for it: while the condition is 1 the settled register has the value."""
        self.note(name, register)
        if self.at_once.setdefault(register, (condition, int(value))) != (condition, int(value)):
            raise Stop(REFUSED, "the module reads %s in two ways" % register)
        return Function((register,), 2)

    def take_assign(self, name, atom):
        self.circuit.outputs[name] = Output(net(atom))
        self.keep_value(name, atom)

    def keep_value(self, name, atom):
        if number(atom) is not None:
            self.module.values[name] = number(atom)

    def set_register(self, name, clock, edge, taken, condition=None, value=0):
        register = self.circuit.registers[name]
        if register.clock is not None or register.condition is not None:
            raise Stop(REFUSED, "the module assigns %s twice" % name)
        register.clock, register.edge, register.next = clock, edge, taken
        register.condition, register.value = condition, int(value)

    def take_clocked(self, edge, clock, enable, reset, name, value, word, *atoms):
        """Takes a flip-flop: if it is enabled it takes the bit if the reset is 1, and else the LUT."""
        if name.startswith("po_"):
            self.keep_value(name, atoms[-1])
        taken = self.add(self.lut(word, atoms))
        chosen = self.add(Function((net(reset), taken), 0b1110 if value == "1" else 0b0100))
        taken = self.add(Function((net(enable), chosen, name), 0b11011000))
        self.set_register(name, clock, edge_of(edge), taken)

    def take_at_once(self, edge, clock, condition, name, value, enable, word, *atoms):
        taken = self.add(self.lut(word, atoms))
        taken = self.add(Function((net(enable), taken, name), 0b11011000))
        self.set_register(name, clock, edge_of(edge), taken, condition, value)

    def take_no_clock(self, condition, name, value):
        self.set_register(name, None, RISING, name, condition, value)

    def port_of(self, mode, edge, clock, enables, address, shift=()):
        """A port of a block RAM. The address and the shift have their highest bit first."""
        enable = self.add(Function(tuple(net(atom) for atom in enables), 0b1000))
        bits = [net(atom) for atom in reversed(split(address, 8))]
        shift = [net(atom) for atom in reversed(split(shift, 3))] if mode else []
        if any(bit != ZERO for bit in shift[mode:]):
            raise Stop(REFUSED, "the module has a RAM whose address doesn't fit its mode")
        return MemoryPort(mode, clock, edge_of(edge), enable, bits + shift[:mode])

    def take_read(self, edge, clock, one, other, word, memory, address):
        self.add_read(word, memory, self.port_of(0, edge, clock, (one, other), address))

    def take_read_narrow(self, edge, clock, one, other, word, memory, address, shift, kept):
        if kept not in NARROW:
            return False
        return self.add_read(word, memory, self.port_of(NARROW[kept], edge, clock, (one, other), address, shift))

    def add_read(self, word, memory, port):
        if word in self.reads or place(word) != place(memory):
            raise Stop(REFUSED, "the module reads %s twice, or from another place" % word)
        self.reads[word] = port

    def take_write(self, edge, clock, one, other, memory, address, mask, data):
        port = self.port_of(0, edge, clock, (one, other), address)
        port.mask = [net(atom) for atom in reversed(split(mask, 16))]
        port.data = [net(atom) for atom in reversed(split(data, 16))]
        self.add_write(memory, port)

    def take_write_narrow(self, edge, clock, one, other, memory, address, kept, shift, data):
        """Takes a write port of a narrow mode. Each bit of the narrow word stands in all places of its group."""
        if kept not in NARROW:
            return False
        mode = NARROW[kept]
        port = self.port_of(mode, edge, clock, (one, other), address, shift)
        bits = [net(atom) for atom in reversed(split(data, 16))]
        group = 1 << mode
        if any(bits[place] != bits[place - place % group] for place in range(16)):
            raise Stop(REFUSED, "the module writes a narrow word of %s that isn't repeated" % memory)
        port.data = bits[::group]
        return self.add_write(memory, port)

    def add_write(self, memory, port):
        if memory in self.writes:
            raise Stop(REFUSED, "the module writes %s twice" % memory)
        self.writes[memory] = port

    def take_content(self, memory, address, word):
        self.words[memory][int(address)] = int(word, 16)

    def finish(self) -> Module:
        """The module, after its last line."""
        for name, value in self.at_once.items():
            register = self.circuit.registers[name]
            if (register.condition, register.value) != value:
                raise Stop(REFUSED, "the module reads %s otherwise than it sets it" % name)
        self.join_switched()
        for word in self.read_words:
            self.add_memory(word)
        self.check_names()
        return self.module

    def check_names(self):
        """Raises Stop if something reads a name that nothing gives."""
        circuit = self.circuit
        given = set(circuit.functions) | set(circuit.inputs.values()) | set(circuit.registers)
        read = {name for function in circuit.functions.values() for name in function.inputs}
        read |= {name for output in circuit.outputs.values() for name in (output.value, output.enable) if name}
        read |= {name for register in circuit.registers.values() for name in (register.clock, register.condition) if name}
        for memory in circuit.memories.values():
            given.update(memory.outputs)
            for port in (memory.read, memory.write):
                read.update([port.clock] + port.address + port.data + port.mask if port else [])
        if read - given:
            raise Stop(REFUSED, "the module reads %s, which nothing gives" % min(read - given))

    def join_switched(self):
        """Makes an output and the one that says whether it is on a single output. What comes to its pin gets its name too."""
        circuit = self.circuit
        if set(self.outputs) != set(circuit.outputs):
            raise Stop(REFUSED, "the module has an output that isn't assigned")
        for name in self.outputs:
            if name.endswith("_en"):
                circuit.outputs[name[:-3]].enable = circuit.outputs.pop(name).value
        for name in [name for name in circuit.inputs if name.endswith("_in")]:
            if name[:-3] in circuit.inputs or circuit.outputs[name[:-3]].enable is None:
                raise Stop(REFUSED, "the module has an input %s at a pin that is never switched off" % name)
            circuit.inputs[name[:-3]] = circuit.inputs.pop(name)

    def add_memory(self, word):
        """Adds the block RAM of a word that is read. Bits that a narrow read leaves out are 0."""
        memory = "mem" + word[2:]
        read = self.reads.get(word)
        group = 1 << (read.mode if read else 0)
        bits = ["%s[%d]" % (word, bit) for bit in range(16)]
        for bit in range(16):
            if bit % group or not read:
                self.circuit.functions[bits[bit]] = Function((), 0)
        self.circuit.memories[memory] = Memory(memory, read, self.writes.get(memory), self.words.pop(memory), bits[::group] if read else [])


def edge_of(word: str) -> str:
    return RISING if word == "pos" else FALLING


def place(name: str) -> str:
    """The place in the name of a block RAM or its word."""
    return name.split("_", 1)[1]


def split(text: str, count: int) -> List[str]:
    """The atoms of a list in braces."""
    atoms = text.split(", ")
    if len(atoms) != count or not all(re.fullmatch(ATOM, atom) for atom in atoms):
        raise Stop(REFUSED, "the module has a list of another length than %d" % count)
    return atoms


def read_module(text: str) -> Module:
    """The circuit of a written module. Raises Stop at a line of an unknown form."""
    lines = text.splitlines()
    if len(lines) < 2 or not re.fullmatch(r"module \w+ \([\w, ]*\);", lines[0]) or lines[-1] != "endmodule":
        raise Stop(REFUSED, "icebox_vlog wrote no module")
    reader = Reader()
    for count, line in enumerate(lines[1:-1], 2):
        try:
            is_taken = line.startswith("  ") and reader.line(line[2:])
        except (KeyError, IndexError, ValueError):
            is_taken = False
        if not is_taken:
            raise Stop(REFUSED, "line %d of the module has a form that isn't known: %s" % (count, line.strip()[:60]))
    try:
        return reader.finish()
    except KeyError as error:
        raise Stop(REFUSED, "the module has no %s, which it names" % error) from None
