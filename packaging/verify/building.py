"""Makes a circuit of a netlist: its cells by their models, cut at registers and block RAMs."""
from dataclasses import dataclass, field
from typing import Dict, List, Optional, Set

from cells import PIN_REGISTERS, PINS, RAMS, SWITCH, CellModel, Kind, kind_of
from circuit import ONE, ZERO, Circuit, Function, Memory, MemoryPort, Output, Register, constants, order
from netlist import Bit, Cell, Netlist, Port
from stopping import REFUSED, Stop

GROUPS = (1, 0), (2, 0), (4, 1), (8, 3)  # of each mode of a block RAM: data bit D stands at bit G * D + O of its ports
DEFAULTS = {"RCLKE": ONE, "WCLKE": ONE}  # of a block RAM's ports that aren't connected; all others are 0
CHOICE = 0b11001010  # the table of: the second input where the third is 1, else the first


@dataclass
class Pin:
    """What the netlist says of a pin of the chip. port: the name of the port. cell: the cell SB_IO or SB_GB_IO, if there is one.
    registers: the names of the registers in that cell, by what a written module calls them."""

    port: str
    cell: Optional[Cell] = None
    registers: Dict[str, str] = field(default_factory=dict)


@dataclass
class Built:
    """The circuit of a netlist. registers, memories: the name of the one that drives a bit. pins: by the name of the port.
    inputs_of, outputs_of: of a bit, the ports from whose pins it comes, and those whose pins show it."""

    circuit: Circuit
    registers: Dict[Bit, str]
    memories: Dict[Bit, str]
    pins: Dict[str, Pin]
    inputs_of: Dict[Bit, List[str]]
    outputs_of: Dict[Bit, List[str]]


def net(bit: Bit) -> str:
    """The net of a bit. One that is open or undefined is taken as 0, as nextpnr has it."""
    return "b%d" % bit if isinstance(bit, int) else {"1": ONE}.get(bit, ZERO)


class Builder:
    """Makes the circuit cell by cell."""

    def __init__(self, netlist: Netlist, models: Dict[Kind, CellModel]):
        self.netlist = netlist
        self.models = models
        self.circuit = Circuit()
        self.built = Built(self.circuit, {}, {}, {}, {}, {})
        self.ports_at: Dict[Bit, Port] = {}
        self.driven: Set[str] = set()

    def build(self) -> Built:
        """The circuit of the netlist."""
        self.add_ports()
        for cell in self.netlist.cells:
            if cell.type in RAMS:
                self.add_memory(cell)
            elif cell.type == SWITCH:
                self.add_switch(cell)
            else:
                self.add_cell(cell, self.models[kind_of(cell)])
        for port in self.netlist.ports.values():
            self.finish_port(port)
        return self.built

    def add_ports(self):
        """Adds the inputs of the top module."""
        for port in self.netlist.ports.values():
            self.built.pins[port.name] = Pin(port.name)
            if port.direction != "input":
                self.built.outputs_of.setdefault(port.bit, []).append(port.name)
            if port.direction != "output":
                self.built.inputs_of.setdefault(port.bit, []).append(port.name)
                self.ports_at.setdefault(port.bit, port)
            if port.direction == "input":
                self.circuit.inputs[port.name] = net(port.bit)
                self.drive(net(port.bit), "the input %s" % port.name)
        for port in self.netlist.ports.values():
            self.ports_at.setdefault(port.bit, port)

    def drive(self, name: str, driver: str):
        """Notes that something drives a net. Raises Stop if something else does too."""
        if name in self.driven or name in (ZERO, ONE):
            raise Stop(REFUSED, "the netlist has two drivers of one net: %s is one of them" % driver)
        self.driven.add(name)

    def give(self, name: str, function: Function, cell: Cell):
        """Gives a net its function."""
        self.drive(name, "the cell %s" % cell.name)
        self.circuit.functions[name] = function

    def mapped(self, function: Function, cell: Cell, registers: Dict[str, str]) -> Function:
        """A function of a model, of the nets at the ports of a cell and of its registers."""
        return Function(tuple(registers[name] if name in registers else net(cell.connections[name][0]) for name in function.inputs),
                        function.table)

    def helper(self, name: str, function: Function) -> str:
        """A net of its own for a function; a function that is just a net is that net."""
        if function.table == 2 and len(function.inputs) == 1:
            return function.inputs[0]
        self.circuit.functions[name] = function
        return name

    def add_cell(self, cell: Cell, model: CellModel):
        """Adds a cell that has a model."""
        given = {port: function for port, function in model.outputs.items()
                 if cell.connections[port][0] in self.netlist.read or port == "PACKAGE_PIN"}
        wanted = self.needed(given, model) if cell.type in PINS else set(model.registers)
        outputs = {name: "%s.%s" % (cell.name, name) for name in wanted}
        for name in wanted:
            self.add_register(cell, name, model, outputs)
        for port, function in given.items():
            if port != "PACKAGE_PIN":
                self.give(net(cell.connections[port][0]), self.mapped(function, cell, outputs), cell)
        if cell.type in PINS:
            self.add_pin(cell, model, given, outputs)

    def needed(self, given: Dict[str, Function], model: CellModel) -> Set[str]:
        """The registers of a pin's cell on which depends what is read of it."""
        found: Set[str] = set()
        left = [name for function in list(given.values()) + list(model.enables.values()) for name in function.inputs]
        while left:
            name = left.pop()
            if name in model.registers and name not in found:
                found.add(name)
                register = model.registers[name]
                left += register.next.inputs + register.clock.inputs
        return found

    def add_register(self, cell: Cell, name: str, model: CellModel, outputs: Dict[str, str]):
        """Adds a register of a cell. That of a flip-flop has the name of the net that it drives."""
        register = model.registers[name]
        own = outputs[name]
        bit = cell.connections.get("Q", [None])[0]
        if cell.type in PINS:
            shown = "%s of the pin cell %s" % (register.name, cell.name)
        else:
            shown = self.netlist.name(bit) if bit is not None else cell.name
        if bit is not None:
            self.built.registers[bit] = own
        functions = {part: self.mapped(function, cell, outputs) for part, function in
                     (("clock", register.clock), ("next", register.next), ("condition", register.condition)) if function}
        nets = {part: self.helper("%s.%s" % (own, part), function) for part, function in functions.items()}
        start = max(register.start, self.netlist.starts.get(bit, 0))
        source = cell.source or self.netlist.sources.get(bit, "")
        self.circuit.registers[own] = Register(shown, own, nets["clock"], register.edge, nets["next"], nets.get("condition"),
                                               register.value, start, source)

    def add_pin(self, cell: Cell, model: CellModel, given: Dict[str, Function], outputs: Dict[str, str]):
        """Adds what a cell SB_IO or SB_GB_IO does at its pin."""
        bit = cell.connections.get("PACKAGE_PIN", [None])[0]
        port = self.ports_at.get(bit)
        if port is None:
            raise Stop(REFUSED, "the netlist's cell %s isn't at a port of the top module" % cell.name)
        pin = self.built.pins[port.name]
        if pin.cell:
            raise Stop(REFUSED, "the netlist has two cells at the port %s" % port.name)
        pin.cell = cell
        pin.registers = {PIN_REGISTERS.get(model.registers[name].name, name): own for name, own in outputs.items()}
        for ports, names in (self.built.inputs_of, ("D_IN_0", "D_IN_1", "GLOBAL_BUFFER_OUTPUT")), (self.built.outputs_of, ("D_OUT_0", "D_OUT_1")):
            for other in [other for name in names for other in cell.connections.get(name, [])]:
                ports.setdefault(other, []).append(port.name)
        if "PACKAGE_PIN" not in given:
            self.add_input(port)
        elif "PACKAGE_PIN" in model.enables:
            value, enable = (self.helper("%s.%s" % (cell.name, part), self.mapped(function, cell, outputs))
                             for part, function in (("value", given["PACKAGE_PIN"]), ("enable", model.enables["PACKAGE_PIN"])))
            self.add_switched(port, value, enable, cell)
        else:
            self.give(net(bit), self.mapped(given["PACKAGE_PIN"], cell, outputs), cell)

    def add_input(self, port: Port):
        """Makes an inout port that nothing drives an input."""
        if port.direction == "output":
            raise Stop(REFUSED, "the netlist has the output port %s at a pin that is an input" % port.name)
        if port.name not in self.circuit.inputs:
            self.circuit.inputs[port.name] = net(port.bit)
            self.drive(net(port.bit), "the port %s" % port.name)

    def add_switched(self, port: Port, value: str, enable: str, cell: Cell):
        """Makes a port an output that can be switched off. What reads its net has the value while it is on, and else what comes from outside,
        an input."""
        if port.direction == "input" or port.name in self.circuit.outputs:
            raise Stop(REFUSED, "the netlist has no single output at the port %s" % port.name)
        outside = "%s.outside" % net(port.bit)
        self.give(net(port.bit), Function((outside, value, enable), CHOICE), cell)
        self.circuit.inputs[port.name] = outside
        self.circuit.outputs[port.name] = Output(value, enable)

    def add_switch(self, cell: Cell):
        """Adds a tri-state buffer, which may only drive a port."""
        pins = {name: bits[0] for name, bits in cell.connections.items()}
        port = self.ports_at.get(pins.get("Y"))
        if port is None:
            raise Stop(REFUSED, "the netlist's tri-state buffer %s doesn't drive a port" % cell.name)
        value, enable = (pins.get(name, "x") for name in "AE")
        self.built.outputs_of.setdefault(value, []).append(port.name)
        self.add_switched(port, net(value), net(enable), cell)

    def finish_port(self, port: Port):
        """Adds an output, or an inout port that nothing drives, after all cells."""
        if port.direction == "input" or port.name in self.circuit.inputs or port.name in self.circuit.outputs:
            return
        if port.direction == "inout" and net(port.bit) not in self.driven:
            self.add_input(port)
        else:
            self.circuit.outputs[port.name] = Output(net(port.bit))

    def bits(self, cell: Cell, port: str, count: int) -> List[str]:
        """The nets at a port of a block RAM."""
        nets = [net(bit) for bit in cell.connections.get(port, [])]
        return (nets + [DEFAULTS.get(port, ZERO)] * count)[:count]

    def mode(self, cell: Cell, name: str) -> int:
        """A parameter of a block RAM that is a mode."""
        mode = number_of(dict(cell.parameters).get(name, "0"), 32)
        if mode not in range(4):
            raise Stop(REFUSED, "the netlist's block RAM %s has an unknown %s" % (cell.name, name))
        return mode

    def memory_port(self, cell: Cell, letter: str, edge: str) -> MemoryPort:
        """The read port (R) or the write port (W) of a block RAM."""
        mode = self.mode(cell, {"R": "READ_MODE", "W": "WRITE_MODE"}[letter])
        clock = letter + "CLK" + ("N" if letter + "CLKN" in cell.connections else "")
        both = [self.bits(cell, letter + part, 1)[0] for part in ("CLKE", "E")]
        enable = self.helper("%s.%sE" % (cell.name, letter), Function(tuple(both), 0b1000))
        return MemoryPort(mode, self.bits(cell, clock, 1)[0], edge, enable, self.bits(cell, letter + "ADDR", 11)[:8 + mode])

    def add_memory(self, cell: Cell):
        """Adds a block RAM."""
        parameters = dict(cell.parameters)
        if parameters.get("INIT_FILE", "").strip(" 0"):
            raise Stop(REFUSED, "the netlist's block RAM %s has its contents in a file: %s" % (cell.name, parameters["INIT_FILE"]))
        read, write = (self.memory_port(cell, letter, edge) for letter, edge in zip("RW", RAMS[cell.type]))
        group, first = GROUPS[write.mode]
        write.data = self.bits(cell, "WDATA", 16)[first::group]
        write.mask = self.bits(cell, "MASK", 16) if write.mode == 0 else []
        words = []
        for part in "0123456789ABCDEF":
            content = number_of(parameters.get("INIT_" + part, "0"), 256)
            words += [content >> 16 * place & 0xffff for place in range(16)]
        group, first = GROUPS[read.mode]
        outputs = []
        for place, bit in enumerate(cell.connections.get("RDATA", [])):
            self.built.memories[bit] = cell.name
            if place >= first and (place - first) % group == 0:
                self.drive(net(bit), "the block RAM %s" % cell.name)
            else:
                self.give(net(bit), Function((), 0), cell)
        bits = self.bits(cell, "RDATA", 16)
        outputs = [bits[place] if bits[place] != ZERO else "%s.RDATA%d" % (cell.name, place) for place in range(first, 16, group)]
        self.circuit.memories[cell.name] = Memory(cell.name, read, write, words, outputs, cell.source)


def number_of(value: str, width: int) -> int:
    """The number of a parameter that is a string of bits, the highest first. A bit that isn't given is 0, as nextpnr has it."""
    if len(value) > max(width, 32):
        raise Stop(REFUSED, "the netlist has a parameter of a block RAM with more than %d bits" % max(width, 32))
    return int("".join("1" if bit == "1" else "0" for bit in value), 2)


def known_constants(circuit: Circuit, roots: List[str]) -> Dict[str, int]:
    """The nets among these, and those on which they depend, that are constant."""
    return constants(circuit.functions, order(circuit.functions, roots))


def drop_idle(circuit: Circuit) -> None:
    """Leaves out what never acts, since it is the same as nothing: clocks that don't change, conditions that are never 1, and ports of block
    RAMs without a clock or never enabled."""
    roots = [name for register in circuit.registers.values() for name in (register.clock, register.condition) if name]
    ports = [port for memory in circuit.memories.values() for port in (memory.read, memory.write) if port]
    known = known_constants(circuit, roots + [name for port in ports for name in (port.clock, port.enable)])
    for register in circuit.registers.values():
        if register.clock in known:
            register.clock, register.next = None, register.output
        if known.get(register.condition) == 0:
            register.condition = None
    for memory in circuit.memories.values():
        for name in ("read", "write"):
            port = getattr(memory, name)
            if port and (port.clock in known or known.get(port.enable) == 0):
                setattr(memory, name, None)
        if memory.read is None:  # what it has read stays 0
            circuit.functions.update({output: Function((), 0) for output in memory.outputs})
            memory.outputs = []
