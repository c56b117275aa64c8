"""Finds for each part of a netlist the part of the written module that stands for it.

Registers and block RAMs: which is whose partner is only a hint. Whatever pairs are made, two circuits are the same if all that is
compared between the pairs is equal. Ports are another matter: which pin of the chip a port has is what a pin file, or else the text, says.
"""
import re
from dataclasses import dataclass, field
from typing import Dict, List, Optional

from building import Built
from circuit import Circuit
from guessing import Guesser
from module import Module
from netlist import Bit, Netlist
from texts import Place, place_of

ENDINGS = re.compile(r"(\$SB_IO_(IN|OUT)|_?\$(glb|fabric)_\w+|\$sb_io\w*|\$nextpnr_\w+)$")
CONSTANTS = {"$PACKER_GND_NET": "0", "$PACKER_VCC_NET": "1"}


@dataclass
class Partners:
    """Of each input, output, register and block RAM of the netlist that has a partner, its name in the module."""

    inputs: Dict[str, str] = field(default_factory=dict)
    outputs: Dict[str, str] = field(default_factory=dict)
    registers: Dict[str, str] = field(default_factory=dict)
    memories: Dict[str, str] = field(default_factory=dict)


class Matcher:
    """netlist, built: the netlist and its circuit. module: the written module. names: of net numbers, by the text. pins: the names of ports
    at places, by a pin file."""

    def __init__(self, netlist: Netlist, built: Built, module: Module, names: Dict[int, List[str]], pins: Dict[Place, str]):
        self.netlist = netlist
        self.built = built
        self.module = module
        self.names = names
        self.pins = pins
        self.partners = Partners()
        self.taken = set()  # what has a partner in the module, by the kind of pair

    def match(self) -> Partners:
        """All partners that are found."""
        self.match_outputs()
        self.match_inputs()
        self.match_registers()
        self.match_memories()
        self.match_pin_registers()
        self.match_moved()
        self.match_left()
        return self.partners

    def bits_of(self, number: int) -> List[Bit]:
        """The bits of the netlist that a net of the device is called after."""
        found = []
        for name in self.names.get(number, []):
            while name:
                if name in CONSTANTS or name in self.netlist.bits:
                    found.append(CONSTANTS.get(name, self.netlist.bits.get(name)))
                    break
                shorter = ENDINGS.sub("", name)
                name = shorter if shorter != name else ""
        return found

    def pair(self, pairs: Dict[str, str], one: Optional[str], other: Optional[str], ours: Dict[str, object], theirs: Dict[str, object]) -> bool:
        """Makes a pair of a name of the netlist and one of the module, if both are there and neither has a partner."""
        if one not in ours or other not in theirs or one in pairs or (id(pairs), other) in self.taken:
            return False
        pairs[one] = other
        self.taken.add((id(pairs), other))
        return True

    def match_ports(self, pairs: Dict[str, str], ours: Dict[str, object], theirs: Dict[str, object], named_at) -> None:
        """Pairs ports: by the pin file, and the others by the names of the nets at their pins. `named_at` gives the ports that these name."""
        for other in theirs:
            self.pair(pairs, self.pins.get(place_of(other)), other, ours, theirs)
        named = set(self.pins.values())
        for other in theirs:
            if (id(pairs), other) in self.taken or place_of(other) in self.pins:
                continue
            found = [port for port in named_at(other) if port not in named]
            # a net may be shown by several pins: those of one kind belong together
            for port in sorted(found, key=lambda port: self.kind_of(port) != kind_in(self.module.circuit, other)):
                if self.pair(pairs, port, other, ours, theirs):
                    break

    def kind_of(self, port: str):
        """Of a port of the netlist, whether it can be switched off, and whether it shows a register of its pin."""
        output = self.built.circuit.outputs.get(port)
        return output and (output.enable is not None, "po" in self.built.pins[port].registers)

    def named_ports(self, numbers: List[int], ports_of: Dict[Bit, List[str]], other: str) -> List[str]:
        """The ports that nets are called after: the one with just that name first, if it hasn't the other direction, then those of its bit."""
        exact = [ENDINGS.sub("", name) for number in numbers for name in self.names.get(number, [])]
        bits = [bit for number in numbers for bit in self.bits_of(number)]
        ports = self.netlist.ports
        return [name for name in exact if name in ports and ports[name].direction != other] + [
            port for bit in bits for port in ports_of.get(bit, [])]

    def named_inputs(self, port: str) -> List[str]:
        """The ports that are called as the nets which have the pad of a port of the module, or what registers of its pin take of it."""
        numbers = [number for kind in ("io", "pi", "pj") for number in self.module.readers.get(kind + port[2:], [])]
        return self.named_ports(numbers, self.built.inputs_of, "output")

    def named_outputs(self, port: str) -> List[str]:
        """The ports that are called as the nets which a port of the module shows, or a register of its pin takes, after those of its pad."""
        numbers = [self.module.values[name] for name in (port, "po" + port[2:]) if name in self.module.values]
        return self.named_inputs(port) + self.named_ports(numbers, self.built.outputs_of, "input")

    def match_inputs(self):
        """Pairs the inputs. What comes to a pin that can be switched off goes with its output."""
        ours, theirs, pairs = self.built.circuit.inputs, self.module.circuit.inputs, self.partners.inputs
        for port, other in self.partners.outputs.items():
            self.pair(pairs, port, other, ours, theirs)
        self.match_ports(pairs, ours, theirs, self.named_inputs)

    def match_outputs(self):
        """Pairs the outputs."""
        self.match_ports(self.partners.outputs, self.built.circuit.outputs, self.module.circuit.outputs, self.named_outputs)

    def match_registers(self):
        """Pairs registers by the names of the nets that they drive."""
        for other in self.module.circuit.registers:
            for number in self.module.readers.get(other, []):
                for bit in self.bits_of(number):
                    self.pair_registers(self.built.registers.get(bit), other)

    def pair_registers(self, one: Optional[str], other: Optional[str]) -> bool:
        return self.pair(self.partners.registers, one, other, self.built.circuit.registers, self.module.circuit.registers)

    def match_memories(self):
        """Pairs block RAMs by the names of the nets that they drive."""
        for other in self.module.circuit.memories:
            for index in range(16):
                for number in self.module.readers.get("rd%s[%d]" % (other[3:], index), []):
                    for bit in self.bits_of(number):
                        self.pair(self.partners.memories, self.built.memories.get(bit), other, self.built.circuit.memories,
                                  self.module.circuit.memories)

        self.match_left_memories()

    def match_left_memories(self):
        """Pairs the block RAMs that are left by their contents, and at last the only two."""
        ours, theirs, pairs = self.built.circuit.memories, self.module.circuit.memories, self.partners.memories
        for name, memory in ours.items():
            for other in [other for other, there in theirs.items() if there.words == memory.words]:
                self.pair(pairs, name, other, ours, theirs)
        left = [name for name in ours if name not in pairs], [name for name in theirs if (id(pairs), name) not in self.taken]
        if len(left[0]) == len(left[1]) == 1:
            self.pair(pairs, left[0][0], left[1][0], ours, theirs)

    def match_pin_registers(self):
        """Pairs the registers of cells at pins with those of the pins of the module."""
        for pin in self.built.pins.values():
            other = self.partners.outputs.get(pin.port) or self.partners.inputs.get(pin.port, "io")
            for kind, one in pin.registers.items():
                self.pair_registers(one, kind + other[2:])

    def match_moved(self):
        """Pairs registers that are in a pin on one side alone: one that an output shows, or that takes an input, as it is."""
        ours, theirs = self.built.circuit, self.module.circuit
        for port, other in self.partners.outputs.items():
            self.pair_registers(passed_on(ours, ours.outputs[port].value), passed_on(theirs, theirs.outputs[other].value))
        left = [[name for name in ours.registers if name not in self.partners.registers],
                [name for name in theirs.registers if (id(self.partners.registers), name) not in self.taken]]
        for port, other in self.partners.inputs.items():
            takers = [[name for name in names if passed_on(circuit, circuit.registers[name].next) == variable]
                      for circuit, variable, names in zip((ours, theirs), (ours.inputs[port], theirs.inputs[other]), left)]
            if len(takers[0]) == len(takers[1]) == 1:
                self.pair_registers(takers[0][0], takers[1][0])

    def match_left(self):
        """Pairs the registers that are left by what they take."""
        ours, theirs, partners = self.built.circuit, self.module.circuit, self.partners
        shared = {ours.inputs[port]: theirs.inputs[other] for port, other in partners.inputs.items()}
        shared.update({ours.registers[name].output: theirs.registers[other].output for name, other in partners.registers.items()})
        for name, other in partners.memories.items():
            shared.update(zip(ours.memories[name].outputs, theirs.memories[other].outputs))
        taken = set(partners.registers.values())
        for one, other in Guesser(ours, theirs, shared).guess([name for name in ours.registers if name not in partners.registers],
                                                              [name for name in theirs.registers if name not in taken]):
            self.pair_registers(one, other)


def kind_in(circuit: Circuit, port: str):
    """The same of a port of the module."""
    output = circuit.outputs.get(port)
    return output and (output.enable is not None, "po" + port[2:] in circuit.registers)


def passed_on(circuit: Circuit, name: str) -> str:
    """The net from which a net has its value unchanged."""
    while name in circuit.functions:
        function = circuit.functions[name]
        used = [place for place in range(len(function.inputs)) if reads(function.table, len(function.inputs), place)]
        if len(used) != 1 or function.table & 1 or not function.table >> (1 << used[0]) & 1:
            break
        name = function.inputs[used[0]]
    return name


def reads(table: int, count: int, place: int) -> bool:
    """Whether a truth table of so many inputs depends on the one at that place."""
    return any(table >> entry & 1 != table >> (entry ^ 1 << place) & 1 for entry in range(1 << count))
