"""What the cells of a netlist mean, by the models that yosys ships with them (cells_sim.v).

yosys turns the model of each kind of cell that the netlist has into gates and flip-flops. The gates become truth tables here.
"""
import json
import re
from dataclasses import dataclass, field
from typing import Dict, List, Optional, Set, Tuple

from circuit import FALLING, RISING, Function
from netlist import NOTHING, WORDS, Bit, Cell, number_bits
from programs import Tools
from stopping import READING, REFUSED, Stop

RAMS = {"SB_RAM40_4K": (RISING, RISING), "SB_RAM40_4KNR": (FALLING, RISING), "SB_RAM40_4KNW": (RISING, FALLING),
        "SB_RAM40_4KNRNW": (FALLING, FALLING)}
PINS = "SB_IO", "SB_GB_IO"
FLIP_FLOPS = tuple("SB_DFF" + edge + kind for edge in ("", "N") for kind in ("", "E", "SR", "R", "SS", "S", "ESR", "ER", "ESS", "ES"))
KNOWN = ("SB_LUT4", "SB_CARRY", "SB_GB") + PINS + FLIP_FLOPS
SWITCH = "$_TBUF_"
SWITCH_MODEL = {"ports": {name: {"bits": [place]} for place, name in enumerate("AEY", 2)}, "parameter_default_values": {}}
# the registers of a pin's cell by their names in its model: what icebox_vlog calls those of a pin
PIN_REGISTERS = {"din_q_0": "pi", "din_q_1": "pj", "clken_pulled_ri": "ci", "dout_q_0": "po", "dout_q_1": "pq", "clken_pulled_ro": "co",
                 "outena_q": "pe"}

GATES = {"$_BUF_": ("A", 0b10), "$_NOT_": ("A", 0b01), "$_AND_": ("AB", 0b1000), "$_NAND_": ("AB", 0b0111), "$_OR_": ("AB", 0b1110),
         "$_NOR_": ("AB", 0b0001), "$_XOR_": ("AB", 0b0110), "$_XNOR_": ("AB", 0b1001), "$_ANDNOT_": ("AB", 0b0010),
         "$_ORNOT_": ("AB", 0b1011), "$_MUX_": ("ABS", 0b11001010)}
FLIP_FLOP_GATE = re.compile(r"\$_DFF_([PN])([PN])?([01])?_")

Kind = Tuple[str, tuple, tuple]


@dataclass
class RegisterModel:
    """A register in a cell. clock, next, condition: by what stands at the ports of the cell, and by its registers."""

    name: str
    edge: str
    clock: Function
    next: Function
    condition: Optional[Function]
    value: int
    start: int


@dataclass
class CellModel:
    """What a kind of cell does. outputs: of each port that it drives, by its other ports and its registers; of a port that can be switched off
    also when it is on, in `enables`. Where such a port is read it stands for its pad."""

    outputs: Dict[str, Function] = field(default_factory=dict)
    enables: Dict[str, Function] = field(default_factory=dict)
    registers: Dict[str, RegisterModel] = field(default_factory=dict)


def kind_of(cell: Cell) -> Kind:
    """What the meaning of a cell depends on: its type, its parameters, and which of its ports are connected. An input that a latch may hold is
    left out, since nothing reads it."""
    is_held = cell.type in PINS and pin_type(cell)[4] == "1"
    return cell.type, cell.parameters, tuple(sorted(port for port in cell.connections if port != "D_IN_0" or not is_held))


def pin_type(cell: Cell) -> str:
    """The PIN_TYPE of a pin's cell, the highest of its six bits first."""
    return str(dict(cell.parameters).get("PIN_TYPE", "")).lstrip("0").zfill(6)


def check_kind(cell: Cell, read: Set[Bit]) -> None:
    """Raises Stop if the cell isn't one whose meaning is known. read: the bits that something reads."""
    if cell.type not in KNOWN and cell.type not in RAMS and cell.type != SWITCH:
        raise Stop(REFUSED, "the netlist's %s has the type %s, which isn't known" % (cell.shown(), cell.type))
    for name, value in cell.parameters:
        if not (isinstance(value, str) if name in WORDS else number_bits(value)):
            raise Stop(REFUSED, "the netlist's %s has a parameter %s that isn't a %s: %s"
                       % (cell.shown(), name, "word" if name in WORDS else "number", str(value)[:40]))
    fault = pin_fault(cell, read) if cell.type in PINS else ""
    if fault:
        raise Stop(REFUSED, "the netlist's %s has %s, which isn't taken" % (cell.shown(), fault))


def check_model(cell: Cell, model: dict) -> None:
    """Raises Stop if the cell has a parameter or a port that its model hasn't, or more bits at a port. model: as yosys writes it."""
    ports = {name: len(port["bits"]) for name, port in model["ports"].items()}
    known = model.get("parameter_default_values")  # old versions of yosys don't write them
    for name, _ in cell.parameters:
        if known is not None and name not in known:
            raise Stop(REFUSED, "the netlist's %s has a parameter %s, which its model hasn't" % (cell.shown(), name))
    for name, bits in cell.connections.items():
        if name not in ports:
            raise Stop(REFUSED, "the netlist's %s has a port %s, which its model hasn't" % (cell.shown(), name))
        if len(bits) > ports[name]:
            raise Stop(REFUSED, "the netlist's %s has %d bits at its port %s, where its model has %d" % (cell.shown(), len(bits), name, ports[name]))


def pin_fault(cell: Cell, read: Set[Bit]) -> str:
    """What a pin's cell has that icebox_vlog doesn't take, or nothing."""
    kind, standard = pin_type(cell), str(dict(cell.parameters).get("IO_STANDARD", "SB_LVCMOS"))
    fault = "the PIN_TYPE " + kind
    drives = kind[:2] != "00"
    if not re.fullmatch("[01]{6}", kind):
        return fault
    if kind[4] == "1" and cell.connections.get("D_IN_0", [None])[0] in read:
        return fault + " and a D_IN_0 that is used: a latch may hold it"
    if drives and cell.type == "SB_GB_IO":
        return fault + ", that of an output, and drives a global net"
    if drives and standard == "SB_LVDS_INPUT":
        return fault + ", that of an output, and the IO_STANDARD " + standard
    return "" if standard.startswith(("SB_LVCMOS", "SB_LVTTL", "SB_LVDS_INPUT")) else "the IO_STANDARD " + standard


def model_text(library: str, types) -> str:
    """The models of these types of cells, out of the text of cells_sim.v."""
    first = re.search(r"^module ", library, re.M)
    parts = [library[:first.start()]] if first else []
    for name in types:
        match = re.search(r"^module %s\b.*?^endmodule" % re.escape(name), library, re.M | re.S)
        if not match:
            raise Stop(READING, "cells_sim.v of yosys has no model of %s" % name)
        parts.append(match.group())
    # inside of a chip no wire floats
    return re.sub(r"\w+ === 1'bz", "1'b0", "\n".join(parts) + "\n")


def instance(kind: Kind, ports: Dict[str, dict]) -> dict:
    """A module with a cell of a kind, and the ports of the cell that are connected."""
    type_name, parameters, connected = kind
    bits = {name: [place] for place, name in enumerate(connected, 2)}
    directions = {name: ports[name]["direction"] for name in connected}
    return {"ports": {name: {"direction": directions[name], "bits": bits[name]} for name in connected}, "netnames": {}, "attributes": {},
            "cells": {"cell": {"type": type_name, "parameters": dict(parameters), "attributes": {}, "port_directions": directions,
                               "connections": bits}}}


READ_PORTS = """read_verilog -lib -nowb +/ice40/cells_sim.v
write_json ports.json
"""
READ_MODELS = """read_verilog cells.v
read_json kinds.json
hierarchy
tribuf
proc
flatten
delete {types} $paramod*
simplemap
opt_clean
write_json models.json
"""


def read_library(tools: Tools) -> Dict[str, dict]:
    """The ports and parameters of all models, by the type of the cell, as yosys writes them: it knows where its models are."""
    modules = json.loads(tools.yosys("ports", READ_PORTS))["modules"]
    lacking = [name for name in (*KNOWN, *RAMS) if name not in modules]
    if lacking:
        raise Stop(READING, "cells_sim.v of yosys has no model of %s" % lacking[0])
    return {**modules, SWITCH: SWITCH_MODEL}


def library_text(library: Dict[str, dict], tools: Tools) -> str:
    """The text of cells_sim.v, which yosys names as the source of its models."""
    path = str(library["SB_IO"].get("attributes", {}).get("src", "")).rpartition(":")[0]
    if not path:
        raise Stop(READING, "yosys doesn't tell where its models are")
    return tools.read(tools.folder / path)


def read_models(kinds: List[Kind], library: Dict[str, dict], tools: Tools) -> Dict[Kind, CellModel]:
    """The models of kinds of cells, by a run of yosys. library: what `read_library` gives."""
    types = sorted({type_name for type_name, _, _ in kinds})
    wanted = types + ["SB_IO"] * ("SB_GB_IO" in types and "SB_IO" not in types)
    tools.write("cells.v", model_text(library_text(library, tools), wanted))
    made = {"kind%d" % place: instance(kind, library[kind[0]]["ports"]) for place, kind in enumerate(kinds)}
    tools.write("kinds.json", json.dumps({"creator": "iceverify", "modules": made}))
    modules = json.loads(tools.yosys("models", READ_MODELS.format(types=" ".join(wanted))))["modules"]
    return {kind: Extraction(kind[0], modules["kind%d" % place]).model() for place, kind in enumerate(kinds)}


class Extraction:
    """Makes the model of a kind of cell out of the gates that yosys made."""

    def __init__(self, type_name: str, module: dict):
        self.type_name = type_name
        self.ports = module["ports"]
        self.gates: Dict[int, tuple] = {}
        self.registers: Dict[str, dict] = {}
        self.switches: Dict[int, dict] = {}
        self.variables: Dict[int, str] = {}
        # of each bit the name to show: that of a pin's register first, then a short one
        self.names = {net["bits"][0]: name.rsplit(".", 1)[-1] for name, net in sorted(
            module["netnames"].items(), key=lambda item: (item[0].rsplit(".", 1)[-1] in PIN_REGISTERS, -len(item[0])))}
        self.starts = {bit: int(start) for net in module["netnames"].values()
                       for bit, start in zip(net["bits"], reversed(net.get("attributes", {}).get("init", ""))) if start in "01"}
        for cell in module["cells"].values():
            if cell["type"] in NOTHING:
                continue
            self.take(cell["type"], {port: bits[0] for port, bits in cell["connections"].items()})
        for name, port in self.ports.items():
            if port["direction"] == "input":
                self.variables.setdefault(port["bits"][0], name)
        pads = {port["bits"][0]: name for name, port in self.ports.items() if port["direction"] == "inout"}
        if not set(self.switches) <= set(pads):
            raise Stop(REFUSED, "the model of %s has a tri-state buffer that drives no pin, which isn't taken" % type_name)
        # pads that the cell doesn't always drive
        free = {bit: name for bit, name in pads.items() if bit not in self.gates and bit not in self.variables}
        self.open = {name for bit, name in free.items() if bit not in self.switches}
        self.variables.update(free)

    def take(self, gate: str, pins: Dict[str, int]) -> None:
        """Takes a gate or a flip-flop. Raises Stop at any other cell."""
        if gate in GATES:
            self.gates[pins["Y"]] = [pins[pin] for pin in GATES[gate][0]], GATES[gate][1]
        elif FLIP_FLOP_GATE.fullmatch(gate):
            name = "register%d" % len(self.registers)
            self.variables[pins["Q"]] = name
            self.registers[name] = {"gate": gate, **pins}
        elif gate == "$_DLATCH_P_" and pins["E"] == "1":  # a latch that is always open
            self.gates[pins["Q"]] = [pins["D"]], 0b10
        elif gate == SWITCH:
            self.switches[pins["Y"]] = pins
        else:
            raise Stop(REFUSED, "the model of %s has a cell %s, which isn't taken" % (self.type_name, gate))

    def support(self, root) -> List[str]:
        """The variables on which a bit depends."""
        found, seen, left = set(), set(), [root]
        while left:
            bit = left.pop()
            if bit in seen:
                continue
            seen.add(bit)
            if bit in self.variables:
                found.add(self.variables[bit])
            elif bit in self.gates:
                left += self.gates[bit][0]
        return sorted(found)

    def function(self, root) -> Function:
        """A bit as a truth table of the variables on which it depends."""
        names = self.support(root)
        cases = 1 << len(names)
        full = (1 << cases) - 1
        values = {name: sum(1 << case for case in range(cases) if case >> place & 1) for place, name in enumerate(names)}
        known = {"0": 0, "1": full}
        return Function(tuple(names), self.value(root, values, known, full))

    def value(self, bit, values, known, full) -> int:
        """The value of a bit in all cases side by side."""
        if bit in known:
            return known[bit]
        if bit in self.variables:
            value = values[self.variables[bit]]
        elif bit in self.gates:
            inputs, table = self.gates[bit]
            words = [self.value(read, values, known, full) for read in inputs]
            value = 0
            for entry in range(1 << len(words)):
                if table >> entry & 1:
                    term = full
                    for place, word in enumerate(words):
                        term &= word if entry >> place & 1 else ~word
                    value |= term
        elif bit in ("x", "z"):
            raise Stop(REFUSED, "the model of %s reads what floats" % self.type_name)
        else:
            value = 0  # an input of the cell that isn't connected
        known[bit] = value
        return value

    def register(self, name: str, pins: dict) -> RegisterModel:
        """The model of a flip-flop."""
        edge, level, value = FLIP_FLOP_GATE.fullmatch(pins["gate"]).groups()
        condition = self.function(pins["R"]) if level else None
        if level == "N":
            condition = Function(condition.inputs, condition.table ^ (1 << (1 << len(condition.inputs))) - 1)
        shown = self.names.get(pins["Q"], name)
        return RegisterModel(shown, RISING if edge == "P" else FALLING, self.function(pins["C"]), self.function(pins["D"]), condition,
                             int(value or 0), self.starts.get(pins["Q"], 0))

    def model(self) -> CellModel:
        """The whole model."""
        model = CellModel()
        model.registers = {name: self.register(name, pins) for name, pins in self.registers.items()}
        for name, port in self.ports.items():
            bit = port["bits"][0]
            if port["direction"] == "input" or name in self.open:
                continue
            model.outputs[name] = self.function(self.switches[bit]["A"] if bit in self.switches else bit)
            if bit in self.switches:
                model.enables[name] = self.function(self.switches[bit]["E"])
        return model
