"""Reads the netlist that yosys wrote for nextpnr: the cells of the top module, its ports, and the names of its bits."""
import json
import re
from collections import Counter
from dataclasses import dataclass, field
from typing import Dict, List, Set, Tuple, Union

from stopping import REFUSED, Stop

Bit = Union[int, str]
NOTHING = "$scopeinfo",  # cells without pins, which newer versions of yosys write
CONSTANTS = "0", "1", "x", "z"
WORDS = "IO_STANDARD", "INIT_FILE"  # the parameters that aren't numbers


@dataclass(frozen=True)
class Cell:
    """A cell. parameters: a number is a string of bits, the highest first. connections: the bits at each of its ports, the lowest first.
    source: FILE:LINE, or nothing."""

    name: str
    type: str
    parameters: Tuple[Tuple[str, object], ...]
    connections: Dict[str, List[Bit]] = field(hash=False)
    source: str = ""

    def shown(self) -> str:
        """The cell by its name and its place in the source."""
        return "cell %s%s" % (self.name, " (%s)" % self.source if self.source else "")


@dataclass(frozen=True)
class Port:
    """One bit of a port of the top module, by the name that pin files give it. direction: input, output or inout."""

    name: str
    direction: str
    bit: Bit


@dataclass
class Netlist:
    """bits: of each name of a bit. names: of each bit, the one to show first. starts: of each bit with an `init`, 0 or 1.
    sources: FILE:LINE of the declaration of each bit, where it has one. read: the bits that something reads.
    pulled: of each bit, and of each name of one, with an attribute PULLUP, whether it is on."""

    cells: List[Cell]
    ports: Dict[str, Port]
    bits: Dict[str, Bit]
    names: Dict[Bit, List[str]]
    starts: Dict[Bit, int]
    sources: Dict[Bit, str]
    read: Set[Bit] = field(default_factory=set)
    pulled: Dict[Bit, bool] = field(default_factory=dict)

    def name(self, bit: Bit) -> str:
        """The name of a bit that tells most to a reader."""
        return self.names.get(bit, ["bit %s" % bit])[0]


def bit_name(name: str, index: int, data: dict) -> str:
    """The name of one bit of a port or a net, as nextpnr has it: without an index if it is the only one."""
    count, offset = len(data["bits"]), data.get("offset", 0)
    if type(offset) is not int:
        raise ValueError(offset)
    if count == 1 and offset == 0:
        return name
    return "%s[%d]" % (name, offset + (count - 1 - index if data.get("upto") else index))


def source_of(attributes: dict) -> str:
    """FILE:LINE of an attribute `src`: the first part that isn't a file of yosys itself."""
    for part in str(attributes.get("src", "")).split("|"):
        match = re.fullmatch(r"(.*):(\d+)(\.\d+)?(-[\d.]+)?", part)
        if match and "share/yosys/" not in match.group(1):
            return "%s:%s" % match.group(1, 2)
    return ""


def is_set(attributes: dict, name: str) -> bool:
    """Whether an attribute is there and isn't 0."""
    value = attributes.get(name, 0)
    return bool(int(value, 2)) if isinstance(value, str) and re.fullmatch("[01]+", value) else bool(value)


def top_module(data: dict) -> dict:
    """The top module of a netlist."""
    modules = data.get("modules") if isinstance(data, dict) else None
    if not isinstance(modules, dict) or not modules:
        raise Stop(REFUSED, "the netlist has no modules: it isn't what `yosys` writes with `synth_ice40 -json`")
    whole = {name: module for name, module in modules.items()
             if not is_set(module.get("attributes", {}), "blackbox") and not is_set(module.get("attributes", {}), "whitebox")}
    tops = [name for name, module in whole.items() if is_set(module.get("attributes", {}), "top")] or list(whole)
    if len(tops) != 1:
        raise Stop(REFUSED, "the netlist has %s" % ("the top modules %s: it needs one" % ", ".join(sorted(tops)) if tops else "no top module"))
    return whole[tops[0]]


def visible_first(name: str, data: dict):
    """The order of the names of a bit: those of the source first, then short ones."""
    return bool(data.get("hide_name")), name.startswith("$"), len(name), name


def number_bits(value) -> str:
    """A parameter or an attribute as bits, the highest first: a string of them, or a number of 32 bits, which yosys writes with `-compat-int`.
    Nothing if it is neither."""
    if type(value) is int and -(1 << 31) <= value < 1 << 32:
        return format(value & 0xffffffff, "032b")
    return value if isinstance(value, str) and re.fullmatch("[01xz]+", value) else ""


def known_bits(bits: list, what: str) -> List[Bit]:
    """The bits of a net, or at a port. Raises Stop if one is neither a number of a net nor a constant."""
    if not isinstance(bits, list):
        raise ValueError(bits)
    for bit in bits:
        if bit not in CONSTANTS and (type(bit) is not int or bit < 0):
            raise Stop(REFUSED, "the netlist's %s has a bit that isn't known: %s" % (what, str(bit)[:40]))
    return bits


def add_names(netlist: Netlist, nets: dict) -> None:
    """Takes the names of the bits of a module, and what its attributes say of them. Raises Stop if an `init` is no number."""
    for name, data in sorted(nets.items(), key=lambda item: visible_first(*item)):
        attributes = data.get("attributes", {})
        start, source = number_bits(attributes.get("init", "x")), source_of(attributes)
        if not start:
            raise Stop(REFUSED, "the netlist's net %s has an init that isn't a number: %s" % (name, str(attributes["init"])[:40]))
        for index, bit in enumerate(known_bits(data["bits"], "net %s" % name)):
            full = bit_name(name, index, data)
            netlist.bits.setdefault(full, bit)
            if isinstance(bit, int):
                netlist.names.setdefault(bit, []).append(full)
                if source:
                    netlist.sources.setdefault(bit, source)
            if start[::-1][index:index + 1] in ("0", "1"):
                netlist.starts[bit] = max(netlist.starts.get(bit, 0), int(start[::-1][index]))


def find_pulled(netlist: Netlist, nets: dict) -> None:
    """Finds what attributes PULLUP say. Of several names of a bit the last one decides, as in nextpnr."""
    for name, data in sorted(nets.items()):
        if "PULLUP" in data.get("attributes", {}):
            for index, bit in enumerate(data["bits"]):
                netlist.pulled[bit] = netlist.pulled[bit_name(name, index, data)] = is_set(data["attributes"], "PULLUP")


def once(pairs: list) -> dict:
    """An object of JSON, in which no name may come twice."""
    found = dict(pairs)
    if len(found) != len(pairs):
        raise Stop(REFUSED, "the netlist has one name twice in an object")
    return found


def add_ports(netlist: Netlist, ports: dict) -> None:
    """Takes the ports of the top module, bit by bit. Raises Stop if two bits have one name."""
    for name, data in ports.items():
        for index, bit in enumerate(known_bits(data["bits"], "port %s" % name)):
            port = Port(bit_name(name, index, data), data["direction"], bit)
            if port.name in netlist.ports or port.direction not in ("input", "output", "inout"):
                raise Stop(REFUSED, "the netlist has two ports %s, or one without a direction" % port.name)
            netlist.ports[port.name] = port


def cell_of(name: str, data: dict) -> Cell:
    """A cell, with numbers among its parameters as bits. Raises Stop if a bit at a port isn't known."""
    if not isinstance(data["type"], str):
        raise ValueError(data["type"])
    parameters = {parameter: number_bits(value) or value for parameter, value in data["parameters"].items()}
    cell = Cell(name, data["type"], tuple(sorted(parameters.items())), {}, source_of(data.get("attributes", {})))
    for port, bits in data["connections"].items():
        if known_bits(bits, "%s at its port %s" % (cell.shown(), port)):
            cell.connections[port] = bits
    return cell


def find_read(netlist: Netlist) -> None:
    """Finds the bits that something reads: they stand at two places or more."""
    places = Counter(port.bit for port in netlist.ports.values())
    for cell in netlist.cells:
        for bits in cell.connections.values():
            places.update(bits)
    netlist.read = {bit for bit, count in places.items() if count > 1}


def read_netlist(text: str) -> Netlist:
    """The netlist of a text in the JSON form of yosys. Raises Stop if it isn't one, or hasn't exactly one top module."""
    try:
        top = top_module(json.loads(text, object_pairs_hook=once))
        netlist = Netlist([], {}, {}, {}, {}, {})
        add_names(netlist, top["netnames"])
        find_pulled(netlist, top["netnames"])
        add_ports(netlist, top["ports"])
        for name, data in top["cells"].items():
            if data["type"] not in NOTHING:
                netlist.cells.append(cell_of(name, data))
        find_read(netlist)
    except json.JSONDecodeError as error:
        raise Stop(REFUSED, "the netlist isn't JSON: line %d: %s" % (error.lineno, error.msg)) from None
    except (KeyError, TypeError, AttributeError, ValueError, RecursionError):
        raise Stop(REFUSED, "the netlist isn't in the form that `yosys` writes with `synth_ice40 -json`") from None
    return netlist
