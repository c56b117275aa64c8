"""A circuit that is cut at its registers and memories: what is left between the cuts is combinational.

A net is a string. It is a variable if no function gives its value: an input, the output of a register, or a bit of the word that a memory
has read. The nets "0" and "1" are the constants.
"""
import random
from dataclasses import dataclass, field
from typing import Dict, Iterable, List, Optional, Tuple

ZERO, ONE = "0", "1"
RISING, FALLING = "rising", "falling"


@dataclass(frozen=True)
class Function:
    """A truth table. Bit k of `table` is the value where the inputs write the number k, the first input its lowest bit."""

    inputs: Tuple[str, ...]
    table: int


@dataclass
class Register:
    """A register of one bit. While `condition` is 1 it is set to `value` at once, without a clock; a condition of None never acts.

    output: the net that it drives, a variable. clock: None if it has no clock. edge: RISING or FALLING. next: what it takes at the edge.
    start: its value at the start. source: FILE:LINE of the source, or nothing.
    """

    name: str
    output: str
    clock: Optional[str]
    edge: str
    next: str
    condition: Optional[str] = None
    value: int = 0
    start: int = 0
    source: str = ""


@dataclass
class MemoryPort:
    """The read port or the write port of a block RAM. It acts at the edge of its clock if `enable` is 1.

    mode: 0 to 3, for words of 16, 8, 4 and 2 bits. address: 8 + mode nets, the lowest bit first. data: what is written, a net for each bit
    of a word, the lowest first. mask: 16 nets in mode 0, of which a 1 keeps the bit as it is; none in other modes. A read port has neither.
    """

    mode: int
    clock: str
    edge: str
    enable: str
    address: List[str]
    data: List[str] = field(default_factory=list)
    mask: List[str] = field(default_factory=list)


@dataclass
class Memory:
    """A block RAM. A port of None never acts.

    words: 256 numbers of 16 bits, the contents at the start. outputs: the variables of the word that was read, the lowest bit first.
    """

    name: str
    read: Optional[MemoryPort]
    write: Optional[MemoryPort]
    words: List[int]
    outputs: List[str]
    source: str = ""


@dataclass
class Output:
    """What drives an output pin. If `enable` is not None the pin can be switched off, and is on while that net is 1."""

    value: str
    enable: Optional[str] = None


@dataclass
class Circuit:
    """functions: of each net that is no variable. inputs: the variable of each input. registers, memories: by their names."""

    functions: Dict[str, Function] = field(default_factory=dict)
    inputs: Dict[str, str] = field(default_factory=dict)
    outputs: Dict[str, Output] = field(default_factory=dict)
    registers: Dict[str, Register] = field(default_factory=dict)
    memories: Dict[str, Memory] = field(default_factory=dict)

    def __post_init__(self):
        self.functions[ZERO] = Function((), 0)
        self.functions[ONE] = Function((), 1)


class Loop(Exception):
    """A net that depends on itself without a register between."""

    def __init__(self, net):
        super().__init__(net)
        self.net = net


def order(functions: Dict[str, Function], roots: Iterable[str]) -> List[str]:
    """The nets with a function on which the roots depend, and the roots among them, each after those that it reads. Raises Loop."""
    found, done, ahead = [], set(), set()
    for root in roots:
        stack = [(root, False)]
        while stack:
            net, is_left = stack.pop()
            if is_left:
                ahead.discard(net)
                done.add(net)
                found.append(net)
            elif net not in done and net in functions:
                if net in ahead:
                    raise Loop(net)
                ahead.add(net)
                stack.append((net, True))
                stack += [(read, False) for read in functions[net].inputs if read not in done]
    return found


def variables(functions: Dict[str, Function], roots: Iterable[str]) -> set:
    """The variables on which the roots depend."""
    roots = list(roots)
    read = {name for net in order(functions, roots) for name in functions[net].inputs}
    return {net for net in read.union(roots) if net not in functions}


FORMS: Dict[Tuple[int, int], object] = {}


def expression(table: int, names: str) -> str:
    """A truth table as a Python expression: `names` are the letters of its inputs, `m` is the word of which all bits are 1."""
    full = (1 << (1 << len(names))) - 1
    if table == 0:
        return "0"
    if table == full:
        return "m"
    half = 1 << (len(names) - 1)
    low, high = table & ((1 << half) - 1), table >> half
    if low == high:
        return expression(low, names[:-1])
    parts = []
    for part, name in (low, "(%s^m)" % names[-1]), (high, names[-1]):
        text = expression(part, names[:-1])
        parts += [] if text == "0" else [name if text == "m" else "(%s&%s)" % (name, text)]
    return "(%s)" % "|".join(parts)


def form(function: Function):
    """A Python function of the values of the inputs and of the word `m`."""
    key = len(function.inputs), function.table
    if key not in FORMS:
        names = "abcdefghijkl"[:len(function.inputs)]
        FORMS[key] = eval("lambda %s: %s" % (",".join(names + "m"), expression(function.table, names)))
    return FORMS[key]


def evaluate(functions: Dict[str, Function], nets: List[str], values: Dict[str, int], full: int) -> None:
    """Adds to the values those of the nets, which come in their order. A value has a bit for each of many cases that are computed side by
    side, and `full` has a 1 for each."""
    for net in nets:
        function = functions[net]
        values[net] = form(function)(*[values[name] for name in function.inputs], full)


def passed_input(function: Function) -> Optional[Tuple[str, bool]]:
    """The input whose value, or whose inverse, a function is, and whether it is the inverse. None if the function is neither."""
    fixed = {place: int(name) for place, name in enumerate(function.inputs) if name in (ZERO, ONE)}
    entries = [entry for entry in range(1 << len(function.inputs)) if all(entry >> place & 1 == bit for place, bit in fixed.items())]
    for place, name in enumerate(function.inputs):
        for is_inverse in (False, True) if place not in fixed else ():
            if all(function.table >> entry & 1 == (entry >> place & 1) ^ is_inverse for entry in entries):
                return name, is_inverse
    return None


def clock_source(functions: Dict[str, Function], net: str, edge: str) -> Tuple[str, str]:
    """The net from which a clock comes, through functions that pass one net on or invert it, and the edge of that net at which the clock acts."""
    while net in functions:
        passed = passed_input(functions[net])
        if passed is None:
            break
        net, is_inverse = passed
        if is_inverse:
            edge = FALLING if edge == RISING else RISING
    return net, edge


def constants(functions: Dict[str, Function], nets: List[str]) -> Dict[str, int]:
    """Those of the nets, which come in their order, that have one value whatever the variables are, as far as constants show it."""
    known: Dict[str, int] = {}
    for net in nets:
        function = functions[net]
        entries = range(1 << len(function.inputs))
        left = {function.table >> entry & 1 for entry in entries
                if all(known.get(name, entry >> place & 1) == entry >> place & 1 for place, name in enumerate(function.inputs))}
        if len(left) == 1:
            known[net] = left.pop()
    return known


def random_values(names: Iterable[str], cases: int, seed: int) -> Dict[str, int]:
    """Values of variables in so many cases. The first case has 0 everywhere, the second 1."""
    draws = random.Random(seed)
    return {name: draws.getrandbits(cases) & ~3 | 2 for name in sorted(names)}
