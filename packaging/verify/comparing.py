"""Compares a netlist and a written module, part by part.

The parts that are no functions are compared here: kinds, edges, modes, contents. Functions are compared by many random cases first, which
find most differences and need no proof; that the others are equal is proved by the program abc.
"""
from dataclasses import dataclass, field
from typing import Dict, List, Optional, Set, Tuple

from circuit import Circuit, MemoryPort, clock_source, order, variables
from matching import Partners

MOST_ZEROS = 4
NO_PARTNER = "%s has no partner of it"


@dataclass
class Point:
    """A net of the netlist and a net of the module that have to be equal. part: the part that they belong to. what: what they are of it."""

    part: str
    source: str
    what: str
    ours: str
    theirs: str


@dataclass
class Difference:
    """Something that differs, or has no partner. values: of variables that the point reads, in a case in which it differs."""

    part: str
    source: str
    what: str
    values: List[Tuple[str, int]] = field(default_factory=list)

    def line(self) -> str:
        """The difference in a line."""
        where = " (%s)" % self.source if self.source else ""
        return "differs: %s%s: %s%s" % (self.part, where, self.what, self.case())

    def case(self) -> str:
        """The values: those that are 1 by name, and so the others if they are few."""
        zeros = [name for name, value in self.values if not value]
        parts = ["%s = 1" % name for name, value in self.values if value]
        parts += ["%s = 0" % name for name in zeros] if len(zeros) <= MOST_ZEROS else ["and the %d others are 0" % len(zeros)]
        return ", where " + ", ".join(parts) if parts else ""


class Comparison:
    """The comparison of two circuits whose parts have partners."""

    def __init__(self, ours: Circuit, theirs: Circuit, partners: Partners):
        self.ours = ours
        self.theirs = theirs
        self.partners = partners
        self.points: List[Point] = []
        self.differences: List[Difference] = []
        self.shared: Dict[str, str] = {}  # variables of the module, by those of the netlist
        self.shown: Dict[str, str] = {}  # of each shared variable, its name for a reader

    def add(self, part: str, source: str, what: str, ours: Optional[str], theirs: Optional[str]) -> None:
        """Adds a point. If the net is missing on one side alone, that is a difference."""
        if ours is not None and theirs is not None:
            self.points.append(Point(part, source, what, ours, theirs))
        elif ours is not None or theirs is not None:
            self.tell(part, source, "%s: the netlist has %s, the file has %s"
                      % (what, "none" if ours is None else "one", "none" if theirs is None else "one"))

    def tell(self, part: str, source: str, what: str) -> None:
        self.differences.append(Difference(part, source, what))

    def same(self, part: str, source: str, what: str, ours, theirs) -> bool:
        """Compares something that is no function."""
        if ours != theirs:
            self.tell(part, source, "%s: the netlist has %s, the file has %s" % (what, ours, theirs))
        return ours == theirs

    def share(self, ours: str, theirs: str, shown: str) -> None:
        """Makes two variables one."""
        self.shared[ours] = theirs
        self.shown[ours] = shown

    def collect(self) -> None:
        """Finds all that is to be compared."""
        for port, other in self.partners.inputs.items():
            self.share(self.ours.inputs[port], self.theirs.inputs[other], port + (" from outside" if port in self.ours.outputs else ""))
        for port, other in self.partners.outputs.items():
            one, two = self.ours.outputs[port], self.theirs.outputs[other]
            self.add("output %s" % port, "", "value", one.value, two.value)
            self.add("output %s" % port, "", "switch that turns it off", one.enable, two.enable)
        for name, other in self.partners.registers.items():
            self.collect_register(name, other)
        for name, other in self.partners.memories.items():
            self.collect_memory(name, other)

    def collect_register(self, name: str, other: str) -> None:
        """What is compared of a register."""
        one, two = self.ours.registers[name], self.theirs.registers[other]
        part = "register %s" % one.name
        self.share(one.output, two.output, one.name)
        if one.clock is not None and two.clock is not None:
            self.collect_clock(part, one.source, "clock", one, two)
            self.add(part, one.source, "next value", one.next, two.next)
        else:
            self.add(part, one.source, "clock", one.clock, two.clock)
        self.add(part, one.source, "condition that sets or resets it without the clock", one.condition, two.condition)
        if one.condition is not None and two.condition is not None:
            self.same(part, one.source, "value that it gets without the clock", one.value, two.value)
        self.same(part, one.source, "value at the start", one.start, two.start)

    def collect_clock(self, part: str, source: str, what: str, one, two) -> None:
        """What is compared of the clocks of two registers or ports. An edge of a clock is the other edge of its inverse."""
        (mine, edge), (yours, other) = (clock_source(circuit.functions, user.clock, user.edge)
                                        for circuit, user in ((self.ours, one), (self.theirs, two)))
        self.same(part, source, "edge of the %s" % what, edge, other)
        self.add(part, source, what, mine, yours)

    def collect_memory(self, name: str, other: str) -> None:
        """What is compared of a block RAM."""
        one, two = self.ours.memories[name], self.theirs.memories[other]
        part = "RAM %s" % name
        for what, here, there in ("read", one.read, two.read), ("write", one.write, two.write):
            if here and there:
                self.collect_port(part, one.source, what, here, there)
            elif here or there:
                self.tell(part, one.source, "%s port: the netlist %s it, the file %s"
                          % (what, "uses" if here else "never uses", "does" if there else "never does"))
        wrong = [place for place in range(256) if one.words[place] != two.words[place]]
        if wrong:
            self.tell(part, one.source, "contents at the start: %d of 256 words differ, the first at %d: the netlist has %04x, the file has %04x"
                      % (len(wrong), wrong[0], one.words[wrong[0]], two.words[wrong[0]]))
        if len(one.outputs) == len(two.outputs):
            for place, (mine, yours) in enumerate(zip(one.outputs, two.outputs)):
                self.share(mine, yours, "%s bit %d" % (name, place))

    def collect_port(self, part: str, source: str, what: str, one: MemoryPort, two: MemoryPort) -> None:
        """What is compared of a port of a block RAM."""
        self.collect_clock(part, source, "%s clock" % what, one, two)
        self.add(part, source, "%s enable" % what, one.enable, two.enable)
        sizes = [16 >> port.mode for port in (one, two)]
        if not self.same(part, source, "bits of a word at the %s port" % what, *sizes):
            return
        for kind in "address", "data", "mask":
            for place, (mine, yours) in enumerate(zip(getattr(one, kind), getattr(two, kind))):
                self.add(part, source, "%s %s bit %d" % (what, kind, place), mine, yours)

    def tell_unmatched(self) -> None:
        """Tells each part without a partner. An input counts if something that is compared depends on it."""
        for kind, ours, theirs, pairs in (("output", self.ours.outputs, self.theirs.outputs, self.partners.outputs),
                                          ("register", self.ours.registers, self.theirs.registers, self.partners.registers),
                                          ("RAM", self.ours.memories, self.theirs.memories, self.partners.memories)):
            for name, part in ours.items():
                if name not in pairs:
                    self.tell("%s %s" % (kind, getattr(part, "name", name)), getattr(part, "source", ""), NO_PARTNER % "the file")
            for name in sorted(set(theirs).difference(pairs.values())):
                self.tell("%s %s of the file" % (kind, name), "", NO_PARTNER % "the netlist")

    def roots(self) -> Tuple[List[str], List[str]]:
        """The nets that are compared, of the netlist and of the module."""
        return [point.ours for point in self.points], [point.theirs for point in self.points]

    def tell_unshared(self) -> int:
        """Tells inputs without a partner on which something depends, and puts aside the points that can't be compared for what has none.
        Answers how many these are."""
        ours, theirs = self.roots()
        for circuit, pairs, end, roots in ((self.ours, self.partners.inputs, "", ours),
                                           (self.theirs, self.partners.inputs.values(), " of the file", theirs)):
            read = variables(circuit.functions, roots)
            for name, variable in circuit.inputs.items():
                if name not in pairs and variable in read:
                    self.tell("input %s%s" % (name, end), "", NO_PARTNER % ("the netlist" if end else "the file"))
            for name in sorted(read.difference(known_variables(circuit))):
                self.tell("net %s%s" % (name, end), "", "nothing drives it")
        open_ours = tainted(self.ours, ours, set(self.shared))
        open_theirs = tainted(self.theirs, theirs, set(self.shared.values()))
        kept = [point for point in self.points if point.ours not in open_ours and point.theirs not in open_theirs]
        aside = len(self.points) - len(kept)
        self.points = kept
        return aside


def known_variables(circuit: Circuit) -> Set[str]:
    """The variables that something drives."""
    outputs = {output for memory in circuit.memories.values() for output in memory.outputs}
    return outputs.union(circuit.inputs.values(), (register.output for register in circuit.registers.values()))


def tainted(circuit: Circuit, roots: List[str], shared: Set[str]) -> Set[str]:
    """The nets that depend on a variable without a partner."""
    found = {name for name in roots if name not in circuit.functions and name not in shared}
    for name in order(circuit.functions, roots):
        inputs = circuit.functions[name].inputs
        found.update(read for read in inputs if read not in circuit.functions and read not in shared)
        if any(read in found for read in inputs):
            found.add(name)
    return found
