"""Finds the points of a comparison whose functions differ, and proves that those of all others are equal."""
import contextlib
import random
import re
import subprocess
import time
from typing import Dict, List, Optional, Tuple

from circuit import evaluate, order, random_values, variables
from comparing import Comparison, Difference, Point
from programs import Tools
from stopping import READING, Stop

CASES = 2048
MOST_CASES = 50  # differences that are told with values
MOST_ROUNDS = 8  # differences that abc finds, before the others are left open
SEED = 1
NOT_COMPARED, NOT_DECIDED, SOME_DIFFER = "not compared", "not decided", "some differ"
EQUIVALENT = re.compile(r"^Networks are equivalent( after structural hashing)?\.", re.M)
DIFFERENT = re.compile(r"^Networks are NOT EQUIVALENT\.", re.M)
SIZES = re.compile(r"i/o = *(\d+)/ *(\d+) ")
COLOURS = re.compile(r"\x1b\[[0-9;]*m")


class Undecided(Exception):
    """abc hasn't decided whether functions are equal."""


class Proof:
    """Takes the points of a comparison. The variables that both sides share are v0, v1 and so on in the files for abc, the points p0, p1 and
    so on. seconds: how many abc may take for all."""

    def __init__(self, comparison: Comparison, tools: Tools, seconds: int):
        self.comparison = comparison
        self.seconds = seconds
        self.end = 0.0
        self.tools = tools
        self.points = comparison.points
        self.sides = [(comparison.ours, [point.ours for point in self.points], {name: name for name in comparison.shared}),
                      (comparison.theirs, [point.theirs for point in self.points], {there: here for here, there in comparison.shared.items()})]
        self.variables = sorted(comparison.shared)
        self.numbers = {name: place for place, name in enumerate(self.variables)}
        self.left, self.verdict, self.reason = 0, "", ""  # how many points are open, and what is to be said of them
        self.orders = [order(circuit.functions, roots) for circuit, roots, _ in self.sides]

    def differences(self) -> List[Difference]:
        """A difference for each point whose functions differ. That the others are equal is proved when this answers, unless `left` says how
        many are open."""
        cases = {place: (case, values) for values in [random_values(self.variables, CASES, SEED)]
                 for place, case in self.differing(values, CASES, range(len(self.points)))}
        self.tools.progress("%d of %d functions differ in random cases" % (len(cases), len(self.points)))
        self.end = time.monotonic() + self.seconds
        try:
            self.find_others(cases)
        except Undecided as undecided:
            self.leave(cases, NOT_DECIDED, str(undecided))
        places = sorted(cases)
        differences = [self.difference(place, *cases[place]) for place in places[:MOST_CASES]]
        return differences + [self.plain_difference(self.points[place]) for place in places[MOST_CASES:]]

    def find_others(self, cases: Dict[int, Tuple[int, Dict[str, int]]]) -> None:
        """Adds the cases in which points differ that none of these shows. Raises Undecided."""
        rounds = 0
        left = [place for place in range(len(self.points)) if place not in cases]
        while left and not self.prove(left):
            rounds += 1
            if rounds > MOST_ROUNDS:
                return self.leave(cases, NOT_COMPARED, "since so many others differ")
            values = self.counterexample()
            if not values:
                return self.leave(cases, SOME_DIFFER, "and abc can't tell for which values")
            found = self.differing(values, CASES, left)
            if not found:
                raise Stop(READING, "abc found a difference that isn't one: see cec.log, which --log FOLDER keeps")
            cases.update({place: (case, values) for place, case in found})
            left = [place for place in left if place not in cases]
        return None

    def leave(self, cases, verdict: str, reason: str) -> None:
        """Leaves open the points that no case shows."""
        self.left, self.verdict, self.reason = len(self.points) - len(cases), verdict, reason

    def run(self, name: str, command: str) -> subprocess.CompletedProcess:
        """Runs abc, as long as there is time. Raises Undecided."""
        try:
            return self.tools.run(name, ["yosys-abc", "-c", command], seconds=max(self.end - time.monotonic(), 0.1))
        except subprocess.TimeoutExpired:
            raise Undecided("in %d second%s" % (self.seconds, "" if self.seconds == 1 else "s")) from None

    def plain_difference(self, point: Point) -> Difference:
        """The difference at a point, without a case."""
        return Difference(point.part, point.source, "%s: it isn't that of the netlist" % point.what)

    def values(self, side: int, values: Dict[str, int], full: int, nets: Optional[List[str]] = None) -> Dict[str, int]:
        """The values of all nets of a side."""
        circuit, _, shared = self.sides[side]
        known = {name: values[common] for name, common in shared.items()}
        evaluate(circuit.functions, self.orders[side] if nets is None else nets, known, full)
        return known

    def differing(self, values: Dict[str, int], cases: int, places) -> List[Tuple[int, int]]:
        """The places of points that differ in one of so many cases, each with such a case: the one with the fewest ones."""
        full = (1 << cases) - 1
        ours, theirs = (self.values(side, values, full) for side in (0, 1))
        found = []
        for place in places:
            point = self.points[place]
            wrong = ours[point.ours] ^ theirs[point.theirs]
            if wrong:
                found.append((place, (wrong & -wrong).bit_length() - 1))
        return found

    def difference(self, place: int, case: int, values: Dict[str, int]) -> Difference:
        """The difference at a point, with a case of few ones in which it differs."""
        point = self.points[place]
        names = self.read_by(point)
        orders = [order(circuit.functions, [net]) for (circuit, _, _), net in zip(self.sides, (point.ours, point.theirs))]
        chosen = {name: values[name] >> case & 1 for name in self.variables}
        for name in names:
            if chosen[name]:
                chosen[name] = 0
                if not self.differs(point, chosen, orders):
                    chosen[name] = 1
        here = self.values(0, chosen, 1, orders[0])[point.ours]
        what = "%s: the netlist has %d, the file has %d" % (point.what, here, 1 - here)
        shown = self.comparison.shown
        return Difference(point.part, point.source, what, [(shown[name], chosen[name]) for name in names])

    def read_by(self, point: Point) -> List[str]:
        """The variables on which a point depends on either side, by their names for a reader."""
        names = set()
        for (circuit, _, shared), net in zip(self.sides, (point.ours, point.theirs)):
            names.update(shared[name] for name in variables(circuit.functions, [net]))
        return sorted(names, key=lambda name: natural(self.comparison.shown[name]))

    def differs(self, point: Point, chosen: Dict[str, int], orders) -> bool:
        """Whether a point differs in a case."""
        return self.values(0, chosen, 1, orders[0])[point.ours] != self.values(1, chosen, 1, orders[1])[point.theirs]

    def write(self, side: int, name: str, places: List[int]) -> None:
        """Writes the points at these places of a side as a file for abc."""
        circuit, roots, shared = self.sides[side]
        short = {there: "v%d" % self.numbers[here] for there, here in shared.items()}
        lines = [".model %s" % name, ".inputs " + " ".join("v%d" % place for place in range(len(self.variables))),
                 ".outputs " + " ".join("p%d" % place for place in places)]
        for net in self.orders[side]:
            function = circuit.functions[net]
            short[net] = "n%d" % len(short)
            inputs = function.inputs if function.table else ()  # abc takes no table without a row that has inputs
            lines.append(".names " + " ".join(short[read] for read in inputs + (net,)))
            lines += rows(function.table, len(inputs))
        for place in places:
            lines += [".names %s p%d" % (short[roots[place]], place), "1 1"]
        self.tools.write(name + ".blif", "\n".join(lines + [".end"]) + "\n")

    def prove(self, places: List[int]) -> bool:
        """Asks abc whether the points at these places are equal. Raises Undecided."""
        self.tools.progress("abc compares %d functions" % len(places))
        self.write(0, "netlist", places)
        self.write(1, "module", places)
        ended = self.run("cec", "read_blif netlist.blif; print_stats; read_blif module.blif; print_stats; "
                                "cec -T %d -C 100000000 netlist.blif module.blif" % (self.seconds + 10))
        said = COLOURS.sub("", ended.stdout.decode(errors="replace"))
        sizes = [(int(one), int(other)) for one, other in SIZES.findall(said)]
        if ended.returncode != 0 or sizes != [(len(self.variables), len(places))] * 2 or "arning" in said or "rror" in said:
            raise Stop(READING, "abc failed: see cec.log, which --log FOLDER keeps")
        if EQUIVALENT.search(said) and not DIFFERENT.search(said):
            return True
        if not DIFFERENT.search(said):
            raise Undecided("since abc gave up: see cec.log, which --log FOLDER keeps")
        return False

    def counterexample(self) -> Dict[str, int]:
        """Values for which one of the points that abc has compared differs, in the first of CASES cases. The others are near it. None if abc
        finds none."""
        path = self.tools.write("counterexample.txt", "")
        with contextlib.suppress(Undecided):
            self.run("miter", "miter netlist.blif module.blif; strash; iprove; write_cex -n counterexample.txt")
        found = dict(re.findall(r"(?m)^(v\d+)(?:@0)?=([01])", self.tools.read(path)))
        if len(found) != len(self.variables):
            return {}
        draws = random.Random(SEED)
        full = (1 << CASES) - 1
        values = {}
        for name in self.variables:
            others = draws.getrandbits(CASES) & draws.getrandbits(CASES) & draws.getrandbits(CASES) & draws.getrandbits(CASES) & ~1
            values[name] = (full if found["v%d" % self.numbers[name]] == "1" else 0) ^ others
        return values


def rows(table: int, count: int) -> List[str]:
    """The rows of a truth table in a file for abc."""
    return ["".join("01"[entry >> place & 1] for place in range(count)) + (" 1" if count else "1")
            for entry in range(1 << count) if table >> entry & 1]


def natural(name: str):
    """A key that sorts names with numbers by the numbers: a longer one is greater."""
    numbers = [(part, part.lstrip("0")) for part in re.split("([0-9]+)", name)]
    return [(len(number), number) if re.fullmatch("[0-9]+", part) else (-1, part) for part, number in numbers]
