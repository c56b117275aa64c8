"""Finds partners for registers whose nets have no name in the text, as those that nothing reads: by what they take in random cases."""
from typing import Dict, List, Tuple

from circuit import Circuit, evaluate, order, random_values

CASES = 64
SEED = 2


class Guesser:
    """ours, theirs: the two circuits. shared: the variables of the second by those of the first, as far as they have partners."""

    def __init__(self, ours: Circuit, theirs: Circuit, shared: Dict[str, str]):
        self.circuits = ours, theirs
        self.shared = shared

    def values(self, side: int, names: List[str]) -> Dict[str, int]:
        """The values of what registers of a side take. A variable without a partner is 0."""
        circuit = self.circuits[side]
        registers = [circuit.registers[name] for name in names]
        roots = [net for register in registers for net in (register.next, register.clock, register.condition) if net is not None]
        nets = order(circuit.functions, roots)
        common = random_values(self.shared, CASES, SEED)
        known = {(theirs if side else ours): common[ours] for ours, theirs in self.shared.items()}
        for name in {read for net in nets for read in circuit.functions[net].inputs}.union(roots):
            if name not in circuit.functions:
                known.setdefault(name, 0)
        evaluate(circuit.functions, nets, known, (1 << CASES) - 1)
        return known

    def signatures(self, side: int, names: List[str]) -> Dict[Tuple, List[str]]:
        """The registers of a side by what they take."""
        found: Dict[Tuple, List[str]] = {}
        values = self.values(side, names)
        for name in names:
            register = self.circuits[side].registers[name]
            parts = [values.get(net) for net in (register.next, register.clock, register.condition)]
            found.setdefault((register.edge, register.value, *parts), []).append(name)
        return found

    def guess(self, ours: List[str], theirs: List[str]) -> List[Tuple[str, str]]:
        """Pairs of those registers, by their names."""
        pairs: List[Tuple[str, str]] = []
        while ours and theirs:
            one, other = self.signatures(0, ours), self.signatures(1, theirs)
            found = [pair for key, names in one.items() for pair in zip(names, other.get(key, []))]
            if not found:
                break
            for mine, yours in found:
                ours, theirs = [name for name in ours if name != mine], [name for name in theirs if name != yours]
                self.shared[self.circuits[0].registers[mine].output] = self.circuits[1].registers[yours].output
            pairs += found
        return pairs
