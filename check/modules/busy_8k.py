"""A text of an HX8K that is as busy as one that a design can be made of.

All logic cells are used, each with its flip-flop and random other bits, and in the logic tiles very many buffers are on: each net gets its
value from one source at most, which is a net of a lesser number, so no loop arises, and no net of a pin, a RAM or a global is a source.
"""
import random

WIDTHS = {"io_tile": 18, "logic_tile": 54, "ramb_tile": 42, "ramt_tile": 42}
OTHER_USES = ("glb", "carry", "io_", "ram", "fabout")


class Database:
    """Tiles with their kinds, the bits of cells, buffers, and the names of nets."""

    def __init__(self, path):
        self.kinds, self.cells, self.buffers, self.names = {}, {}, [], {}
        lines = iter(open(path).read().split("\n"))
        head = next(lines, None)
        while head is not None:
            words, block = head.split(), []
            head = next(lines, None)
            while head is not None and not head.startswith("."):
                block.append(head.split())
                head = next(lines, None)
            self.take(words, [line for line in block if line])

    def take(self, words, block):
        if not words:
            return
        if words[0][1:] in WIDTHS:
            self.kinds[int(words[1]), int(words[2])] = words[0][1:]
        elif words[0] == ".logic_tile_bits":
            self.cells = {line[0]: [place(bit) for bit in line[1:]] for line in block if line[0].startswith("LC_")}
        elif words[0] == ".buffer":
            tile, net, bits = (int(words[1]), int(words[2])), int(words[3]), [place(bit) for bit in words[4:]]
            self.buffers.append((tile, net, bits, [(values, int(source)) for values, source in block]))
        elif words[0] == ".net":
            self.names[int(words[1])] = [line[2] for line in block]


def place(bit):
    row, column = bit[1:-1].split("[")
    return int(row), int(column)


def is_cell_input(names):
    return all(not name.startswith("lutff_") or "/in_" in name for name in names)


def busy_text(path, seed):
    """The text that is made from a seed, by the chip database of an HX8K."""
    database, draws = Database(path), random.Random(seed)
    bits = {tile: set() for tile, kind in database.kinds.items() if kind == "logic_tile"}
    for tile in bits:
        for cell in database.cells.values():
            # neither a carry nor an asynchronous reset
            bits[tile] |= {bit for k, bit in enumerate(cell) if k not in (8, 19) and (k == 9 or draws.random() < 0.5)}
    driven, taken = set(), {tile: set() for tile in bits}
    for tile, net, own, lines in database.buffers:
        names = database.names[net]
        if tile not in bits or net in driven or not is_cell_input(names) or any(name.startswith(OTHER_USES) for name in names):
            continue
        sources = [line for line in lines if line[1] < net and not any(name.startswith(("io_", "ram")) for name in database.names.get(line[1], []))]
        if taken[tile] & set(own) or not sources or draws.random() < 0.15:
            continue
        values, _ = draws.choice(sources)
        bits[tile] |= {bit for bit, value in zip(own, values) if value == "1"}
        driven.add(net)
        taken[tile] |= set(own)
    lines = [".comment busy", ".device 8k"]
    for tile in sorted(bits, key=lambda tile: (tile[1], tile[0])):
        lines.append(".logic_tile %d %d" % tile)
        lines += ["".join("1" if (row, column) in bits[tile] else "0" for column in range(WIDTHS["logic_tile"])) for row in range(16)]
    return "\n".join(lines) + "\n"
