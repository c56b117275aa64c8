"""A full text of an HX8K: every tile of the grid and the contents of every RAM.

About half of all bits are set. They are pseudo-random from a fixed seed, so that it is always the same.
"""
import random

SEED = 8192
WIDTH, HEIGHT, RAM_COLUMNS = 34, 34, (8, 25)
COLUMNS = {"io": 18, "logic": 54, "ramb": 42, "ramt": 42}


def kind_of(x, y):
    """The tile at a place of the grid, None at a corner."""
    side, end = x in (0, WIDTH - 1), y in (0, HEIGHT - 1)
    if side and end:
        return None
    if side or end:
        return "io"
    if x in RAM_COLUMNS:
        return "ramb" if y % 2 else "ramt"
    return "logic"


def full_text():
    """The text."""
    rng = random.Random(SEED)
    lines = [".comment", "all tiles, bits of seed %d" % SEED, ".device 8k"]
    rams = []
    for y in range(HEIGHT):
        for x in range(WIDTH):
            kind = kind_of(x, y)
            if kind is None:
                continue
            lines.append(".%s_tile %d %d" % (kind, x, y))
            width = COLUMNS[kind]
            lines += [format(rng.getrandbits(width), "0%db" % width) for _ in range(16)]
            if kind == "ramb":
                rams.append((x, y))
    for x, y in rams:
        lines.append(".ram_data %d %d" % (x, y))
        lines += [format(rng.getrandbits(256), "064x") for _ in range(16)]
    return "\n".join(lines) + "\n"
