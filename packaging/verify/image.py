"""Reads the settings of an image, a routed text or a bitstream, by what icebox_explain says of it, and which RAM contents it loads."""
from dataclasses import dataclass, field
from typing import Dict, List, Optional, Set, Tuple

from chip import Tile
from stopping import READING, Stop

PREAMBLE = bytes([0x7e, 0xaa, 0x99, 0x7e])
RAM_ROWS = 256
CONFIGURATION, RAM, WAKE_UP = 1, 3, 6  # the numbers of the commands that data follow, and of the last
LIMIT = 1 << 22  # bytes of a bitstream
EXTRA = "extra"


@dataclass
class Image:
    """functions: of each tile, those that are on. links: of each link that is on, the tile and the name of its source there.
    unknown: the set bits that the chip database has no line for, by the kind and the place of their tile, or EXTRA. extras: the extra bits that
    are set, by name.
    loaded: of each bank, the rows of RAM contents that a bitstream loads; None for a text, which gives all of them."""

    functions: Dict[Tile, Set[str]] = field(default_factory=dict)
    links: List[Tuple[Tile, str]] = field(default_factory=list)
    unknown: Dict[str, List[str]] = field(default_factory=dict)
    extras: Set[str] = field(default_factory=set)
    loaded: Optional[Dict[int, Set[int]]] = None

    def has(self, tile: Tile, function: str) -> bool:
        """Whether a function of a tile is on."""
        return function in self.functions.get(tile, ())

    def loads(self, bank: int) -> bool:
        """Whether the contents of all RAMs of a bank are loaded."""
        return self.loaded is None or len(self.loaded.get(bank, ())) == RAM_ROWS


def read_explained(text: str) -> Image:
    """The settings that an explained text has."""
    image = Image()
    tile: Tile = (-1, -1)
    where = ""
    for line in filter(None, text.split("\n")):
        words = line.split()
        if line.startswith(".extra_bits"):
            where = EXTRA
        elif line.startswith("."):
            if len(words) == 3:
                tile = int(words[1]), int(words[2])
                where = "%s tile %s %s" % (words[0][1:].partition("_")[0], *words[1:])
        elif words[0] in ("buffer", "routing"):
            image.links.append((tile, words[1]))
        elif words[0] == "?":
            image.unknown.setdefault(where, []).append(" ".join(words[1:]))
        elif where == EXTRA:
            image.extras.add(words[0])
        else:
            image.functions.setdefault(tile, set()).add(words[0])
    return image


def loaded_rows(data: bytes) -> Optional[Dict[int, Set[int]]]:
    """The rows of RAM contents that a bitstream loads, of each bank. None if the data are a text. icebox_vlog has taken the bitstream."""
    place = data.find(PREAMBLE)
    if place < 0:
        return None
    place += len(PREAMBLE)
    rows: Dict[int, Set[int]] = {}
    values = dict.fromkeys(range(16), 0)  # what the last command of each kind says
    while place < len(data):
        kind, size = divmod(data[place], 16)
        values[kind] = int.from_bytes(data[place + 1:place + 1 + size], "big")
        place += 1 + size
        bank, width, height, first = values[1], values[6] + 1, values[7], values[8]
        if kind == 0 and values[0] == WAKE_UP:
            break
        if kind == 0 and values[0] in (CONFIGURATION, RAM):
            place += width * height // 8 + 2
            if values[0] == RAM:
                rows.setdefault(bank, set()).update(range(first, first + height))
    return rows


def read_image(explained: str, path: str) -> Image:
    """The settings of an image at a path, which icebox_vlog has taken, by what icebox_explain says of it. Raises Stop if it can't be read."""
    if not explained.startswith(".device "):
        raise Stop(READING, "icebox_explain wrote no explained text")
    image = read_explained(explained)
    try:
        with open(path, "rb") as file:
            image.loaded = loaded_rows(file.read(LIMIT))
    except OSError:
        raise Stop(READING, "read failed: %s" % path) from None
    return image
