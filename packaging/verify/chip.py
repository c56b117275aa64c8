"""Reads what a chip database says of the settings of a chip: which tile has a column buffer, which bits belong to a pin, and which names the
global nets and the inputs have in each tile."""
import mmap
import re
from dataclasses import dataclass, field
from typing import Dict, Iterator, List, Optional, Tuple

from stopping import READING, REFUSED, Stop
from texts import Place

Tile = Tuple[int, int]


@dataclass
class Chip:
    """columns: of each tile, the one that has its column buffers. enables: of each pin, the place whose bits IoCtrl.IE and IoCtrl.REN are its
    own. pads: of each global net, the pin that can drive it. globals, inputs: of a tile and a name of a net there, the number of the global net
    that it is, or the pin whose input it is. has_power: whether RAMs have a power-up bit."""

    columns: Dict[Tile, Tile]
    enables: Dict[Place, Place]
    pads: Dict[int, Place]
    globals: Dict[Tuple[Tile, str], int] = field(default_factory=dict)
    inputs: Dict[Tuple[Tile, str], Place] = field(default_factory=dict)
    has_power: bool = False


def section(data: bytes, name: str) -> List[Tuple[int, ...]]:
    """The numbers on the lines of the first statement of that name. Raises Stop if there are none."""
    start = data.find(b"\n.%s\n" % name.encode())
    lines = data[start + len(name) + 3:data.find(b"\n.", start + 1)].decode().splitlines() if start >= 0 else []
    numbers = [tuple(int(word) for word in line.split()) for line in lines if line.strip()]
    if not numbers:
        raise Stop(REFUSED, "the chip database has no .%s" % name)
    return numbers


def nets_with(data: bytes, part: bytes) -> Iterator[List[Tuple[Tile, str]]]:
    """The names of each net one of whose names has that part, with their tiles."""
    found = data.find(part)
    while found >= 0:
        start, end = data.rfind(b"\n.", 0, found), data.find(b"\n.", found)
        end = end if end >= 0 else len(data)
        if data.startswith(b"\n.net ", start):
            lines = [line.split() for line in data[start:end].decode().splitlines()[2:]]
            yield [((int(line[0]), int(line[1])), line[2]) for line in lines if len(line) == 3]
        found = data.find(part, end)


def read_head(path: str) -> bytes:
    """A chip database up to its links, which are most of it; all of it if some nets don't come before the links."""
    with open(path, "rb") as file, mmap.mmap(file.fileno(), 0, access=mmap.ACCESS_READ) as data:
        head = data[:data.find(b"\n.buffer ")]
        device = re.search(rb"^\.device \w+ \d+ \d+ (\d+)$", head, re.M)
        return head if device and int(device.group(1)) == head.count(b"\n.net ") else data[:]


class Reading:
    """Reads a chip database while something else goes on. What it says, or what is wrong with it, comes when it is asked for."""

    def __init__(self, path: str):
        self.path = path
        self.chip: Optional[Chip] = None
        self.stop: Optional[Stop] = None

    def read(self) -> None:
        """Reads it."""
        try:
            self.chip = read_chip(self.path)
        except Stop as stop:
            self.stop = stop

    def result(self) -> Chip:
        """What it says. Raises Stop if it couldn't be read."""
        if self.chip is None:
            raise self.stop
        return self.chip


def read_chip(path: str) -> Chip:
    """What a chip database says. Raises Stop if it can't be read, or doesn't say it."""
    try:
        data = read_head(path).replace(b"\r\n", b"\n")
        chip = Chip({line[2:4]: line[:2] for line in section(data, "colbuf")}, {line[:3]: line[3:6] for line in section(data, "ieren")},
                    {line[3]: line[:3] for line in section(data, "gbufpin")}, has_power=b"\nRamConfig.PowerUp " in data)
        for names in nets_with(data, b" glb_netwk_"):
            number = next(int(name[10:]) for _, name in names if name.startswith("glb_netwk_"))
            chip.globals.update({name: number for name in names})
        for names in nets_with(data, b"/D_IN_"):
            tile, pin = next((tile, int(name[3])) for tile, name in names if re.fullmatch(r"io_\d/D_IN_\d", name))
            chip.inputs.update({name: (*tile, pin) for name in names})
    except OSError:
        raise Stop(READING, "read failed: %s" % path) from None
    except (ValueError, IndexError, StopIteration):
        raise Stop(REFUSED, "the chip database has a line of another form than those of Project IceStorm") from None
    if not chip.globals or not chip.inputs:
        raise Stop(REFUSED, "the chip database has no names of global nets or of inputs")
    return chip
