"""Reads what iceverify needs of a routed text, of a pin file and of a chip database."""
import re
from dataclasses import dataclass
from typing import Container, Dict, Iterable, List, Tuple

from stopping import REFUSED, Stop

Place = Tuple[int, int, int]


@dataclass
class Routed:
    """device: its word in the text, as 1k. names: of each net number, the names of the netlist that .sym lines give."""

    device: str
    names: Dict[int, List[str]]


def read_routed(text: str, name: str) -> Routed:
    """The device and the names of nets of a routed text. Raises Stop if it has none."""
    device, names = "", {}
    for line in text.split("\n"):
        words = line.split(None, 2)
        if words[:1] == [".device"] and len(words) > 1 and not device:
            device = words[1]
        elif words[:1] == [".sym"] and len(words) == 3 and re.fullmatch("[0-9]{1,9}", words[1]):
            names.setdefault(int(words[1]), []).append(words[2].rstrip())
    if not device:
        raise Stop(REFUSED, "%s names no device: it isn't what nextpnr writes with --asc" % name)
    if not names:
        raise Stop(REFUSED, "%s has no .sym lines, which say what the nets are called: it isn't what nextpnr writes with --asc" % name)
    return Routed(device, names)


def read_package(database: Iterable[str], package: str) -> Dict[str, Place]:
    """The place of each pin of a package, by the lines of a chip database: the column and the row of its io tile, and its number there. Empty if
    there is no such package."""
    places: Dict[str, Place] = {}
    is_here = False
    for line in database:
        words = line.split()
        if words and words[0].startswith("."):
            if is_here:
                break
            is_here = words[:2] == [".pins", package]
        elif is_here and len(words) >= 4 and words[0] not in places:
            places[words[0]] = int(words[1]), int(words[2]), int(words[3])
    return places


def read_pins(text: str, places: Dict[str, Place], package: str, known: Container[str]) -> Dict[Place, str]:
    """The name of the port at each place that a pin file names. A line whose name isn't known doesn't count, nor does one whose pin or name an
    earlier line has. Raises Stop at its first faulty line."""
    ports: Dict[Place, str] = {}
    given = set()
    for count, line in enumerate(text.split("\n"), 1):
        words = line.split("#")[0].split()
        if not words or words[0] == "set_frequency":
            continue
        named = named_words(words[1:])
        if words[0] != "set_io" or len(named) < 2:
            raise Stop(REFUSED, "pin file line %d: it isn't `set_io NAME PIN`" % count)
        name, pin = named[:2]
        if not places:
            raise Stop(REFUSED, "pin file line %d: the device has no package %s" % (count, package))
        if name not in known:
            continue
        if pin not in places:
            raise Stop(REFUSED, "pin file line %d: the package %s has no pin %s" % (count, package, pin))
        if places[pin] not in ports and name not in given:
            ports[places[pin]] = name
            given.add(name)
    return ports


def named_words(words: List[str]) -> List[str]:
    """The words after set_io and its options; -pullup and -pullup_resistor have a value."""
    named, is_value = [], False
    for word in words:
        if is_value:
            is_value = False
        elif word.startswith("-") and not named:
            is_value = word in ("-pullup", "-pullup_resistor")
        else:
            named.append(word)
    return named


def place_of(port: str) -> Place:
    """The place of a port of a written module, from its name io_X_Y_N."""
    return tuple(int(part) for part in re.fullmatch(r"io_(\d+)_(\d+)_(\d+)", port).groups())
