"""Compares the settings of an image that no function of the circuit shows, and without which the chip doesn't do what the circuit says: column
buffers, input buffers, pull-ups, pairs of pins, RAMs that are off or aren't loaded, and bits that have no meaning."""
from dataclasses import dataclass
from typing import Dict, List, Optional, Tuple

from building import Built, Pin
from cells import RAMS
from chip import Chip, Tile
from comparing import Difference
from image import EXTRA, Image
from matching import Partners
from netlist import Cell, Netlist, Port, is_set
from texts import Place, named_words, place_of

SIZES = {"1k": (14, 18), "8k": (34, 34)}  # columns and rows of tiles
ENABLED_BY_ONE = "8k",  # the devices whose bits IoCtrl.IE and RamConfig.PowerUp are 1 where an input buffer or a RAM is on; else they are 0
CONTENTS = ["INIT_" + digit for digit in "0123456789ABCDEF"]
SWITCHES = "off", "on"
CHOICES = {"yes": True, "1": True, "no": False, "0": False}  # the values of -pullup


@dataclass
class PortPin:
    """A port and its pin on the chip. pin: what the netlist says of it."""

    port: Port
    place: Place
    pin: Pin


class Settings:
    """device: its word in a text. pulled: the pull-ups that a pin file asks for or forbids, by port; None without a pin file. places: those of
    ports, by name."""

    def __init__(self, device: str, chip: Chip, image: Image, netlist: Netlist, built: Built, pulled: Optional[Dict[str, bool]],
                 places: Dict[str, Place]):
        self.device = device
        self.chip = chip
        self.image = image
        self.netlist = netlist
        self.built = built
        self.pulled = pulled
        self.pins = [PortPin(port, places[name], built.pins[name]) for name, port in netlist.ports.items() if name in places]
        self.names = {place: name for name, place in places.items()}
        self.counts = {"column buffer": 0, "input buffer": 0, "pull-up": 0}
        self.found: List[Difference] = []

    def differences(self, memories: Dict[str, str]) -> List[Difference]:
        """All that differs. memories: of each RAM of the netlist, the name of the module's."""
        self.compare_columns()
        self.compare_inputs()
        for pin in self.pins:
            self.compare_pull_up(pin)
            self.compare_pair(pin)
        self.compare_memories(memories)
        for where, bits in self.image.unknown.items():
            self.tell_unknown(where, bits)
        return self.found

    def tell(self, part: str, what: str, source: str = "") -> None:
        """Tells a difference."""
        self.found.append(Difference(part, source, what))

    def tell_unknown(self, where: str, bits: List[str]) -> None:
        """Tells set bits of a tile, or extra bits, that have no meaning."""
        many = "s" * (len(bits) > 1)
        part = "extra bit%s %s" % (many, ", ".join(bits)) if where == EXTRA else "bit%s %s of %s" % (many, ", ".join(bits), where)
        self.tell(part, "the chip database knows no such bit" + many)

    def compare_columns(self) -> None:
        """Tells each column buffer of a global net that is off, and which tiles read that net behind it."""
        readers: Dict[Tuple[int, Tile], List[Tile]] = {}
        for tile, name in self.image.links:
            number = self.chip.globals.get((tile, name))
            if number is not None and tile in self.chip.columns:
                readers.setdefault((number, self.chip.columns[tile]), []).append(tile)
        self.counts["column buffer"] = len(readers)
        for (number, tile), tiles in sorted(readers.items()):
            if not self.image.has(tile, "ColBufCtrl.glb_netwk_%d" % number):
                self.tell("column buffer of glb_netwk_%d in tile %d %d" % (number, *tile), "it is off, and %s it" % reading(tiles))

    def compare_inputs(self) -> None:
        """Tells each input buffer of a pin that is off, and what reads the pin's input."""
        readers: Dict[Place, List[Tile]] = {}
        for tile, name in self.image.links:
            place = self.chip.inputs.get((tile, name))
            if place is not None:
                readers.setdefault(place, []).append(tile)
        by_pad = {place: number for number, place in self.chip.pads.items() if "padin_glb_netwk.%d" % number in self.image.extras}
        used = sorted(set(readers).union(by_pad))
        self.counts["input buffer"] = len(used)
        pairs = {pin.place for pin in self.pins if is_pair(pin.pin.cell)}
        for place in used:
            if place in pairs:  # what reads a pair has no such bit
                continue
            if self.has_bit(place, "IE") != (self.device in ENABLED_BY_ONE):
                reads = reading(readers[place]) + " it" if place in readers else "glb_netwk_%d comes from it" % by_pad[place]
                self.tell("input buffer of %s" % self.shown(place), "it is off, and %s" % reads)

    def has_bit(self, place: Place, name: str) -> Optional[bool]:
        """Whether the bit of a pin that is called after IoCtrl.NAME is 1. None if the pin has none."""
        if place not in self.chip.enables:
            return None
        x, y, number = self.chip.enables[place]
        return self.image.has((x, y), "IoCtrl.%s_%d" % (name, number))

    def shown(self, place: Place) -> str:
        """A pin for a reader."""
        name = self.names.get(place)
        return "%sio_%d_%d_%d" % (name + " at " if name else "", *place)

    def compare_pull_up(self, pin: PortPin) -> None:
        """Tells a pull-up that is on or off against what the netlist and the pin file say."""
        wanted = self.wanted_pull_up(pin)
        is_off = self.has_bit(pin.place, "REN")
        if wanted is None or is_off is None:
            return
        self.counts["pull-up"] += 1
        is_wanted, who = wanted
        if is_wanted == is_off:
            what = "%s has it %s, the file has it %s" % (who, SWITCHES[is_wanted], SWITCHES[not is_off])
            self.tell("pull-up of %s" % self.shown(pin.place), what, source_of(pin.pin.cell))

    def wanted_pull_up(self, pin: PortPin) -> Optional[Tuple[bool, str]]:
        """Whether a pin is to have a pull-up, and who says it. None if it can't be known, without the pin file. The router has none at an output
        that always drives its pin and has no cell of its own."""
        cell, name = pin.pin.cell, pin.port.name
        output = self.built.circuit.outputs.get(name)
        is_driven = pin.port.direction == "output" and output is not None and output.enable is None
        if self.pulled is not None and name in self.pulled and (cell or not is_driven):
            return self.pulled[name], "the pin file"
        if cell:
            return is_set(dict(cell.parameters), "PULLUP"), "the netlist"
        if self.pulled is None:
            return None
        pulled = self.netlist.pulled
        return not is_driven and pulled.get(name, pulled.get(pin.port.bit, False)), "the netlist"

    def compare_pair(self, pin: PortPin) -> None:
        """Tells a pin that is one of a pair on one side alone."""
        is_one, wanted = self.image.has(pin.place[:2], "IoCtrl.LVDS"), is_pair(pin.pin.cell)
        if is_one != wanted:
            what = "the netlist has it %s, the file has it %s" % (SWITCHES[wanted], SWITCHES[is_one])
            self.tell("pair of pins with %s" % self.shown(pin.place), what, source_of(pin.pin.cell))

    def compare_memories(self, memories: Dict[str, str]) -> None:
        """Tells RAMs that are off, and those whose contents the file doesn't load."""
        cells = {cell.name: cell for cell in self.netlist.cells if cell.type in RAMS}
        for name, other in memories.items():
            tile = tuple(int(word) for word in other.split("_")[1:])
            if self.chip.has_power and self.image.has(tile, "RamConfig.PowerUp") != (self.device in ENABLED_BY_ONE):
                self.tell("RAM %s" % name, "power-up: the netlist uses it, the file has it off", cells[name].source)
            if has_contents(cells[name]) and not self.image.loads(self.bank_of(tile)):
                self.tell("RAM %s" % name, "contents at the start: the file doesn't load them", cells[name].source)

    def bank_of(self, tile: Tile) -> int:
        """The bank that has the contents of the RAM with this lower tile, in the layout of real chips."""
        columns, rows = SIZES[self.device]
        return 2 * (2 * tile[0] > columns - 1) + (2 * tile[1] > rows - 1)


def is_pair(cell: Optional[Cell]) -> bool:
    """Whether a pin's cell reads a pair of pins."""
    return cell is not None and dict(cell.parameters).get("IO_STANDARD") == "SB_LVDS_INPUT"


def has_contents(cell: Cell) -> bool:
    """Whether a block RAM starts with contents. What isn't given is 0."""
    parameters = dict(cell.parameters)
    return any(set(str(parameters.get(name, 0))) != {"x"} for name in CONTENTS)


def source_of(cell: Optional[Cell]) -> str:
    return cell.source if cell else ""


def reading(tiles: List[Tile]) -> str:
    """The words for: these tiles read."""
    others = len(set(tiles)) - 1
    return "tile %d %d%s" % (*min(tiles), " reads" if not others else " and %d other%s read" % (others, "s" * (others > 1)))


def places_of(pins: Dict[Place, str], partners: Partners, told: List[Difference]) -> Dict[str, Place]:
    """The place of each port: that of its partner, or else that of the pin file, if it isn't told that the port has no partner."""
    parts = {difference.part for difference in told}
    places = {name: place for place, name in pins.items() if "input " + name not in parts and "output " + name not in parts}
    places.update({name: place_of(other) for pairs in (partners.inputs, partners.outputs) for name, other in pairs.items()})
    return places


def read_pulled(text: str) -> Dict[str, bool]:
    """The ports whose pull-up a pin file asks for or forbids, and which of both. Of several lines for a port the first one counts."""
    pulled: Dict[str, Optional[bool]] = {}
    for line in text.split("\n"):
        words = line.split("#")[0].split()
        if words[:1] != ["set_io"]:
            continue
        named = named_words(words[1:])
        options = words[1:len(words) - len(named)]
        choices = [CHOICES.get(value) for option, value in zip(options, options[1:]) if option == "-pullup"]
        if named:
            pulled.setdefault(named[0], choices[-1] if choices else None)
    return {name: choice for name, choice in pulled.items() if choice is not None}
