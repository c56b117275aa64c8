"""Wrong files, netlists and modules: each with what iceverify has to say of it."""
import json
import re
from dataclasses import dataclass
from typing import Callable

from device import AT_ONCE, CARRY, ENTRIES, SETS


@dataclass
class Wrong:
    """Something that is wrong. what: in words. design: the name of the design. change: makes of a Text, of a netlist as a dict, or of a module
    and the places of the design's ports as X_Y_N, the wrong one. said: words that a line about it has. is_netlist: whether the netlist is changed
    and not the text. device: that of the text; of an HX8K the text has no nets."""

    what: str
    design: str
    change: Callable
    said: tuple
    is_netlist: bool = False
    device: str = "1k"


def entry(name, number=0):
    """Turns an entry of the table of the cell of a register."""
    def change(text):
        cell = text.cell_of(name)
        return text.flip(cell[:2], *text.cell_bits(cell, ENTRIES[number]))
    return change


def no_ones(name):
    """Makes each entry of the table of the cell of a register 0."""
    def change(text):
        cell = text.cell_of(name)
        return text.flip(cell[:2], *[place for place in text.cell_bits(cell, *ENTRIES) if text.bit(cell[:2], place)])
    return change


def cell_bit(name, number):
    """Turns a bit of the cell of a register."""
    def change(text):
        cell = text.cell_of(name)
        return text.flip(cell[:2], *text.cell_bits(cell, number))
    return change


def link_off(name, port):
    """Turns off the link to an input of the cell of a register, or to what its tile shares. The first input that has one, for `in`."""
    def change(text):
        x, y, number = text.cell_of(name)
        ports = ["lutff_%d/in_%d" % (number, k) for k in range(4)] if port == "in" else ["lutff_global/" + port]
        links = [text.link_on(text.net((x, y), each)) for each in ports if text.net((x, y), each) is not None]
        tile, bits = next(link for link in links if link)
        return text.flip(tile, *bits)
    return change


def tile_function(name, function):
    """Turns a function of the tile of a register."""
    def change(text):
        tile = text.cell_of(name)[:2]
        return text.flip(tile, *text.function(tile, function))
    return change


def carry_set(text):
    """Turns off the carry that is set in the first tile that has one."""
    for tile, (_, kind) in sorted(text.tiles.items()):
        if kind == "logic_tile" and text.bit(tile, text.function(tile, "CarryInSet")[0]):
            return text.flip(tile, *text.function(tile, "CarryInSet"))
    raise KeyError("CarryInSet")


def ram_word(text):
    """Turns a bit of a word of the first RAM."""
    return text.other_word(min(text.rams), 37)


def ram_function(kind, function):
    """Turns a function of the first RAM: of its lower tile or of its upper one."""
    def change(text):
        x, y = min(text.rams)
        tile = (x, y + 1) if kind == "ramt" else (x, y)
        return text.flip(tile, *text.function(tile, function))
    return change


def pin_type(port, *numbers):
    """Turns bits of the type of the pin of a port, which the names at its pin tell."""
    def change(text):
        x, y, pin = text.pins[port]
        return text.flip((x, y), *[text.function((x, y), "IOB_%d.PINTYPE_%d" % (pin, number))[0] for number in numbers])
    return change


def pin_function(port, function):
    """Turns a function of the tile of the pin of a port."""
    def change(text):
        tile = text.pins[port][:2]
        return text.flip(tile, *text.function(tile, function))
    return change


def pin_link_off(port, name):
    """Turns off the link to an input of the pin of a port, or to what its tile shares."""
    def change(text):
        tile = text.pins[port][:2]
        link_tile, bits = text.link_on(text.net(tile, name))
        return text.flip(link_tile, *bits)
    return change


def column_off(net, tile_of):
    """Turns off the column buffer of the global net that a net of a tile comes from. `tile_of` gives the tile of a Text."""
    def change(text):
        tile = tile_of(text)
        names = [text.net(tile, "glb_netwk_%d" % number) for number in range(8)]
        column = text.database.columns[tile]
        return text.flip(column, *text.function(column, "ColBufCtrl.glb_netwk_%d" % names.index(text.source(text.net(tile, net)))))
    return change


def all_columns_off(text):
    """Turns off the column buffers of all tiles."""
    for tile in sorted(set(text.database.columns.values()) & set(text.tiles)):
        text.flip(tile, *[text.function(tile, "ColBufCtrl.glb_netwk_%d" % number)[0] for number in range(8)])
    return text


def pin_setting(port, name):
    """Turns the bit of the pin of a port that is called after IoCtrl.NAME."""
    def change(text):
        x, y, number = text.database.enables[text.pins[port]]
        return text.flip((x, y), *text.function((x, y), "IoCtrl.%s_%d" % (name, number)))
    return change


def bit_of(name, row, column):
    """Turns a bit of the tile of a register."""
    return lambda text: text.flip(text.cell_of(name)[:2], (row, column))


def extra_bit(text):
    """Sets an extra bit."""
    text.lines.append(".extra_bit 0 0 0")
    return text


def link_from_nowhere(text):
    """Gives the bits of a link that is off a value that has no source."""
    for _, links in sorted(text.database.links.items()):
        for tile, bits, sources in links:
            value = "1" + "0" * (len(bits) - 1)
            if "1" not in text.values((tile, bits, sources)) and value not in sources:
                return text.flip(tile, bits[0])
    raise KeyError("a link with a value that has no source")


def cell_of_type(netlist, design, *types):
    """A cell of a netlist of one of these types."""
    return next(cell for _, cell in sorted(netlist["modules"][design]["cells"].items()) if cell["type"] in types)


def netlist_cell(design, types, **changes):
    """Changes the first cell of some types: its type, a parameter, or what is connected to a port."""
    def change(netlist):
        cell = cell_of_type(netlist, design, *types)
        for name, value in changes.items():
            if name == "type":
                cell["type"] = value
            elif name in cell["connections"]:
                cell["connections"][name] = value
            else:
                cell["parameters"][name] = value
        return netlist
    return change


def pin_cell(design, name, **parameters):
    """Changes parameters of a pin's cell."""
    def change(netlist):
        netlist["modules"][design]["cells"][name]["parameters"].update(parameters)
        return netlist
    return change


def exchanged(design, *ends):
    """Exchanges what is connected to two ports of cells, each of them named by the cell and the port."""
    def change(netlist):
        (one, first), (other, second) = [(netlist["modules"][design]["cells"][cell]["connections"], port) for cell, port in ends]
        one[first], other[second] = other[second], one[first]
        return netlist
    return change


def other_text(pattern, new):
    """Changes what a pattern finds in a module. %(NAME)s is the place of the port NAME in both."""
    def change(module, places):
        wrong, count = re.subn(pattern % places, new % places, module)
        if count != 1:
            raise KeyError(pattern)
        return wrong
    return change


def exchanged_inputs(one, other):
    """Exchanges what comes from outside to two pins, all over a module."""
    def change(module, places):
        names = ["io_%s_in" % places[port] for port in (one, other)]
        return re.sub("|".join(names), lambda match: names[match.group() == names[0]], module)
    return change


def with_pll(module, places):
    """Gives a module the output of a PLL, which is an input port."""
    return module.replace(");\n", ", pll_6_0_a);\n  input pll_6_0_a;\n", 1)


def set_for_reset(netlist):
    """Makes a flip-flop that is reset one that is set."""
    cell = cell_of_type(netlist, "globals", "SB_DFFNESR")
    cell["type"] = "SB_DFFNESS"
    for part in "connections", "port_directions":
        cell[part]["S"] = cell[part].pop("R")
    return netlist


def rising_read(netlist):
    """Makes a RAM whose ports have falling edges one that reads at rising ones."""
    cell = cell_of_type(netlist, "rams", "SB_RAM40_4KNRNW")
    cell["type"] = "SB_RAM40_4KNW"
    for part in "connections", "port_directions":
        cell[part]["RCLK"] = cell[part].pop("RCLKN")
    return netlist


def start_at_one(name, index=0):
    """Gives a net of the netlist an `init` of 1."""
    def change(netlist):
        net = netlist["modules"]["servo"]["netnames"][name]
        net["attributes"]["init"] = "".join("1" if place == index else "x" for place in reversed(range(len(net["bits"]))))
        return netlist
    return change


def extra_port(netlist):
    """Adds an output that the file hasn't."""
    module = netlist["modules"]["crc"]
    module["ports"]["more"] = {"direction": "output", "bits": [module["ports"]["parity"]["bits"][0]]}
    return netlist


def no_port(netlist):
    """Takes an output away that the file has."""
    del netlist["modules"]["crc"]["ports"]["parity"]
    return netlist


TEXTS = [
    Wrong("a bit of a LUT", "crc", entry("crc[5]"), ("register crc[5] (top.v:",)),
    Wrong("another bit of a LUT", "servo", entry("want[2][3]"), ("register want[2][3]", "next value")),
    Wrong("a table of zeros", "crc", no_ones("crc[9]"), ("register crc[9]", "next value")),
    Wrong("a link to a LUT", "crc", link_off("crc[7]", "in"), ("register crc[7]",)),
    Wrong("an enable", "crc", link_off("count[0]", "cen"), ("register count[0]", "next value")),
    Wrong("a reset", "crc", link_off("count[1]", "s_r"), ("register count[1]", "condition that sets or resets it")),
    Wrong("a clock", "globals", link_off("shift[4]", "clk"), ("register shift[4]", "clock")),
    Wrong("an edge", "crc", tile_function("full", "NegClk"), ("register full", "edge of the clock")),
    Wrong("a reset that sets", "crc", cell_bit("crc[3]", SETS), ("register crc[3]", "value that it gets without the clock")),
    Wrong("a reset that waits for the clock", "crc", cell_bit("crc[9]", AT_ONCE), ("register crc[9]", "condition")),
    Wrong("a reset at the edge that sets", "servo", cell_bit("now[1][2]", SETS), ("register now[1][2]", "next value")),
    Wrong("a reset that doesn't wait for the clock", "servo", cell_bit("now[2][4]", AT_ONCE), ("register now[2][4]", "condition")),
    Wrong("a carry's set bit", "passes", carry_set, ("differs: ", "the netlist has ")),
    Wrong("a carry that is off", "passes", cell_bit("total[1]", CARRY), ("register total[", "next value")),
    Wrong("a RAM's contents", "rams", ram_word, ("RAM ", "contents at the start: 1 of 256 words differ, the first at 37")),
    Wrong("a RAM's write mode", "rams", ram_function("ramt", "RamConfig.CBIT_0"), ("RAM ", "bits of a word at the write port")),
    Wrong("a RAM's read mode", "rams", ram_function("ramt", "RamConfig.CBIT_2"), ("RAM ", "bits of a word at the read port")),
    Wrong("a RAM's read edge", "rams", ram_function("ramt", "NegClk"), ("RAM ", "edge of the read clock")),
    Wrong("a RAM's write edge", "rams", ram_function("ramb", "NegClk"), ("RAM ", "edge of the write clock")),
    Wrong("a pin that can't be switched off", "pins", pin_type("t0", 5, 4), ("output t0", "switch that turns it off")),
    Wrong("a pin without its register", "pins", pin_type("o2", 3, 2), ("register dout_q_0 of the pin cell shown_2",)),
    Wrong("an input without its register", "pins", pin_type("i2", 0), ("register din_q_0 of the pin cell taken_2",)),
    Wrong("the edge of a pin", "pins", pin_function("o1", "NegClk"), ("register dout_q_0 of the pin cell shown_1", "edge of the clock")),
    Wrong("a pin that is no output", "crc", pin_type("parity", 4, 3), ("output parity", "no partner")),
    Wrong("data that aren't inverted", "kinds", pin_type("inverted", 3), ("output inverted", "value")),
    Wrong("inverted data taken plain", "kinds", pin_type("inverted", 2), ("register dout_q_0 of the pin cell turned", "no partner")),
    Wrong("data of one rate", "kinds", pin_type("doubled", 2), ("register dout_q_1 of the pin cell twice", "no partner")),
    Wrong("the edge of doubled data", "kinds", pin_function("doubled", "NegClk"), ("register dout_q_1 of the pin cell twice", "edge of the clock")),
    Wrong("an enable of a pin", "kinds", pin_link_off("doubled", "io_global/cen"),
          ("register clken_pulled_ro of the pin cell twice", "next value")),
    Wrong("a switch by a net", "kinds", pin_type("switched", 4), ("register outena_q of the pin cell by_register", "no partner")),
    Wrong("a bus that is always driven", "kinds", pin_type("b3", 5, 4), ("output b3", "switch that turns it off")),
    Wrong("a bus without its register", "kinds", pin_type("b2", 0), ("register din_q_0 of the pin cell bus_2", "no partner")),
    Wrong("the edge of a divided clock", "dividers", tile_function("late[0]", "NegClk"), ("register late[0]", "edge of the clock")),
    Wrong("a divided clock that is off", "dividers", link_off("late[2]", "clk"), ("register late[2]", "clock")),
    Wrong("a column buffer", "crc", column_off("lutff_global/clk", lambda text: text.cell_of("full")[:2]),
          ("column buffer of glb_netwk_", "it is off, and tile ")),
    Wrong("the column buffer of a RAM's clock", "rams", column_off("ram/RCLK", lambda text: (min(text.rams)[0], min(text.rams)[1] + 1)),
          ("column buffer of glb_netwk_", "it is off, and tile ")),
    Wrong("the column buffer of a pin's clock", "pins", column_off("io_global/outclk", lambda text: text.pins["o0"][:2]),
          ("column buffer of glb_netwk_", "it is off, and tile ")),
    Wrong("an input buffer", "crc", pin_setting("clk", "IE"), ("input buffer of clk at io_", "it is off, and tile ")),
    Wrong("the input buffer of a global pin", "globals", pin_setting("pad", "IE"), ("input buffer of pad at io_", "it is off, and glb_netwk_")),
    Wrong("the input buffer of a pin that is read back", "kinds", pin_setting("back", "IE"), ("input buffer of back at io_", "it is off, and tile ")),
    Wrong("a pull-up more", "crc", pin_setting("rst", "REN"), ("pull-up of rst at io_", "the netlist has it off, the file has it on")),
    Wrong("a pull-up less", "pins", pin_setting("t1", "REN"), ("pull-up of t1 at io_", "(top.v:", "the netlist has it on, the file has it off")),
    Wrong("a pull-up of the pin file less", "pins", pin_setting("off", "REN"),
          ("pull-up of off at io_", "the pin file has it on, the file has it off")),
    Wrong("a pin in place of a pair", "kinds", pin_function("pair", "IoCtrl.LVDS"), ("pair of pins with pair at io_", "the file has it off")),
    Wrong("a RAM that is off", "rams", ram_function("ramb", "RamConfig.PowerUp"), ("RAM ", "power-up", "the file has it off")),
    Wrong("a bit without a meaning", "crc", bit_of("full", 11, 49), ("bit B11[49] of logic tile ", "the chip database knows no such bit")),
    Wrong("an extra bit without a meaning", "crc", extra_bit, ("extra bit 0 0 0", "the chip database knows no such bit")),
    Wrong("a link from nowhere", "crc", link_from_nowhere, ("bit B", "the chip database knows no such bit")),
    Wrong("all column buffers", "machine", all_columns_off, ("column buffer of glb_netwk_", "it is off, and tile "), device="8k"),
    Wrong("an input buffer of an HX8K", "machine", pin_setting("clk", "IE"), ("input buffer of clk at io_", "it is off, and tile "), device="8k"),
    Wrong("a pull-up of an HX8K", "machine", pin_setting("go", "REN"), ("pull-up of go at io_", "the file has it on"), device="8k"),
    Wrong("a RAM that is off in an HX8K", "rams", ram_function("ramb", "RamConfig.PowerUp"), ("RAM ", "the file has it off"), device="8k"),
]
NETLISTS = [
    Wrong("another table", "crc", netlist_cell("crc", ["SB_LUT4"], LUT_INIT="0" * 16), ("differs: ",), True),
    Wrong("another edge", "crc", netlist_cell("crc", ["SB_DFFNS"], type="SB_DFFS"), ("register full", "edge of the clock"), True),
    Wrong("a set in place of a reset", "globals", set_for_reset, ("register back[", "next value"), True),
    Wrong("a constant enable", "servo", netlist_cell("servo", ["SB_DFFE"], E=["1"]), ("register want[", "next value"), True),
    Wrong("a RAM's contents", "rams", netlist_cell("rams", ["SB_RAM40_4K"], INIT_7="1" + "0" * 255), ("RAM ", "contents at the start"), True),
    Wrong("a RAM's mode", "rams", netlist_cell("rams", ["SB_RAM40_4K"], READ_MODE="01"), ("RAM ", "bits of a word at the read port"), True),
    Wrong("a RAM's edge", "rams", rising_read, ("RAM ", "edge of the read clock"), True),
    Wrong("a RAM's mask", "rams", netlist_cell("rams", ["SB_RAM40_4K"], WE=["1"]), ("RAM ", "write enable"), True),
    Wrong("a pin's type", "pins", pin_cell("pins", "shown_0", PIN_TYPE="011001"), ("register po_", "the netlist has no partner"), True),
    Wrong("a pin's edge", "pins", pin_cell("pins", "shown_0", NEG_TRIGGER="1"),
          ("register dout_q_0 of the pin cell shown_0", "edge of the clock"), True),
    Wrong("a pin's pull-up", "pins", pin_cell("pins", "switched_1", PULLUP="0"), ("pull-up of t1 at io_", "the file has it on"), True),
    Wrong("a pair of pins", "kinds", pin_cell("kinds", "of_two", IO_STANDARD="SB_LVCMOS"),
          ("pair of pins with pair at io_", "the file has it on"), True),
    Wrong("a start at 1", "servo", start_at_one("slow"), ("differs: ", "start"), True),
    Wrong("a port more", "crc", extra_port, ("output more", "no partner"), True),
    Wrong("a port less", "crc", no_port, ("of the file", "the netlist has no partner"), True),
    Wrong("the two data of a pin", "kinds", exchanged("kinds", ("twice", "D_OUT_0"), ("twice", "D_OUT_1")),
          ("register dout_q_1 of the pin cell twice", "next value"), True),
    Wrong("the two inputs of a pin", "kinds", exchanged("kinds", ("both", "D_IN_0"), ("both", "D_IN_1")), ("output seen[6]", "value"), True),
    Wrong("the inputs of two buses", "buses", exchanged("buses", ("data", "D_IN_0"), ("clock", "D_IN_0")), ("output line[0]", "value"), True),
    Wrong("an inverse", "kinds", pin_cell("kinds", "turned", PIN_TYPE="010101"), ("output inverted", "value"), True),
    Wrong("an edge in a ripple counter", "dividers", netlist_cell("dividers", ["SB_DFFNR"], type="SB_DFFR"),
          ("register ripple[2]", "edge of the clock"), True),
]
MODULES = [
    Wrong("the two data of a pin", "kinds", other_text(r"(po_%(doubled)s), (pq_%(doubled)s)(?=})", r"\2, \1"), ("output doubled", "value")),
    Wrong("the half of the clock", "kinds", other_text(r"hacac(?= >> {1'b0, \w+, po_%(doubled_falling)s,)", "hcaca"),
          ("output doubled_falling", "value")),
    Wrong("the inverse of a register", "kinds", other_text(r"h5555(?= >> {1'b0, 1'b0, 1'b0, po_%(inverted)s})", "haaaa"),
          ("output inverted", "value")),
    Wrong("an enable of the other edge", "kinds", other_text(r"if \(ci_%(i0)s\)(?=.*\n.* ci_%(i0)s <= .*, (\w+)};)", r"if (\1)"),
          ("register din_q_1 of the pin cell both", "next value")),
    Wrong("an enable of the other data", "kinds", other_text(r"if \(co_%(b0)s\)(?=.*\n.* co_%(b0)s <= .*, (\w+)};)", r"if (\1)"),
          ("register dout_q_1 of the pin cell bus_0", "next value")),
    Wrong("a switch that waits for no clock", "kinds",
          other_text(r"_en = pe_%(switched)s;(?=(?s:.*) pe_%(switched)s <= .*, (\w+)};)", r"_en = \1;"),
          ("output switched", "switch that turns it off")),
    Wrong("a bus that reads what comes from outside", "kinds", other_text(r"hcaca(?= >> .* io_%(b1)s_in})", "haaaa"), ("output seen[1]", "value")),
    Wrong("what comes to two buses", "buses", exchanged_inputs("sda", "scl"), ("output line[1]", "value")),
    Wrong("the other edge of a register", "dividers", other_text(r"posedge(?= ff_\w+\) if .* pi_%(button)s <=)", "negedge"),
          ("register din_q_0 of the pin cell pin_button", "edge of the clock")),
    Wrong("a pin as the clock in place of a register", "dividers", other_text(r"ff_\w+(?=\) if .* pi_%(button)s <=)", "io_%(clk)s"),
          ("register din_q_0 of the pin cell pin_button", "clock")),
    Wrong("a PLL", "edges", with_pll, ("PLL", "pll_6_0_a")),
]


def as_json(netlist):
    return json.dumps(netlist)
