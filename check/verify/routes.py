"""The designs of the tests, and how they come to a routed text."""
import json
import pathlib
import re
import shutil

from modules.programs import CHIPDB
from modules.routing import PACKAGES, Refused, chosen_pins, output_of, package_pins, placed, write_pins

HERE = pathlib.Path(__file__).resolve().parent
EQUAL = "crc", "servo", "memories", "rams", "pins", "kinds", "buses", "globals", "passes", "clocks", "dividers", "machine"
APART = "pins", "kinds"  # the designs of whose pins no two are in one tile
# a port that needs a pin which drives a global net, one that needs the first pin of a pair, and one that no pin file names
GLOBAL_PORT, PAIR_PORT, FREE_PORT = "pad", "pair", "unused"
PULLED_PORT = "off"  # a port whose pin has a pull-up


def database_path(device):
    return CHIPDB / ("chipdb-%s.txt" % device)


def synthesized(name, work, change=None):
    """Writes a design into a folder, with a word of its source changed if `change` has a pair of words, and takes it through yosys."""
    work.mkdir(parents=True, exist_ok=True)
    text = (HERE / (name + ".v")).read_text()
    if change and change[0] not in text:
        raise Refused("%s.v has no %s" % (name, change[0]))
    (work / "top.v").write_text(text.replace(*change) if change else text)
    output_of(["yosys", "-q", "-p", "read_verilog top.v; synth_ice40 -top %s -json top.json" % name], work)


def port_bits(work, name):
    """The names of the bits of the ports of a design."""
    ports = json.loads((work / "top.json").read_text())["modules"][name]["ports"]
    return [port if len(data["bits"]) == 1 else "%s[%d]" % (port, bit) for port, data in ports.items() for bit in range(len(data["bits"]))]


def global_pins(database):
    """The places of pins that drive a global net, as names of ports."""
    found, is_here = [], False
    with open(database) as lines:
        for line in lines:
            words = line.split()
            if words and words[0].startswith("."):
                is_here = words[0] == ".gbufpin"
            elif words and is_here:
                found.append("io_%s_%s_%s" % tuple(words[:3]))
    return found


def pinned(name, device, work):
    """Writes the pin file of a design."""
    pins = package_pins(database_path(device), PACKAGES[device])
    names = port_bits(work, name)
    usable = {GLOBAL_PORT: global_pins(database_path(device)), PAIR_PORT: [place for place in pins.values() if re.fullmatch(r"io_0_\d+_0", place)]}
    chosen = {}
    for port in [port for port in usable if port in names]:
        chosen[port] = next(pin for pin, place in pins.items() if place in usable[port])
        tile = pins[chosen[port]].rpartition("_")[0]
        pins = {pin: place for pin, place in pins.items() if place.rpartition("_")[0] != tile}
    chosen.update(chosen_pins([port for port in names if port not in chosen and port != FREE_PORT], pins, name in APART))
    write_pins(chosen, work)
    (work / "top.pcf").write_text((work / "top.pcf").read_text().replace("set_io %s " % PULLED_PORT, "set_io -pullup yes %s " % PULLED_PORT))


def routed(name, device, seed, source, work):
    """Copies a synthesized design into a folder, and writes its pin file and its text there."""
    shutil.copytree(source, work, dirs_exist_ok=True)
    pinned(name, device, work)
    placed(work, device, seed, ("--pcf", "top.pcf", "--pcf-allow-unconstrained"))
