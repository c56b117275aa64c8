"""The tool iceverify: what is asked for, the run, and the verdict."""
import os
import re
import shutil
import sys
import tempfile
from dataclasses import dataclass
from pathlib import Path
from typing import Dict, List, Optional, Tuple

from building import Builder, drop_idle
from cells import RAMS, SWITCH, check_kind, check_model, kind_of, read_library, read_models
from chip import Chip, Reading
from circuit import Circuit, Loop, order
from comparing import Comparison, Difference
from image import read_image
from matching import Matcher
from module import read_module
from netlist import Netlist, read_netlist
from programs import Tools
from proving import NOT_DECIDED, Proof
from settings import Settings, places_of, read_pulled
from stopping import MEMORY, OPEN, REFUSED, READING, USAGE, WRITING, Signalled, Stop, die, held, ignore_signals, take_signals, visible
from texts import Place, read_package, read_pins, read_routed

USAGE_LINE = "iceverify [-p PCF [-d PACKAGE]] [--log FOLDER] [--timeout SECONDS] NETLIST TEXT [BITSTREAM]"
OPTIONS = "-p", "-d", "--log", "--timeout"
SECONDS = "60"
PACKAGES = {"1k": "tq144", "8k": "ct256"}
DATABASES = "/usr/share/fpga-icestorm/chipdb"
# runs icebox_vlog and icebox_explain side by side: both read the whole database. The words: the program, the layout, the database, the image
BOTH = """"$1" icebox_explain --layout "$2" -- "$3" "$4" >explained.txt 2>icebox_explain.log &
"$1" icebox_vlog --used-inputs --all-pins --register-clocks --layout "$2" -- "$3" "$4"
status=$?
wait $!
explained=$?
[ $status -eq 0 ] || exit $status
[ $explained -eq 0 ] || cat icebox_explain.log >&2
exit $explained
"""
NEVER_COMPARED = "never compared: timing, power-up, warm boot, analogue settings of pins"


@dataclass
class Request:
    """What the arguments ask for."""

    netlist: str
    text: str
    bitstream: Optional[str]
    pins: Optional[str] = None
    package: Optional[str] = None
    log: Optional[str] = None
    seconds: int = int(SECONDS)


def request_of(words: List[str]) -> Request:
    """Reads the arguments. Raises Stop if they are wrong."""
    wrong = Stop(USAGE, "usage: " + USAGE_LINE)
    options: Dict[str, str] = {}
    names: List[str] = []
    left = list(words)
    while left:
        word = left.pop(0)
        if word == "--":
            names += left
            break
        option = next((option for option in OPTIONS if word.startswith(option)), None)
        if option is None:
            if word.startswith("-") and word != "-":
                raise wrong
            names.append(word)
            continue
        value = word[len(option):]
        if option.startswith("--") and value:
            if not value.startswith("="):
                raise wrong
            value = value[1:]
        elif not value:
            value = left.pop(0) if left else ""
        if not value or option in options:
            raise wrong
        options[option] = value
    seconds = options.get("--timeout", SECONDS)
    if len(names) not in (2, 3) or "" in names or ("-d" in options and "-p" not in options) or not re.fullmatch("0*[1-9][0-9]{0,4}", seconds):
        raise wrong
    return Request(names[0], names[1], names[2] if len(names) == 3 else None, options.get("-p"), options.get("-d"), options.get("--log"),
                   int(seconds))


def database_of(device: str, share: Path) -> str:
    """The chip database of a device, as the other tools look for it."""
    if device not in PACKAGES:
        raise Stop(REFUSED, "it takes texts of a 1k and an 8k, and not of the device %s" % device)
    name = "chipdb-%s.txt" % device
    folder = os.environ.get("ICEBOX_CHIPDB")
    for place in [folder] if folder else [str(share / "chipdb"), DATABASES]:
        if os.access(os.path.join(place, name), os.R_OK):
            return os.path.join(place, name)
    raise Stop(READING, "there is no %s in %s" % (name, folder if folder else "%s or %s" % (share / "chipdb", DATABASES)))


def texts_of(request: Request, database: str, share: Path, tools: Tools) -> Tuple[str, str, Chip]:
    """The module that icebox_vlog writes of the configuration, what icebox_explain says of it, and what the database says of settings. Raises Stop
    with what one of them says if it refuses it."""
    words = [str(tools.here / "icestorm"), str((share / "silicon.layout").absolute()), str(Path(database).absolute())]
    explained = tools.claim("explained.txt")
    tools.claim("icebox_explain.log")
    reading = Reading(database)
    words.append(tools.path(request.bitstream or request.text))
    ended = tools.run("icebox_vlog", ["sh", "-c", BOTH, "sh"] + words, "module.v", meanwhile=reading.read)
    if ended.returncode != 0:
        said = ended.stderr.decode(errors="replace").strip().splitlines()
        status = ended.returncode if 0 < ended.returncode <= 6 else READING
        raise Stop(status, said[-1] if said else "icebox_vlog failed")
    return ended.stdout.decode(errors="replace"), tools.read(explained), reading.result()


def pins_of(request: Request, device: str, database: str, netlist: Netlist, tools: Tools) -> Tuple[Dict[Place, str], Optional[Dict[str, bool]]]:
    """The ports of the netlist that the pin file names, by their places, and which of them it gives a pull-up or none. Without a pin file there
    are none."""
    if request.pins is None:
        return {}, None
    package = request.package or PACKAGES.get(device, "")
    try:
        with open(database, encoding="utf-8", errors="replace") as lines:
            places = read_package(lines, package)
    except (OSError, ValueError):
        raise Stop(READING, "read failed: %s" % database) from None
    text = tools.read(request.pins)
    return read_pins(text, places, package, netlist.ports), read_pulled(text)


def verify(request: Request, tools: Tools) -> int:
    """Compares, prints the verdict, and answers the exit status."""
    netlist = read_netlist(tools.read(request.netlist))
    for cell in netlist.cells:
        check_kind(cell, netlist.read)
    routed = read_routed(tools.read(request.text), request.text)
    share = tools.here.parent / "share" / "icestorm"
    database = database_of(routed.device, share)
    pins, pulled = pins_of(request, routed.device, database, netlist, tools)
    tools.progress("icebox_vlog writes the module, and icebox_explain lists the settings")
    text, explained, chip = texts_of(request, database, share, tools)
    module = read_module(text)
    image = read_image(explained, tools.path(request.bitstream or request.text))
    tools.progress("yosys reads the models of the cells")
    library = read_library(tools)
    for cell in netlist.cells:
        check_model(cell, library[cell.type])
    kinds = list(dict.fromkeys(kind_of(cell) for cell in netlist.cells if cell.type not in RAMS and cell.type != SWITCH))
    built = Builder(netlist, read_models(kinds, library, tools) if kinds else {}).build()
    check_loops(built.circuit, "netlist", lambda net: netlist.name(int(net[1:])) if net[1:].isdigit() else net)
    check_loops(module.circuit, "module", str)
    drop_idle(built.circuit)
    drop_idle(module.circuit)
    partners = Matcher(netlist, built, module, routed.names, pins).match()
    comparison = Comparison(built.circuit, module.circuit, partners)
    comparison.collect()
    comparison.tell_unmatched()
    tell_others(netlist, built, comparison)
    aside = comparison.tell_unshared()
    places = places_of(pins, partners, comparison.differences)
    settings = Settings(routed.device, chip, image, netlist, built, pulled, places)
    found = settings.differences(partners.memories)
    proof = Proof(comparison, tools, request.seconds)
    differences = comparison.differences + found + proof.differences()
    return report(comparison, settings, differences, aside, proof, bool(pins))


def check_loops(circuit: Circuit, what: str, shown) -> None:
    """Raises Stop if a circuit has a loop without a register. `shown` gives the name of a net."""
    try:
        order(circuit.functions, list(circuit.functions))
    except Loop as loop:
        raise Stop(REFUSED, "the %s has a loop without a register, through %s" % (what, shown(loop.net))) from None


def tell_others(netlist: Netlist, built, comparison: Comparison) -> None:
    """Tells a start value of 1 for a bit that no register drives, and outputs that the netlist leaves open."""
    for port in netlist.ports.values():
        if port.bit == "z":
            comparison.tell("output %s" % port.name, "", "the netlist leaves it open (z)")
    for bit, start in netlist.starts.items():
        if start and bit not in built.registers:
            source = netlist.sources.get(bit, "")
            comparison.tell("net %s" % netlist.name(bit), source, "it starts at 1 in the netlist, and no register drives it")


def counted(count: int, what: str) -> str:
    return "%d %s%s" % (count, what, "" if count == 1 else "s")


def report(comparison: Comparison, settings: Settings, differences: List[Difference], aside: int, proof: Proof, has_pins: bool) -> int:
    """Prints the verdict, and answers the exit status. aside: how many functions read what has no partner. has_pins: whether there was a pin
    file."""
    if not differences and not aside and not proof.left:
        ours = comparison.ours
        counts = {"register": len(ours.registers), "output": len(ours.outputs), "RAM": len(ours.memories), **settings.counts}
        write_out("equal: %s\n%s\n" % (", ".join(counted(count, what) for what, count in counts.items()), NEVER_COMPARED))
        return 0
    lines = [difference.line() for difference in differences]
    if aside:
        lines.append("not compared: %s, which read what has no partner" % counted(aside, "function"))
    if proof.left:
        lines.append("%s: %s, %s" % (proof.verdict, counted(proof.left, "function"), proof.reason))
    write_out("".join(visible(line) + "\n" for line in lines))
    if not differences and not aside and proof.verdict == NOT_DECIDED:
        complain("whether the netlist and the file are equal isn't known")
        return OPEN
    complain("the netlist and the file differ" + ("" if has_pins else "; a pin file by -p would say for sure which pin is which port"))
    return REFUSED


def write_out(text: str) -> None:
    """Writes to standard output. Raises Stop if that fails."""
    try:
        sys.stdout.reconfigure(errors="backslashreplace")  # Python has none if it is closed
        sys.stdout.write(text)
        sys.stdout.flush()
    except (OSError, AttributeError):
        sys.stdout = None
        raise Stop(WRITING, "write failed: standard output") from None


def folder_of(request: Request) -> str:
    """The folder in which the programs work."""
    try:
        if request.log is None:
            return tempfile.mkdtemp(prefix="iceverify-")
        os.makedirs(request.log, exist_ok=True)
    except OSError:
        raise Stop(WRITING, "write failed: %s" % (request.log or "a temporary folder")) from None
    return request.log


def complain(line: str) -> None:
    """Writes a line to standard error, if there is one."""
    try:
        os.write(2, ("iceverify: %s\n" % visible(line)).encode())
    except OSError:
        pass


def fill_streams() -> None:
    """Puts something in the place of streams that are closed, so that no file gets their numbers. Writing to them fails."""
    for number in range(3):
        try:
            os.fstat(number)
        except OSError:
            os.open(os.devnull, os.O_RDONLY)


def attempt(words: List[str], here: Path, folders: List[str]) -> int:
    """Runs the tool, and answers the exit status. folders: where it notes the folders that are to be removed, which it does at the end."""
    try:
        request = request_of(words)
        with held():
            folder = folder_of(request)
            folders += [folder] if request.log is None else []
        tools = Tools(Path(folder).absolute(), here, request.log)
        tools.need(["yosys", "yosys-abc"])
        return verify(request, tools)
    except Stop as stop:
        complain(stop.line)
        return stop.status
    except MemoryError:
        complain("out of memory")
        return MEMORY
    except Exception as error:  # a fault of this script: whatever it is, nothing is said to be equal
        complain("it can't go on: %s: %s" % (type(error).__name__, error))
        return READING
    finally:
        ignore_signals()
        remove(folders)


def remove(folders: List[str]) -> None:
    """Removes folders, with all that is in them."""
    for folder in folders:
        shutil.rmtree(folder, ignore_errors=True)


def run(words: List[str], here: Path, is_interrupted: bool) -> int:
    """Runs the tool, and answers the exit status, or below 0 the signal that ended it. here: the folder of the installed tools. is_interrupted:
    whether SIGINT ends it, although it is ignored while Python starts."""
    folders: List[str] = []
    try:
        take_signals(is_interrupted)
        return attempt(words, here, folders)
    except Signalled as signalled:
        remove(folders)  # in case it came just before that would have been done
        return -signalled.number


if __name__ == "__main__":
    fill_streams()
    ended = run(sys.argv[3:], Path(sys.argv[2]), sys.argv[1] == "taken")
    if ended < 0:
        die(-ended)
    sys.exit(ended)
