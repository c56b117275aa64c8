#!/usr/bin/env python3
"""Makes designs in Verilog, takes them through yosys, nextpnr and icebox_vlog, and compares the runs of the written modules with those of
the Verilog by Icarus Verilog.

Usage: check/simulated_sources.py [--short] [-k FOLDER] [COUNT]

COUNT is how many designs of a family are made for each device, 6 if it is missing; of memories there are sixteen. With --short one of each family
is made, for a 1k alone. The chip databases are those of Debian's package fpga-icestorm-chipdb. With -k the files stay in FOLDER, a folder for
each design.

There are four families of designs (designs.py). Registers at both edges of a clock: some are set or reset at the edge, some at once, by a
pin that is 1, by a pin that is 0, or by a pin or another register; some have an enable. Memories of 256 to 4096 words of 1 to 16 bits, and
the same ones only read, whose write clock is the constant 0, which nextpnr may bring from a cell. Pins by SB_IO cells: inputs and outputs
with registers at both edges, with and without an enable, and outputs that can be switched off. Clocks that go through LUTs. The simulation
takes the models of these cells that yosys ships. Designs and events are random, but always the same. After the start and after each event
the outputs are compared; one that is switched off has z. A router may wire the output of a cell to an input that the cell's table doesn't
use, which is a loop; such a design is routed again with another seed.

The last line is 'N passed, M failed'. Status 0: all passed; 1: something failed; 2: the arguments aren't taken; 127: a database or a program is
missing.
"""
import pathlib
import sys
import tempfile

from modules.designs import FAMILIES
from modules.programs import CHIPDB, need, program
from modules.routing import PACKAGES, Refused, output_of, package_pins, placed, synthesized
from modules.tries import Tally

DEVICES = "1k", "8k"
CELLS = "/usr/share/yosys/ice40/cells_sim.v"
SEEDS = 12


def routed(design, device, pins, work):
    """Writes the text of a design, and answers the module that icebox_vlog writes of it, and which port each pin is."""
    chosen = synthesized(design, pins, work)
    for seed in range(1, SEEDS + 1):
        placed(work, device, seed)
        try:
            return module_of(device, work), {name: pins[pin] for name, pin in chosen.items()}
        except Refused as refused:
            if not str(refused).endswith("Loop"):
                raise
    raise Refused("a loop with each seed")


def module_of(device, work):
    return output_of([program(), "icebox_vlog", work / "chipdb", "top.asc"], work)


def place_in(names, name):
    return names.index(name) if name in names else None


def bit_of(line, value, enable):
    """The value of an output in a line, and z where it is switched off."""
    return line[value] if enable is None or line[enable] == "1" else "z"


def compare(design, device, work):
    """What is compared, and what is wrong with it, or nothing."""
    database = CHIPDB / ("chipdb-%s.txt" % device)
    (work / "chipdb").symlink_to(database)
    module, ports = routed(design, device, package_pins(database, PACKAGES[device]), work)
    (work / "chip.v").write_text(module)
    given = [line.split()[1].rstrip(";") for line in module.splitlines() if line.startswith("  output ")]
    taken = [line.split()[1].rstrip(";") for line in module.splitlines() if line.startswith("  input ")]
    kept = [place for place, (name, _) in enumerate(design.events) if ports[name] in taken]
    (work / "events").write_text("".join("%s %d\n" % (ports[design.events[k][0]], design.events[k][1]) for k in kept))
    ours = output_of([program(), "vlogrun", "chip.v", "events"], work).splitlines()
    (work / "bench.v").write_text(design.bench())
    # Icarus Verilog takes no default for a port
    output_of(["iverilog", "-g2009", "-DNO_ICE40_DEFAULT_ASSIGNMENTS", "-o", "bench", "bench.v", "top.v", CELLS], work)
    theirs = output_of(["vvp", "-n", "bench"], work).splitlines()
    shown = [(given.index(ports[name]), place_in(given, ports[name] + "_en")) for name in design.outputs]
    mine = ["".join(bit_of(line, *place) for place in shown) for line in ours]
    wanted = [theirs[0]] + [theirs[k + 1] for k in kept]
    for number, (one, other) in enumerate(zip(mine, wanted)):
        if one != other:
            return "", "line %d differs: the module %s, the source %s" % (number + 1, one, other)
    fault = "" if len(mine) == len(wanted) else "%d lines, and %d of the source" % (len(mine), len(wanted))
    return "%d lines; %s" % (len(mine), design.seen(module)), fault


def try_design(tally, family, number, device, work):
    """Makes a design, and compares."""
    work.mkdir(parents=True)
    design = FAMILIES[family](number)
    try:
        what, fault = compare(design, device, work)
    except Refused as refused:
        what = fault = "refused: %s" % refused
    tally.tell("%s %s %d: %s" % (device, family, number, what), fault)


def main(words):
    is_short = words[:1] == ["--short"]
    words, keep = words[is_short:], None
    if len(words) >= 2 and words[0] == "-k":
        keep, words = pathlib.Path(words[1]), words[2:]
    if len(words) > 1 or not all(word.isdecimal() for word in words):
        print(__doc__, file=sys.stderr)
        return 2
    need("yosys", "nextpnr-ice40", "iverilog", "vvp", "chipdb")
    count = int(words[0]) if words else 6
    tally = Tally()
    with tempfile.TemporaryDirectory() as made:
        folder = (keep or pathlib.Path(made)).resolve()
        for family, kind in FAMILIES.items():
            for device in DEVICES[:1 if is_short else None]:
                for number in range(1, 1 + (1 if is_short else kind.COUNT or count)):
                    try_design(tally, family, number, device, folder / ("%s_%s_%d" % (family, device, number)))
    return tally.end()


if __name__ == "__main__":
    sys.exit(main(sys.argv[1:]))
