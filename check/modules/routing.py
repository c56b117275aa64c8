"""Takes a design in Verilog through yosys and nextpnr-ice40."""
import subprocess

# of each device the option of nextpnr-ice40, and a package
OPTIONS = {"384": "lp384", "1k": "hx1k", "8k": "hx8k"}
PACKAGES = {"384": "cm49", "1k": "tq144", "8k": "ct256"}


class Refused(Exception):
    """A program didn't do what it was asked for."""


def output_of(words, work, source=None):
    """What a program writes, which reads a file or nothing as standard input."""
    run = subprocess.run([str(word) for word in words], cwd=work, capture_output=True, stdin=source or subprocess.DEVNULL)
    if run.returncode != 0:
        raise Refused(run.stderr.decode(errors="replace").strip().splitlines()[-1] if run.stderr.strip() else "%s: status %d" % (words[0], run.returncode))
    return run.stdout.decode()


def package_pins(database, package):
    """The pins of a package: the place of each as a port's name."""
    pins, here = {}, False
    with open(database) as lines:
        for line in lines:
            words = line.split()
            if words[:1] == [".pins"]:
                here = words[1] == package
            elif here and not words:
                break
            elif here:
                pins[words[0]] = "io_%s_%s_%s" % tuple(words[1:4])
    return pins


def one_a_tile(pins):
    """Pins of which no two are in one tile."""
    tiles = {}
    for pin, port in pins.items():
        tiles.setdefault(port.rpartition("_")[0], pin)
    return list(tiles.values())


def chosen_pins(names, pins, is_apart):
    """A pin for each name: of each tile one at most where they are apart, and not each pin, so that a design spreads over the device."""
    usable = one_a_tile(pins) if is_apart else list(pins)
    return dict(zip(names, usable[::min(3, len(usable) // len(names))]))


def write_pins(chosen, work):
    """Writes top.pcf, which gives each name its pin."""
    (work / "top.pcf").write_text("".join("set_io %s %s\n" % pair for pair in chosen.items()))


def synthesized(design, pins, work):
    """Writes a design as top.v with its pins, takes it through yosys, and answers the pin of each name."""
    chosen = chosen_pins(design.inputs + design.outputs, pins, design.is_apart)
    (work / "top.v").write_text(design.text())
    write_pins(chosen, work)
    synthesize(work)
    return chosen


def synthesize(work):
    """Takes the module top of top.v through yosys."""
    output_of(["yosys", "-q", "-p", "read_verilog top.v; synth_ice40 -top top -json top.json"], work)


def placed(work, device, seed, pins=("--pcf", "top.pcf")):
    """Places and routes what was synthesized, and writes the text top.asc."""
    output_of(["nextpnr-ice40", "-q", "--" + OPTIONS[device], "--package", PACKAGES[device], "--seed", seed, "--json", "top.json", *pins,
               "--asc", "top.asc"], work)
