#!/usr/bin/env python3
"""Writes the waves of random modules of the Verilog subset by vlogrun --vcd and by Icarus Verilog, and compares them.

Usage: check/simulated_waves.py [--short] [COUNT]

COUNT small modules (12 if it is missing) of modules/random_modules.py, each of its own seed, over 300 events each. In three of four of them
registers are clocks of others, in up to three levels. Then two large modules (8,000 LUTs, 4,000 registers and 32 memories), without such clocks
and with them, over 10,000 events. With --short COUNT is 4 if it is missing, and there is no large module.

Both dumps have to declare the same variables, with the same kinds and widths, and to give the same variables the same values at the same
times. Icarus Verilog may write a value again that didn't change, where it changed there and back at one time; such a line doesn't count.
vlogrun may not. Where vcd2fst and fst2vcd of GTKWave are there, they have to give the same waves back.

The last line is 'N passed, M failed'. Status 0: all passed; 1: something failed; 2: the arguments aren't taken; 127: a program is missing.
"""
import pathlib
import subprocess
import sys
import tempfile

from modules.programs import missing, need, program
from modules.random_modules import DUMP_START, LARGE, SMALL, Module
from modules.tries import Tally

LEVELS = 4


def declared(words):
    """The identifier, and the name, kind and width of the variable that a line declares."""
    kind, width, identifier, name = words[1:5]
    return identifier, (name, kind, int(width))


def value_in(line):
    """The identifier and the value of a line of a dump."""
    if line[0] in "01xz":
        return line[1:], line[0]
    bits, identifier = line[1:].split()
    return identifier, bits.rjust(16, "0")


def read_dump(path, start):
    """The variables of a dump, the changes of values as (time, name, value), and how many lines change nothing. Times count from the start.

    Variables that are one net may share an identifier."""
    declared_by, values, changes, idle, now = {}, {}, [], 0, 0
    for line in path.read_text().splitlines():
        if line.startswith("$var"):
            identifier, variable = declared(line.split())
            declared_by.setdefault(identifier, []).append(variable)
        elif line.startswith("#"):
            now = int(line[1:]) - start
        elif line and line[0] in "01xzb":
            identifier, value = value_in(line)
            if values.get(identifier) == value:
                idle += 1
            else:
                changes += [(now, name, value) for name, _, _ in declared_by[identifier]]
            values[identifier] = value
    return sorted(sum(declared_by.values(), [])), sorted(changes), idle


def back_from_fst(path, work):
    """The dump that GTKWave's converters give back."""
    back = work / "back.vcd"
    subprocess.run(["vcd2fst", path, work / "waves.fst"], check=True, capture_output=True)
    with open(back, "wb") as out:
        subprocess.run(["fst2vcd", work / "waves.fst"], check=True, stdout=out)
    return back


def fault_of(module, events, work):
    """What is different, or nothing."""
    module.write_files(events, work)
    (work / "bench.v").write_text(module.bench_of_waves(events))
    with open(work / "ours.vcd", "wb") as out:
        subprocess.run([program(), "vlogrun", "--vcd", "chip.v", "events"], cwd=work, stdout=out, check=True)
    for words in ["iverilog", "-g2005", "-o", "bench", "bench.v", "chip.v"], ["vvp", "-n", "bench"]:
        subprocess.run(words, cwd=work, stdout=subprocess.DEVNULL, check=True)
    variables, changes, idle = read_dump(work / "ours.vcd", 0)
    if not changes or idle:
        return "there are no changes" if not changes else "%d lines change nothing" % idle
    if (variables, changes) != read_dump(work / "icarus.vcd", DUMP_START)[:2]:
        return "Icarus Verilog dumps other waves"
    if not missing(("vcd2fst", "fst2vcd")):
        back = read_dump(back_from_fst(work / "ours.vcd", work), 0)
        if [name for name, _, _ in back[0]] != [name for name, _, _ in variables] or back[1] != changes:
            return "GTKWave's converters give other waves back"
    return ""


def compare(tally, what, seed, size, levels):
    """Compares the waves of a module."""
    module = Module(seed, size, levels)
    with tempfile.TemporaryDirectory() as work:
        try:
            fault = fault_of(module, module.events(size.events), pathlib.Path(work))
        except subprocess.CalledProcessError as error:
            fault = str(error)
    tally.tell(what, fault)


def main(words):
    is_short = words[:1] == ["--short"]
    words = words[is_short:]
    if len(words) > 1 or not all(word.isdecimal() for word in words):
        print(__doc__, file=sys.stderr)
        return 2
    need("iverilog", "vvp")
    tally = Tally()
    for seed in range(int(words[0]) if words else 4 if is_short else 12):
        compare(tally, "the waves of the small module of seed %d" % seed, seed, SMALL, seed % LEVELS)
    if not is_short:
        for levels in 0, LEVELS - 1:
            compare(tally, "the waves of the large module of %d levels" % levels, levels, LARGE, levels)
    return tally.end()


if __name__ == "__main__":
    sys.exit(main(sys.argv[1:]))
