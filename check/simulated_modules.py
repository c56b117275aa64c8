#!/usr/bin/env python3
"""Runs random modules of the Verilog subset by vlogrun and by Icarus Verilog, and compares the lines.

Usage: check/simulated_modules.py [--short] [COUNT]

COUNT small modules (40 if it is missing) of modules/random_modules.py, each of its own seed, over 300 events each. In three of four of them
registers are clocks of others, in up to three levels. Where yosys is there, each of them is also read by yosys and written again, and Icarus
Verilog runs what yosys wrote. Then two large modules (8,000 LUTs, 4,000 registers and 32 memories), without such clocks and with them, over
10,000 events. With --short COUNT is 4 if it is missing, and there is no large module.

The last line is 'N passed, M failed'. Status 0: all passed; 1: something failed; 2: the arguments aren't taken; 127: a program is missing.
"""
import pathlib
import re
import subprocess
import sys
import tempfile

from modules.programs import is_there, need, program
from modules.random_modules import LARGE, SMALL, Module
from modules.tries import Tally

LEVELS = 4


def output_of(words, work):
    """What a command writes."""
    return subprocess.run(words, cwd=work, stdout=subprocess.PIPE, check=True).stdout


def lines_by_icarus(chip, bench, work):
    """What Icarus Verilog writes for a module."""
    output_of(["iverilog", "-g2005", "-o", "bench", bench, chip], work)
    return output_of(["vvp", "-n", "bench"], work)


def lines_by_yosys(module, events, work):
    """What Icarus Verilog writes for the module that yosys reads and writes again."""
    script = "read_verilog chip.v; hierarchy -check -top chip; proc; check -assert; write_verilog -noattr by_yosys.v"
    output_of(["yosys", "-q", "-p", script], work)
    # a register that never changes is a wire there, which has its value without being set
    wires = re.findall(r"^  wire (?:\[15:0\] )?(\w+);", (work / "by_yosys.v").read_text(), re.M)
    for name in wires:
        module.starts.pop(name, None)
    (work / "bench_by_yosys.v").write_text(module.bench(events, True))
    return lines_by_icarus("by_yosys.v", "bench_by_yosys.v", work)


def fault_of(module, events, work, is_small):
    """What is different, or nothing."""
    module.write_files(events, work)
    (work / "bench.v").write_text(module.bench(events, is_small))
    ours = output_of([program(), "vlogrun"] + ["-s"] * is_small + ["chip.v", "events"], work)
    if len(ours.splitlines()) != len(events) + 1:
        return "vlogrun writes %d lines" % len(ours.splitlines())
    if lines_by_icarus("chip.v", "bench.v", work) != ours:
        return "Icarus Verilog writes other lines"
    if is_small and is_there("yosys") and lines_by_yosys(module, events, work) != ours:
        return "Icarus Verilog writes other lines of what yosys wrote"
    return ""


def compare(tally, what, seed, size, levels):
    """Compares the runs of a module."""
    module = Module(seed, size, levels)
    with tempfile.TemporaryDirectory() as work:
        try:
            fault = fault_of(module, module.events(size.events), pathlib.Path(work), size is SMALL)
        except subprocess.CalledProcessError as error:
            fault = str(error)
    tally.tell(what, fault)


def main(words):
    is_short = words[:1] == ["--short"]
    words = words[is_short:]
    if len(words) > 1 or not all(word.isdecimal() for word in words):
        print(__doc__, file=sys.stderr)
        return 2
    need("iverilog", "vvp")
    tally = Tally()
    for seed in range(int(words[0]) if words else 4 if is_short else 40):
        compare(tally, "the small module of seed %d" % seed, seed, SMALL, seed % LEVELS)
    if not is_short:
        for levels in 0, LEVELS - 1:
            compare(tally, "the large module of %d levels" % levels, levels, LARGE, levels)
    return tally.end()


if __name__ == "__main__":
    sys.exit(main(sys.argv[1:]))
