#!/usr/bin/env python3
"""Times the run of a large random module by vlogrun and by Icarus Verilog: the lines, and the waves.

Usage: bench/simulators.py [ROUNDS]     3 rounds if it is missing

The module is that of check/simulated_modules.py and check/simulated_waves.py, which compare what is written: 8,000 LUTs, 4,000 registers and 32
memories, over 10,000 events. In each round the commands take turns. A line has the median of the seconds by the clock, and the least.

Status 0: all were timed; 1: a program failed; 2: the arguments aren't taken; 127: a program is missing.
"""
import pathlib
import statistics
import subprocess
import sys
import tempfile
import time

sys.path.insert(0, str(pathlib.Path(__file__).resolve().parent.parent / "check"))
from modules.programs import need, program
from modules.random_modules import LARGE, Module

COMMANDS = {
    "vlogrun": ["PROGRAM", "vlogrun", "chip.v", "events"],
    "vlogrun without events": ["PROGRAM", "vlogrun", "chip.v", "/dev/null"],
    "vvp": ["vvp", "-n", "bench"],
    "vlogrun --vcd": ["PROGRAM", "vlogrun", "--vcd", "chip.v", "events"],
    "vvp with $dumpvars": ["vvp", "-n", "bench_of_waves"],
}


def make(work):
    """Writes the module, its events, and what Icarus Verilog runs."""
    module = Module(0, LARGE)
    events = module.events(LARGE.events)
    module.write_files(events, work)
    for name, text in (("bench", module.bench(events, False)), ("bench_of_waves", module.bench_of_waves(events))):
        (work / (name + ".v")).write_text(text)
        subprocess.run(["iverilog", "-g2005", "-o", name, name + ".v", "chip.v"], cwd=work, check=True)


def seconds_of(words, work):
    """The seconds of a command, whose output goes to a file."""
    words = [str(program()) if word == "PROGRAM" else word for word in words]
    with open(work / "out", "wb") as out:
        start = time.perf_counter()
        subprocess.run(words, cwd=work, stdout=out, check=True)
        return time.perf_counter() - start


def main(words):
    if len(words) > 1 or not all(word.isdecimal() and int(word) for word in words):
        print(__doc__, file=sys.stderr)
        return 2
    need("iverilog", "vvp")
    times = {name: [] for name in COMMANDS}
    with tempfile.TemporaryDirectory() as folder:
        work = pathlib.Path(folder)
        make(work)
        for _ in range(int(words[0]) if words else 3):
            for name, command in COMMANDS.items():
                times[name].append(seconds_of(command, work))
    for name, seconds in times.items():
        print("%-24s %9.3f s (%.3f)" % (name, statistics.median(seconds), min(seconds)))
    return 0


if __name__ == "__main__":
    sys.exit(main(sys.argv[1:]))
