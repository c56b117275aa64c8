#!/usr/bin/env python3
"""Measures this project's tools and the stock ones over routed texts, in processor time, for bench/routed.sh.

Usage: measure_routed.py PROGRAM FOLDER CHIPDB ROUNDS

PROGRAM is this project's. FOLDER has the texts full_8k.asc and small_8k.asc, and the words of the RAMs of the first in from.hex, others
in to.hex. CHIPDB is the chip database of an 8k, which the stock tools have built in.

In each of ROUNDS rounds each of the two tools runs once, and the first one is another than in the last round. A line has the medians
of the processor time (user and system) in milliseconds, with the least in brackets, and this project's median by that of the stock
tool. Behind these is the peak memory, the greatest of a fifth as many runs, as measure.py tells it. The tools named icebox_ run in a
third of the rounds, since the stock ones take seconds.
"""
import functools
import os
import sys
import tempfile
from statistics import median

from measure import line_of, peak_memory, processor_time


def in_brackets(times):
    """The median of the seconds and the least of them, in milliseconds."""
    return "%9.2f %10s" % (1e3 * median(times), "(%.2f)" % (1e3 * min(times)))


def measure_processor(rounds, commands, source, work):
    """The part of the table's line after the text's name."""
    times = ([], [])
    for number in range(rounds):
        for which in (0, 1) if number % 2 == 0 else (1, 0):
            times[which].append(processor_time(commands[which], source))
    memory = [max(peak_memory(command, source, work) for _ in range(max(1, rounds // 5))) for command in commands]
    ratio = median(times[0]) / median(times[1])
    return "%s %s %6.3f %9d %9d" % (in_brackets(times[0]), in_brackets(times[1]), ratio, memory[0], memory[1])


def lines_of(program, folder, database):
    """What is measured: the tool, the input's name, the two commands and the standard input."""
    full, small, known, others = (os.path.join(folder, name) for name in ("full_8k.asc", "small_8k.asc", "from.hex", "to.hex"))
    yield "icepack", "full_8k.asc", ([program, "icepack", full, "OUTPUT"], ["icepack", full, "OUTPUT"]), os.devnull
    yield "icebram", "full_8k.asc", ([program, "icebram", known, others], ["icebram", known, others]), full
    yield "  --by-mode", "full_8k.asc", ([program, "icebram", "--by-mode", known, others], ["icebram", known, others]), full
    for text in (full, small):
        for tool in ("icebox_explain", "icebox_vlog"):
            yield tool, os.path.basename(text), ([program, tool, database, text], [tool, text]), os.devnull


def main(words):
    if len(words) != 4:
        sys.exit(__doc__)
    program, folder, database, rounds = words[0], words[1], words[2], int(words[3])
    print("%-14s %-13s %9s %10s %9s %10s %6s %9s %9s" % ("tool", "input", "ours ms", "least", "stock ms", "least", "ratio", "ours KiB", "stock KiB"))
    all_taken = True
    with tempfile.TemporaryDirectory() as work:
        for tool, name, commands, source in lines_of(program, folder, database):
            own_rounds = max(1, rounds // 3) if tool.startswith("icebox_") else rounds
            line, taken = line_of(tool, name, commands, source, work, functools.partial(measure_processor, own_rounds))
            print(line, flush=True)
            all_taken = all_taken and taken
    return 0 if all_taken else 1


if __name__ == "__main__":
    sys.exit(main(sys.argv[1:]))
