#!/usr/bin/env python3
"""Measures what the options of icebox_vlog cost: processor time without them, with each of them, and with all.

Usage: bench/options.py [ROUNDS [PROGRAM]]     9 rounds if it is missing; PROGRAM is another one, which is run without options beside this one

Each round runs the program once on each text with each choice of options, by turns. A line of the table has the median of the processor time
(user and system) without options, the least in brackets, and by the least what each choice takes in times of that. A text that is refused
without options has '-' there, and its times are by the first choice that takes it. The texts are examples, and the busy text of an HX8K. The
chip databases are those of Debian's package fpga-icestorm-chipdb.

Status 0: all were measured; 1: a run failed; 127: there is no program, or no database.
"""
import pathlib
import subprocess
import sys
import tempfile
from statistics import median

TOP = pathlib.Path(__file__).resolve().parent.parent
sys.path.insert(0, str(TOP / "check"))
from modules.busy_8k import busy_text
from modules.measure import processor_time
from modules.programs import CHIPDB, need, program

OPTIONS = ["--used-inputs", "--all-pins", "--register-clocks"]
CHOICES = [], *([option] for option in OPTIONS), OPTIONS
EXAMPLES = "blink_1k", "timer_1k", "player_1k", "bus_1k", "lights_8k"


def texts(work):
    """The texts by their names, and the database of each."""
    for name in EXAMPLES:
        yield name, next((TOP / "examples" / name).glob("*.asc")), CHIPDB / ("chipdb-%s.txt" % name[-2:])
    busy = work / "busy.asc"
    busy.write_text(busy_text(CHIPDB / "chipdb-8k.txt", 1))
    yield "busy text of an 8k", busy, CHIPDB / "chipdb-8k.txt"


def is_taken(command):
    return subprocess.run(command, stdout=subprocess.DEVNULL, stderr=subprocess.DEVNULL).returncode == 0


def measure(text, database, programs, rounds):
    """The processor times of each program and choice that takes a text."""
    commands = [[str(path), "icebox_vlog", *choice, str(database), str(text)] for path, choice in programs]
    times = [[] if is_taken(command) else None for command in commands]
    for _ in range(rounds):
        for command, own in zip(commands, times):
            if own is not None:
                own.append(processor_time(command))
    return times


def line(name, times):
    """A line of the table: everything by the first choice that takes the text."""
    first = next((own for own in times if own), None)
    if first is None:
        return "%-20s refused" % name
    shown = ["-" if own is None else "%.3f" % (min(own) / min(first)) for own in times[1:]]
    return "%-20s %9.1f %10s" % (name, 1e3 * median(first), "(%.1f)" % (1e3 * min(first))) + "".join("%18s" % own for own in shown)


def main(words):
    if len(words) > 2 or not all(word.isdigit() for word in words[:1]):
        sys.exit(__doc__)
    need("chipdb")
    own = program()
    programs = [(own, choice) for choice in CHOICES] + [(pathlib.Path(word).resolve(), []) for word in words[1:]]
    rounds = int(words[0]) if words else 9
    print("%-20s %9s %10s" % ("", "ms", "(least)") + "".join("%18s" % word for word in OPTIONS + ["all"] + ["PROGRAM"] * len(words[1:])))
    with tempfile.TemporaryDirectory() as folder:
        try:
            for name, text, database in texts(pathlib.Path(folder)):
                print(line(name, measure(text, database, programs, rounds)), flush=True)
        except subprocess.CalledProcessError as error:
            sys.exit("bench/options.py: %s" % error)
    return 0


if __name__ == "__main__":
    sys.exit(main(sys.argv[1:]))
