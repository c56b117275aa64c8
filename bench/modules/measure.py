#!/usr/bin/env python3
"""Measures this project's tools and the stock ones side by side, for bench/stock.sh.

Usage: measure.py PROGRAM WORK TEXT...     PROGRAM is this project's, WORK a folder for files that aren't kept

Each text is packed, and the bitstream that this project makes of it is unpacked, by both. Then four times the last text's
bitstream is joined to a boot file, and eight RAMs of the last text get other contents, where it has so many. Behind these, in a table of
its own, this project packs and unpacks the last text under a layout file, and without one in the place of the stock tool.

Wall times are medians of 20 rounds of 5 runs each, by hyperfine or, where that isn't installed and for a tool that reads
standard input, by a loop here. In each
round the tools take turns, and the first one is another than in the last round. The ratio is this project's time by the
stock tool's, the median over the rounds, with the middle half of the rounds after it. The peak memory is the greatest
of 20 runs, by GNU time or, where that isn't installed, as the system tells it of a child, which is never less than what
this script takes itself.
"""
import json
import os
import random
import shlex
import shutil
import subprocess
import sys
import time
from statistics import median, quantiles

ROUNDS, RUNS = 20, 5
LAYOUT = os.path.join(os.path.dirname(os.path.abspath(__file__)), "../../layouts/silicon.layout")
GNU_TIME = "/usr/bin/time"


def run(command, source, **options):
    """A run with that file as its standard input, whose standard output isn't kept."""
    with open(source) as file:
        return subprocess.run(command, stdin=file, stdout=subprocess.DEVNULL, **options)


def wall_times(command, source, work):
    """The seconds of each run."""
    if source == os.devnull and shutil.which("hyperfine"):
        report = os.path.join(work, "times.json")
        subprocess.run(["hyperfine", "-N", "--style", "none", "--warmup", "1", "--runs", str(RUNS),
                        "--export-json", report, shlex.join(command)], check=True, stderr=subprocess.DEVNULL)
        with open(report) as file:
            return json.load(file)["results"][0]["times"]
    times = []
    for _ in range(RUNS + 1):
        start = time.perf_counter()
        run(command, source, check=True)
        times.append(time.perf_counter() - start)
    return times[1:]


def usage_of(command, source):
    """What the system counts of a run with that file as its standard input, whose standard output isn't kept."""
    streams = [(os.POSIX_SPAWN_OPEN, 0, source, os.O_RDONLY, 0), (os.POSIX_SPAWN_OPEN, 1, os.devnull, os.O_WRONLY, 0)]
    _, status, usage = os.wait4(os.posix_spawnp(command[0], command, os.environ, file_actions=streams), 0)
    if status != 0:
        raise subprocess.CalledProcessError(os.waitstatus_to_exitcode(status), command)
    return usage


def processor_time(command, source=os.devnull):
    """The seconds of processor time (user and system) of a run."""
    usage = usage_of(command, source)
    return usage.ru_utime + usage.ru_stime


def peak_memory(command, source, work):
    """KiB of a run at its peak."""
    if os.access(GNU_TIME, os.X_OK):
        report = os.path.join(work, "memory")
        run([GNU_TIME, "-f", "%M", "-o", report] + command, source, check=True)
        with open(report) as file:
            return int(file.read())
    return usage_of(command, source).ru_maxrss


def measure(commands, source, work):
    """The part of the table's line after the text's name."""
    times, memory = ([], []), [0, 0]
    for number in range(ROUNDS):
        for which in (0, 1) if number % 2 == 0 else (1, 0):
            command = commands[which]
            times[which].append(wall_times(command, source, work))
            memory[which] = max(memory[which], peak_memory(command, source, work))
    low, ratio, high = quantiles([median(a) / median(b) for a, b in zip(*times)], n=4)
    ours, theirs = (1000 * median(sum(rounds, [])) for rounds in times)
    return "%9.2f %9.2f %6.2f (%.2f to %.2f) %9d %9d %6.2f" % (
        ours, theirs, ratio, low, high, memory[0], memory[1], memory[0] / memory[1])


def line_of(tool, name, commands, source, work, measured=measure):
    """The table's line of two commands with that standard input, and whether both are taken. `OUTPUT` among their words is a file
    that each of them writes. What is `measured` of them gives the line's part after the name."""
    head = "%-14s %-13s" % (tool, name)
    commands = [[os.path.join(work, output) if word == "OUTPUT" else word for word in command]
                for command, output in zip(commands, ("first.out", "second.out"))]
    refusing = [shlex.join(command) for command in commands
                if run(command, source, stderr=subprocess.DEVNULL).returncode != 0]
    if refusing:
        return "%s refused: %s" % (head, ", ".join(refusing)), False
    return "%s %s" % (head, measured(commands, source, work)), True


def write_table(first, second, lines, work):
    """Writes a table of commands with their names at its head, and tells whether all were taken."""
    heads = ("tool", "input", first + " ms", second + " ms", "ratio", "", first + " KiB", second + " KiB", "ratio")
    print("%-14s %-13s %9s %9s %6s %14s %9s %9s %6s" % heads)
    all_taken = True
    for tool, name, commands, source in lines:
        line, taken = line_of(tool, name, commands, source, work)
        print(line, flush=True)
        all_taken = all_taken and taken
    return all_taken


def write_words(path, blocks):
    """Writes a file of 256 memory words, of which each has sixteen bits of each block, the first block's at the right."""
    with open(path, "w") as file:
        for word in zip(*blocks):
            file.write("".join("%04x" % part for part in reversed(word)) + "\n")


def with_known_rams(text, work):
    """The text with words of the first file in its first eight RAMs, the first file and the second one, or nothing where
    it has fewer RAMs. They are pseudo-random from a fixed seed. The tiles of the RAMs are cleared, so that none of them is
    in a narrow mode, whose words the stock tool looks for in another order."""
    with open(text) as file:
        lines = file.read().split("\n")
    rams = [number for number, line in enumerate(lines) if line.startswith(".ram_data")][:8]
    if len(rams) < 8:
        return None
    for number, line in enumerate(lines):
        if line.startswith((".ramb_tile", ".ramt_tile")):
            lines[number + 1:number + 17] = 16 * [42 * "0"]
    rng = random.Random(8)
    blocks, others = ([[rng.getrandbits(16) for _ in range(256)] for _ in rams] for _ in range(2))
    for words, ram in zip(blocks, rams):
        for row in range(16):
            lines[ram + 1 + row] = "".join("%04x" % word for word in reversed(words[16 * row:16 * row + 16]))
    known, first_file, second_file = (os.path.join(work, name) for name in ("known.asc", "from.hex", "to.hex"))
    with open(known, "w") as file:
        file.write("\n".join(lines))
    write_words(first_file, blocks)
    write_words(second_file, others)
    return known, first_file, second_file


def stream_of(text, work):
    """The name of the bitstream of a text."""
    return os.path.join(work, os.path.splitext(os.path.basename(text))[0] + ".bin")


def lines_of_text(program, text, work):
    """What is measured of each text: the tool, the input's name, the words after the tool and the standard input."""
    stream = stream_of(text, work)
    yield "icepack", os.path.basename(text), [text, "OUTPUT"], os.devnull
    if subprocess.run([program, "icepack", text, stream], stderr=subprocess.DEVNULL).returncode == 0:
        yield "iceunpack", os.path.basename(stream), [stream, "OUTPUT"], os.devnull


def lines_of_last(text, work):
    """What is measured of the last text alone."""
    stream = stream_of(text, work)
    if os.path.exists(stream):
        # Under four names, since the stock tool writes one image for names that are equal.
        copies = [shutil.copy(stream, stream + "." + str(k)) for k in range(4)]
        yield "icemulti", "4 copies of that", ["-o", "OUTPUT"] + copies, os.devnull
    known = with_known_rams(text, work)
    if known:
        yield "icebram", "8 known RAMs", list(known[1:]), known[0]


def lines_with_layout(program, text, work):
    """What is measured with a layout file and without one: the tool, the input's name, the two commands and the standard input."""
    for tool, source in ("icepack", text), ("iceunpack", stream_of(text, work)):
        if os.path.exists(source):
            commands = [[program, tool] + words + [source, "OUTPUT"] for words in (["--layout", LAYOUT], [])]
            yield tool, os.path.basename(source), commands, os.devnull


def main(words):
    if len(words) < 3:
        sys.exit(__doc__)
    program, work, texts = words[0], words[1], words[2:]
    lines = [line for text in texts for line in lines_of_text(program, text, work)]
    lines += lines_of_last(texts[-1], work)
    beside = [(tool, name, ([program, tool] + arguments, [tool] + arguments), source) for tool, name, arguments, source in lines]
    all_taken = write_table("ours", "stock", beside, work)
    print()
    all_taken = write_table("with", "without", lines_with_layout(program, texts[-1], work), work) and all_taken
    return 0 if all_taken else 1


if __name__ == "__main__":
    sys.exit(main(sys.argv[1:]))
