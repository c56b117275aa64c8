#!/usr/bin/env python3
"""Measures icepack and iceunpack on inputs of growing length: processor time, time a byte, and peak memory.

Usage: bench/lengths.py [ROUNDS]     9 rounds if it is missing

Each round runs the program once on each input, by turns. A line of the table has the input's bytes, the median of the
processor time (user and system) and the least in brackets, the least by the bytes, and the peak memory of one more run, as
modules/measure.py tells it.

Status 0: all were measured; 1: a run failed; 127: there is no program.
"""
import os
import pathlib
import subprocess
import sys
import tempfile
from statistics import median

sys.path.insert(0, str(pathlib.Path(__file__).resolve().parent.parent / "check"))
from modules.full_8k import full_text
from modules.measure import peak_memory, processor_time
from modules.programs import program

MIB = 1 << 20
DEVICE = b".device 8k\n"


def texts():
    """The texts by their names."""
    full = full_text().encode("ascii")
    blank = b"\n".join(line if line[:1] == b"." or b" " in line else len(line) * b"0" for line in full.split(b"\n"))
    yield "full text", full
    yield "full text, all bits 0", blank
    for count in (1, 4, 8, 15):
        yield "full text, comment of %d MiB" % count, full + b".comment\n" + (count * MIB // 80) * (79 * b"c" + b"\n")
    yield "comment of 8 MiB, lines of 79", b".comment\n" + (8 * MIB // 80) * (79 * b"c" + b"\n") + DEVICE
    yield "8 MiB of empty lines", 8 * MIB * b"\n" + DEVICE
    yield "420,000 names of nets", DEVICE + b"".join(b".sym %d name_%d\n" % (k, k) for k in range(420000))
    yield "one extra bit 493,447 times", DEVICE + 493447 * b".extra_bit 0 1 1\n"
    yield "comment of 8 MiB, lines of 1", b".comment\n" + 4 * MIB * b"c\n" + DEVICE


def stream_of(text, work):
    """The bitstream of a text."""
    source, target = work / "text", work / "stream"
    source.write_bytes(text)
    processor_time([str(program()), "icepack", str(source), str(target)])
    return target.read_bytes()


def streams(work):
    """The bitstreams by their names."""
    stream = stream_of(full_text().encode("ascii"), work)
    front = stream.index(b"\x7e\xaa\x99\x7e")
    yield "bitstream of the full text", stream
    yield "4 MiB of bytes 00 before it", (4 * MIB - len(stream)) * b"\0" + stream[front:]
    yield "commands of two bytes, 4 MiB", stream[:front + 4] + (2 * MIB - len(stream)) * b"\x11\x00" + stream[front + 4:]


def measure(tool, inputs, rounds, work):
    """Writes a tool's table."""
    files = []
    for name, content in inputs:
        path = work / ("%d.in" % len(files))
        path.write_bytes(content)
        files.append((name, path, len(content)))
    runs = {path: [] for _, path, _ in files}
    for _ in range(rounds):
        for _, path, _ in files:
            runs[path].append(processor_time([str(program()), tool, str(path), str(work / "out")]))
    print("%-34s %11s %8s %10s %10s %9s" % (tool, "bytes", "ms", "(least)", "ns a byte", "KiB"))
    for name, path, length in files:
        times = [1e3 * time for time in runs[path]]
        memory = peak_memory([str(program()), tool, str(path), str(work / "out")], os.devnull, str(work))
        print("%-34s %11d %8.2f %10s %10.1f %9s" % (
            name, length, median(times), "(%.2f)" % min(times), 1e6 * min(times) / length, memory))


def main(words):
    if len(words) > 1 or not all(word.isdigit() for word in words):
        sys.exit(__doc__)
    program()
    rounds = int(words[0]) if words else 9
    with tempfile.TemporaryDirectory() as folder:
        work = pathlib.Path(folder)
        try:
            measure("icepack", texts(), rounds, work)
            print()
            measure("iceunpack", streams(work), rounds, work)
        except subprocess.CalledProcessError as error:
            sys.exit("bench/lengths.py: %s" % error)
    return 0


if __name__ == "__main__":
    sys.exit(main(sys.argv[1:]))
