#!/usr/bin/env python3
"""Shows that icepack and iceunpack take their input in pieces, and don't collect it.

Usage: check/pieces.py

It packs a small text and unpacks its bitstream, from standard input and from a file, and then the same after 4,000,000 bytes that
mean nothing: empty lines before the text, bytes A before the bitstream. What is written must be the same, and the second run must
ask for memory no more often than the first and take at most 256 KiB more. The requests are counted by valgrind, the memory by GNU
time.

The last line is 'N passed, M failed'. Status 0: it is so; 1: it isn't; 127: a program is missing.
"""
import pathlib
import re
import subprocess
import sys
import tempfile

from modules.programs import need, program
from modules.tries import Tally

TIME = "/usr/bin/time"
BEFORE = 4000000
MOST_MORE = 256


def ran(before, tool, source, given):
    """What a command that ends with a tool writes: its output and its lines on standard error."""
    if source is not None:
        source.write_bytes(given)
    names = [] if source is None else [str(source)]
    run = subprocess.run(before + [str(program()), tool] + names, input=b"" if names else given, capture_output=True)
    if run.returncode != 0:
        sys.exit("check/pieces.py: %s ends with %d" % (tool, run.returncode))
    return run.stdout, run.stderr.decode()


def requests(tool, source, given):
    """How often a tool asks for memory."""
    said = ran(["valgrind", "--tool=memcheck"], tool, source, given)[1]
    return int(re.search(r"total heap usage: ([\d,]+) allocs", said)[1].replace(",", ""))


def peak(tool, source, given):
    """What is written, and the peak memory in KiB, the least of five runs."""
    runs = [ran([TIME, "-f", "%M"], tool, source, given) for _ in range(5)]
    return runs[0][0], min(int(said) for _, said in runs)


def try_pieces(tally, tool, source, alone, after):
    """Compares how often a tool asks for memory and how much it takes, over a small input and after many bytes."""
    written, least = peak(tool, source, alone)
    same, more = peak(tool, source, after)
    few, many = requests(tool, source, alone), requests(tool, source, after)
    what = "%s of %s: %d requests for memory, %d KiB; after 4,000,000 bytes %d requests, %d KiB" % (
        tool, "standard input" if source is None else "a file", few, least, many, more)
    fault = written != same and "another file is written" or many > few and "it asks more often"
    tally.tell(what, fault or more > least + MOST_MORE and "it takes more than %d KiB more" % MOST_MORE)


def main():
    need("valgrind", TIME)
    text = b".device 1k\n"
    stream = ran([], "icepack", None, text)[0]
    tally = Tally()
    with tempfile.TemporaryDirectory() as work:
        source = pathlib.Path(work) / "input"
        for tool, alone, filler in (("icepack", text, b"\n"), ("iceunpack", stream, b"A")):
            for given in (None, source):
                try_pieces(tally, tool, given, alone, filler * BEFORE + alone)
    return tally.end()


if __name__ == "__main__":
    sys.exit(main())
