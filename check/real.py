#!/usr/bin/env python3
"""Runs the tools with a chip database over real designs, and compares what they write with what is expected.

Usage: check/real.py DESIGNS

DESIGNS is a folder with these files for each design, the device's digits and a `k` after the last `_` of NAME, as in counter_1k:

    NAME.asc.gz             the text of the design
    NAME.explain.gz         what icebox_explain writes of it
    NAME.v.gz               what icebox_vlog writes of it, or NAME.refused, the line with which it refuses it
    NAME.events, NAME.run   events for that module, and what vlogrun -s writes of them

vlogsweep runs each module over all the events and over the first half of them. What it has to write are the outputs in NAME.run. With
--register-clocks icebox_vlog writes the same, and refuses a design in the same way, unless for a clock.

The chip databases are those of Debian's package fpga-icestorm-chipdb. The last line is 'N passed, M failed'. Status 0: all passed; 1:
something failed; 2: the arguments aren't taken; 127: there is no program or no database.
"""
import gzip
import pathlib
import subprocess
import sys
import tempfile
import time

from modules.programs import CHIPDB, need, program
from modules.tries import Tally


class Ended:
    """A run of the program: its status, what it wrote, and its seconds."""

    def __init__(self, words):
        start = time.perf_counter()
        run = subprocess.run([program()] + words, capture_output=True)
        self.seconds = time.perf_counter() - start
        self.status = run.returncode
        self.output = run.stdout
        self.errors = run.stderr

    def writes(self, output):
        """Whether it was done, and wrote these bytes."""
        return self.status == 0 and self.output == output and not self.errors

    def refuses(self, line):
        """Whether it was refused with this line, and wrote nothing."""
        return self.status == 1 and self.errors == line and not self.output


def count(tally, name, tool, ended, is_same):
    """Counts a run that did what is expected, or didn't."""
    tally.tell("%s %s (%.3f s)" % (name, tool, ended.seconds), "" if is_same else ended.errors.decode() or "it writes something else")


def compare(designs, name, database, work, tally):
    """Runs the tools over one design."""
    text = work / (name + ".asc")
    text.write_bytes(gzip.decompress((designs / (name + ".asc.gz")).read_bytes()))
    ended = Ended(["icebox_explain", database, text])
    expected = gzip.decompress((designs / (name + ".explain.gz")).read_bytes())
    count(tally, name, "icebox_explain", ended, ended.writes(expected))
    ended = Ended(["icebox_vlog", database, text])
    refused = designs / (name + ".refused")
    with_option = Ended(["icebox_vlog", "--register-clocks", database, text])
    if refused.exists():
        line = refused.read_bytes()
        count(tally, name, "icebox_vlog", ended, ended.refuses(line))
        if b": Clock net " not in line:
            count(tally, name, "icebox_vlog --register-clocks", with_option, with_option.refuses(line))
        return
    expected = gzip.decompress((designs / (name + ".v.gz")).read_bytes())
    count(tally, name, "icebox_vlog", ended, ended.writes(expected))
    count(tally, name, "icebox_vlog --register-clocks", with_option, with_option.writes(expected))
    module = work / (name + ".v")
    module.write_bytes(ended.output)
    events, lines = designs / (name + ".events"), (designs / (name + ".run")).read_bytes()
    ended = Ended(["vlogrun", "-s", module, events])
    count(tally, name, "vlogrun", ended, ended.writes(lines))
    given = events.read_bytes().splitlines(True)
    half = work / (name + ".half")
    half.write_bytes(b"".join(given[:len(given) // 2]))
    ended = Ended(["vlogsweep", module, events, half])
    count(tally, name, "vlogsweep", ended, ended.writes(swept(events, lines, len(given)) + swept(half, lines, len(given) // 2)))


def swept(events, lines, count):
    """What vlogsweep writes for a list of so many events, by the lines of vlogrun -s: the outputs stand before the first space."""
    outputs = [line.split(b" ")[0] for line in lines.splitlines()[:count + 1]]
    return b"events %s\n%s" % (bytes(events), b"".join(output + b"\n" for output in outputs))


def main(words):
    if len(words) != 1:
        print(__doc__, file=sys.stderr)
        return 2
    need("chipdb")
    designs, tally = pathlib.Path(words[0]), Tally()
    with tempfile.TemporaryDirectory() as work:
        for source in sorted(designs.glob("*.asc.gz")):
            name = source.name.removesuffix(".asc.gz")
            compare(designs, name, CHIPDB / ("chipdb-%s.txt" % name.rpartition("_")[2]), pathlib.Path(work), tally)
    return tally.end()


if __name__ == "__main__":
    sys.exit(main(sys.argv[1:]))
