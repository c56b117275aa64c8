#!/usr/bin/env python3
"""Shows that an arena of names keeps chunks, which no contract can say: by how often it asks for memory.

Usage: check/arena.py

It runs the tests of crates/base_tests while one request for memory is refused. With request 64 refused the test that pushes 65,536
bytes 64 times must fail, since each of these names takes a chunk: a vector that grows would ask less often. With request 100 refused
the test that pushes one byte 1,000 times must pass: names in memory of their own would ask more often. Nothing is proved here.

The last line is 'N passed, M failed'. Status 0: it is so; 1: it isn't; 127: rt is missing.
"""
import re
import shutil
import subprocess
import sys

from modules.programs import TOP
from modules.tries import Tally

CRATE = TOP / "crates/base_tests"
LONG = "names_of_a_chunk_each_are_got_again"
SHORT = "names_of_one_byte_are_got_again"


def passes(test, refused):
    """Whether a test passes while that request for memory is refused."""
    run = subprocess.run(["rt", "try", "--test", "--fail-alloc", str(refused)], cwd=CRATE, capture_output=True, text=True)
    said = re.search(r"^test \S*%s \.\.\. (\w+)" % test, run.stdout + run.stderr, re.MULTILINE)
    if not said:
        sys.exit("check/arena.py: %s didn't run:\n%s" % (test, run.stdout + run.stderr))
    return said[1] == "ok"


def main():
    if not shutil.which("rt"):
        print("check/arena.py: rt is missing", file=sys.stderr)
        return 127
    tally = Tally()
    tally.tell("%s fails with request 64 refused" % LONG, "it passes" if passes(LONG, 64) else "")
    tally.tell("%s passes with request 100 refused" % SHORT, "" if passes(SHORT, 100) else "it fails")
    return tally.end()


if __name__ == "__main__":
    sys.exit(main())
