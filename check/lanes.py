#!/usr/bin/env python3
"""Shows that a module in 64 lanes isn't kept 64 times, which no contract can say: by how often new lanes ask for memory.

Usage: check/lanes.py

Two tests in crates/vlog_tests/src/requests.rt read the module of a small chip, and one of them makes lanes of it too. What that one asks
more often is what the lanes ask: at least once, and fewer than 64 times, since 64 runners would ask once each at least.

The tests are crates/vlog_tests/out/vlog_tests_tests, which `rt test` makes there, or those of the environment variable VLOG_TESTS.
modules/refusing.py tells how requests are counted. The last line is 'N passed, M failed'. Status 0: it is so; 1: it isn't; 127: there are no
tests or no compiler.
"""
import os
import sys
import tempfile

from modules.programs import TOP
from modules.refusing import Refusing, need_refusing

TESTS = os.environ.get("VLOG_TESTS", str(TOP / "crates/vlog_tests/out/vlog_tests_tests"))
READS, MAKES = "requests::reads_a_module", "requests::makes_lanes_of_a_module"
LANES = 64


def requests_of(tries, test):
    """How often a test asks for memory, and what is wrong with its run."""
    ended, requests, _ = tries.run_refusing(0, [test], instead=TESTS)
    return requests, "" if ended.status == 0 else "status %s, %s" % (ended.status, ended.said())


def main(words):
    if words:
        print(__doc__, file=sys.stderr)
        return 2
    need_refusing()
    if not os.access(TESTS, os.X_OK):
        print("check/lanes.py: there is no %s" % TESTS, file=sys.stderr)
        return 127
    with tempfile.TemporaryDirectory() as folder:
        tries = Refusing(folder)
        (read, fault), (made, other) = (requests_of(tries, test) for test in (READS, MAKES))
        tries.tell("%s asks %d times" % (READS, read), fault)
        tries.tell("%s asks %d times" % (MAKES, made), other)
        is_less = 0 < made - read < LANES
        tries.tell("new lanes ask %d times" % (made - read), "" if is_less else "it should be from 1 to %d" % (LANES - 1))
        return tries.end()


if __name__ == "__main__":
    sys.exit(main(sys.argv[1:]))
