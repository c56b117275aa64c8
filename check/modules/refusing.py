"""Runs of a program in which each request for memory is counted, and one of them is refused.

refused.c, which `cc` compiles, counts and refuses what the C library is asked for. The environment variable REFUSING may name the
library that is made of it.
"""
import os
import pathlib
import struct
import subprocess

from modules.programs import need
from modules.tries import BEFORE, Tries

LIBRARY = os.environ.get("REFUSING")


def need_refusing():
    """Ends the script where there is no library, and no compiler that makes one."""
    need(*([] if LIBRARY else ["cc"]))


class Refusing(Tries):
    """Runs in which a request for memory is refused."""

    def __init__(self, folder):
        super().__init__(folder)
        self.library = LIBRARY or self.path("refused.so")
        if not LIBRARY:
            subprocess.run(["cc", "-O2", "-shared", "-fPIC", "-o", self.library, str(pathlib.Path(__file__).with_name("refused.c"))], check=True)

    def run_refusing(self, number, words, source=os.devnull, instead=None):
        """A run in which the request of that number is refused, and none where it is 0; how many requests there were; and whether one was
        refused."""
        (self.folder / "tally").write_bytes(struct.pack("=3Q", number, 0, 0))
        self.target.write_bytes(BEFORE)
        ended = self.run(words, source, environment={"LD_PRELOAD": self.library, "TALLY": self.path("tally")}, instead=instead)
        _, requests, is_refused = struct.unpack("=3Q", (self.folder / "tally").read_bytes())
        return ended, requests, bool(is_refused)

    def left(self):
        """What the last run wrote to standard output and to the target."""
        return self.output(), self.target.read_bytes()
