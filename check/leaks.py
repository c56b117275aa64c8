#!/usr/bin/env python3
"""Shows that each tool gives back all memory that it asked for, whether it ends with 0 or refuses.

Usage: check/leaks.py

It runs each tool under valgrind, which counts every block of memory that was asked for and given back, and looks at each byte that is
read before it was written. No contract says either: a body that forgets to give memory back still gives the right answer.

The last line is 'N passed, M failed'. Status 0: all passed; 1: something failed; 127: there is no program or no valgrind.
"""
import pathlib
import random
import subprocess
import sys
import tempfile

from modules.programs import TOP, need, program
from modules.small_chip import DATABASE, DIVIDER, RING, TILES, TWO_CELLS, text_of
from modules.tries import Tally

FREED = "All heap blocks were freed -- no leaks are possible"
CLEAN = "ERROR SUMMARY: 0 errors from 0 contexts"
NAMES = 5_000

# the arguments of each call, what goes to standard input, and the exit status
CALLS = (
    (["icepack", "text", "target"], None, 0),
    (["icepack", "--layout", "layout"], "text", 0),
    (["icepack", "events"], None, 1),
    (["iceunpack", "stream"], None, 0),
    (["iceunpack", "text"], None, 1),
    (["icemulti", "-A", "16", "stream", "stream"], None, 0),
    (["icesplit", "boot"], None, 0),
    (["icesplit", "-x", "9", "boot"], None, 1),
    (["icebram", "--by-mode", "from", "to"], "ram_text", 0),
    (["icebram", "from", "text"], "ram_text", 1),
    (["icebox_explain", "names", "text"], None, 0),
    (["icebox_explain", "text", "text"], None, 1),
    (["icebox_diff", "names", "text", "ram_text"], None, 0),
    (["icebox_diff", "-q", "names", "text", "ram_text"], None, 1),
    (["icebox_diff", "names", "text", "events"], None, 1),
    (["icebox_stat", "--all-pins", "--layout", "layout", "database", "stream"], None, 0),
    (["icebox_plan", "--all-pins", "--layout", "layout", "names", "text"], None, 0),
    (["icebox_plan", "-p", "pins", "-d", "tq144", "database", "stream"], None, 0),
    (["icebox_plan", "-p", "events", "-d", "tq144", "database", "text"], None, 1),
    (["icebox_vlog", "--used-inputs", "--all-pins", "--register-clocks", "names", "text"], None, 0),
    (["icebox_vlog", "-p", "pins", "-d", "tq144", "database", "text"], None, 0),
    (["icebox_vlog", "database", "events"], None, 1),
    (["icebox_vlog", "--register-clocks", "cells", "divider"], None, 0),
    (["icebox_vlog", "--register-clocks", "cells", "ring"], None, 1),
    (["icebox_vlog", "cells", "divider"], None, 1),
    (["vlogrun", "-s", "module", "events"], None, 0),
    (["vlogrun", "--vcd", "module", "events"], None, 0),
    (["vlogrun", "module", "text"], None, 1),
    (["vlogrun", "--long", "--changes", "--head", "-s", "module", "long"], None, 0),
    (["vlogrun", "--long", "--vcd", "module", "long"], None, 0),
    (["vlogrun", "--long", "module", "text"], None, 1),
    (["vlogsweep", "module", "events", "events"], None, 0),
    (["vlogsweep", "--long", "--last", "module", "long", "events"], None, 0),
    (["vlogrun", "--vcd", "divided", "events"], None, 0),
    (["vlogsweep", "divided", "events", "events"], None, 0),
    (["icesplit"], None, 2),
    (["icepack", "missing"], None, 3),
)


def make_files(folder):
    """Writes the files of all calls."""
    names = "".join(".net %d\n1 1 a_name_of_a_net_%d\n" % (net, net) for net in range(4, NAMES))
    files = {
        "layout": (TOP / "layouts/silicon.layout").read_text(),
        "database": DATABASE + ".pins tq144\nIN 0 1 0\nOUT 0 2 0\n",
        "names": DATABASE.replace(" 6\n", " %d\n" % NAMES, 1) + names,
        "text": text_of(TILES),
        "cells": TWO_CELLS,
        "divider": text_of(DIVIDER),
        "ring": text_of(RING),
        "pins": "set_io in_pin IN\n",
        "events": "io_0_1_0 1\nio_0_1_0 0\n",
        "long": "repeat 3\nio_0_1_0 ~ 5000\nrepeat 2\nend\nend\n",
        "ram_text": (TOP / "examples/player_1k/player.asc").read_text(),
    }
    for name in ("from", "to"):
        words = random.Random(name)
        files[name] = "".join("%016x\n" % words.getrandbits(64) for _ in range(256))
    for name, content in files.items():
        (folder / name).write_text(content)
    for name, words in (("stream", ["icepack", "text"]), ("boot", ["icemulti", "stream", "stream"]), ("module", ["icebox_vlog", "database", "text"]),
                        ("divided", ["icebox_vlog", "--register-clocks", "cells", "divider"])):
        made = subprocess.run([program(), *words], cwd=folder, check=True, stdout=subprocess.PIPE)
        (folder / name).write_bytes(made.stdout)


def fault_of(words, source, status, folder):
    """What is wrong with a call, or nothing."""
    watched = ["valgrind", "--leak-check=full", "--show-leak-kinds=all", "--log-file=log", program(), *words]
    with open(folder / source if source else "/dev/null", "rb") as stdin:
        ended = subprocess.run(watched, cwd=folder, stdin=stdin, stdout=subprocess.DEVNULL, stderr=subprocess.PIPE)
    if ended.returncode != status:
        return "status %d, and it should be %d: %r" % (ended.returncode, status, ended.stderr[:200])
    log = (folder / "log").read_text()
    return "" if FREED in log and CLEAN in log else "valgrind says:\n%s" % log


def main():
    need("valgrind")
    tally = Tally()
    with tempfile.TemporaryDirectory(prefix="leaks-") as name:
        folder = pathlib.Path(name)
        make_files(folder)
        for words, source, status in CALLS:
            tally.tell(" ".join(words), fault_of(words, source, status, folder))
    return tally.end()


if __name__ == "__main__":
    sys.exit(main())
