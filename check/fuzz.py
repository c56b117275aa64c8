#!/usr/bin/env python3
"""Lets the fuzzer AFL++ look for inputs that a tool doesn't take as it should.

Usage: check/fuzz.py [SECONDS [TOOL...]]     60 seconds for each place of a tool that reads a file, and all tools, if they are missing

The files of the examples, and what the tools make of them, are the seeds: those of a kind for each place that reads that kind. The
fuzzer changes them and runs the tool on each change, without looking inside (`afl-fuzz -n`), since no compiler of the fuzzer can build the
program. modules/fuzz.c, which `cc` compiles, ends a run by a signal where the exit status isn't 0, 1, 2 or 6, where the tool says something
though it is done, and where it is not done and writes to standard output or doesn't say one line. A run that takes longer than 5 seconds
is a fault as well, and so is one that a signal ends.

An input that is found is kept in the folder `found`, below the one that the script is started in. The last line is 'N passed, M failed', of
places. Status 0: nothing was found; 1: something was; 127: there is no program, no database, no fuzzer or no compiler.
"""
import os
import pathlib
import shutil
import subprocess
import sys
import tempfile

from modules.programs import CHIPDB, need
from modules.small_chip import DATABASE, TILES, text_of
from modules.tries import Tries, make_files

# a fuzzer changes small files faster, and more of what they say
MOST_SEED = 70000
DATABASE_LINES = 1500
MILLISECONDS = 5000
# every statement of a text
STATEMENTS = """.comment
a comment
.device 1k
.warmboot enabled
.nosleep disabled
.extra_bit 0 330 143
.sym 0 name
.ram_data 3 1
""" + "0123456789abcdef%048x\n" % 0 * 16
# what a text of an LP384 has
LEAST = """.device 384
.extra_bit 0 180 78
.logic_tile 6 8
""" + "1%053d\n" % 0 * 16 + ".io_tile 0 1\n" + "1%017d\n" % 0 * 16
QUIET = {"AFL_NO_UI": "1", "AFL_SKIP_CPUFREQ": "1", "AFL_NO_AFFINITY": "1", "AFL_I_DONT_CARE_ABOUT_MISSING_CRASHES": "1",
         "AFL_SKIP_BIN_CHECK": "1"}


def kinds(files):
    """The files of each kind, by the ends of their names."""
    ends = {"text": (".asc",), "stream": (".bin",), "boot": (".boot",), "words": (".hex",), "layout": (".layout",), "module": (".v",),
            "events": (".events",), "database": (".database",), "pins": (".pcf",), "names": (".names",)}
    return {kind: [path for name, path in sorted(files.items()) if name.endswith(end)] for kind, end in ends.items()}


def places(files):
    """The words of each place that reads a file, with @@ where the name of the file stands, and the kinds of its seeds."""
    database, text, player, known = (files[name] for name in ("small.database", "lamp.asc", "player.asc", "random.hex"))
    return [
        (["icepack", "@@"], ("text",)),
        (["icepack", "--layout", "@@", text], ("layout",)),
        (["icepack", "-u", "@@"], ("stream",)),
        (["iceunpack", "@@"], ("stream",)),
        (["icemulti", "@@", "@@"], ("stream",)),
        (["icesplit", "@@"], ("boot",)),
        (["icesplit", "-x", "1", "@@"], ("boot",)),
        (["icebram", "@@", known], ("words",)),
        (["icebram", known, "@@"], ("words",)),
        (["icebox_explain", database, "@@"], ("text", "stream")),
        (["icebox_explain", "@@", text], ("database",)),
        (["icebox_diff", database, text, "@@"], ("text", "stream")),
        (["icebox_diff", "@@", text, player], ("database",)),
        (["icebox_stat", database, "@@"], ("text", "stream")),
        (["icebox_stat", "--layout", "@@", database, text], ("layout",)),
        (["icebox_stat", "@@", text], ("database",)),
        (["icebox_plan", "--all-pins", database, "@@"], ("text", "stream")),
        (["icebox_plan", "@@", text], ("database",)),
        (["icebox_plan", "-p", "@@", "-d", "small", files["pinned.database"], files["small.asc"]], ("pins",)),
        (["icebox_vlog", database, "@@"], ("text", "stream")),
        (["icebox_vlog", "@@", text], ("database",)),
        (["icebox_vlog", "-p", "@@", "-d", "small", files["pinned.database"], files["small.asc"]], ("pins",)),
        (["icebox_vlog", "-p", files["small.pcf"], "-d", "small", "@@", files["small.asc"]], ("database",)),
        (["vlogrun", "@@", files["lamp.events"]], ("module",)),
        (["vlogrun", "-s", files["lamp.v"], "@@"], ("events",)),
        (["vlogrun", "--vcd", "--names", "@@", files["lamp.v"], files["lamp.events"]], ("names",)),
        (["vlogsweep", "@@", files["lamp.events"]], ("module",)),
        (["vlogsweep", files["lamp.v"], "@@", files["lamp.events"]], ("events",)),
    ]


def made_seeds():
    """The names and the bytes of seeds that are no files of the examples."""
    yield "small.database", DATABASE.encode()
    yield "pinned.database", (DATABASE + ".pins small\nA1 0 1 0\nA2 0 2 0\n").encode()
    yield "small.pcf", b"# a board\nset_io -pullup yes button A1\nset_io led[0] A2\nset_frequency button 12\n"
    yield "first.database", shortened(CHIPDB / "chipdb-1k.txt")
    yield "small.asc", text_of(TILES).encode()
    yield "statements.asc", STATEMENTS.encode()
    yield "least.asc", LEAST.encode()


def shortened(path):
    """The first lines of a chip database, with its head."""
    with open(path, "rb") as lines:
        return b"".join(line for line, _ in zip(lines, range(DATABASE_LINES)))


def runs_of(folder):
    """How many runs the fuzzer made, by the last line of its records."""
    path = folder / "plot_data"
    lines = [line for line in path.read_text().splitlines() if not line.startswith("#")] if path.exists() else []
    return int(lines[-1].split(",")[11]) if lines else 0


class Fuzz(Tries):
    """Places that a fuzzer tries."""

    def __init__(self, folder, seconds):
        super().__init__(folder)
        self.seconds = seconds
        self.runs = 0
        self.library = self.path("fuzz.so")
        subprocess.run(["cc", "-O2", "-shared", "-fPIC", "-o", self.library, str(pathlib.Path(__file__).parent / "modules/fuzz.c")], check=True)

    def make_seeds(self, number, seeds):
        """A folder with the seeds of a place."""
        folder = self.folder / ("seeds.%d" % number)
        folder.mkdir()
        for path in seeds:
            if 0 < os.path.getsize(path) <= MOST_SEED:
                shutil.copy(path, folder)
        return folder

    def fuzz(self, number, words, seeds):
        """Lets the fuzzer try a place, and tells what it found."""
        made = self.folder / ("made.%d" % number)
        command = ["afl-fuzz", "-n", "-i", str(self.make_seeds(number, seeds)), "-o", str(made), "-V", str(self.seconds), "-m", "none",
                   "-t", str(MILLISECONDS), "--", self.program]
        ran = subprocess.run(command + words, env={**os.environ, **QUIET, "AFL_PRELOAD": self.library}, stdin=subprocess.DEVNULL,
                             capture_output=True, cwd=self.folder)
        runs = runs_of(made)
        name = " ".join(os.path.basename(word) if os.path.isabs(word) else word for word in words)
        fault = self.keep(number, words[0], made) or (runs == 0 and "it makes no runs: " + ran.stdout.decode(errors="replace")[-300:])
        self.runs += runs
        self.tell("%s: %d runs in %d s" % (name, runs, self.seconds), fault)

    def keep(self, number, tool, made):
        """Keeps the inputs that were found, and tells how many these are."""
        found = [path for kind in ("crashes", "hangs") for path in sorted((made / kind).glob("id*"))]
        kept = pathlib.Path("found")
        for place, path in enumerate(found):
            kept.mkdir(exist_ok=True)
            shutil.copy(path, kept / ("%s.%d.%d.%s" % (tool, number, place, path.parent.name)))
        return found and "%d inputs are kept in %s" % (len(found), kept.resolve())


def main(given):
    need("chipdb", "cc", "afl-fuzz")
    with tempfile.TemporaryDirectory() as folder:
        tries = Fuzz(folder, int(given[0]) if given else 60)
        files = make_files(tries)
        tries.run(["icemulti", files["lamp.bin"]])
        for name, content in list(made_seeds()) + [("1.boot", tries.output())]:
            (tries.folder / name).write_bytes(content)
            files[name] = tries.path(name)
        seeds = kinds(files)
        for number, (words, wanted) in enumerate(places(files)):
            if not given[1:] or words[0] in given[1:]:
                tries.fuzz(number, words, [path for kind in wanted for path in seeds[kind]])
        print("%d runs in all" % tries.runs)
        return tries.end()


if __name__ == "__main__":
    sys.exit(main(sys.argv[1:]))
