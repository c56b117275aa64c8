#!/usr/bin/env python3
"""Shows that each tool reads each of its files once, in the stated order, whole, and from the front.

Usage: check/once.py

Every file of a call is a named pipe, and one writer fills them one after another, in the order in which the tool is to read them. A tool
that opened a pipe twice, or in another order, would wait for ever. Each call must end with 0 and write what it writes of plain files. The
files are longer than the 65,536 bytes that a tool takes at once, where their format allows that.

The last line is 'N passed, M failed'. Status 0: all passed; 1: something failed; 127: there is no program.
"""
import multiprocessing
import os
import pathlib
import random
import signal
import subprocess
import sys
import tempfile

from modules.programs import TOP, program
from modules.small_chip import DATABASE, TILES, text_of
from modules.tries import Tally

MOST_SECONDS = 30
LONG = 70_000
PACKAGE = ".pins tq144\nIN 0 1 0\nOUT 0 2 0\n"


def made_files(folder):
    """The files of all calls by their names, as bytes."""
    files = {
        "layout": (TOP / "layouts/silicon.layout").read_bytes(),
        "database": (DATABASE + PACKAGE + "\n" * LONG).encode(),
        "text": (".comment\n" + ("a remark\n" * (LONG // 9)) + text_of(TILES)).encode(),
        "pins": b"set_io in_pin IN\nset_io out_pin OUT\n" + b"# a remark\n" * (LONG // 11),
        "events": b"io_0_1_0 1\nio_0_1_0 0\n" * (LONG // 22),
        "long": b"io_0_1_0 ~ 2\n" * (LONG // 13),
        "others": b"io_0_1_0 1\nio_0_1_0 0\n" * 1000,
        "more": b"io_0_1_0 0\nio_0_1_0 1\n" * 2000,
        "ram_text": (TOP / "examples/player_1k/player.asc").read_bytes(),
    }
    for name in ("from", "to"):
        words = random.Random(name)
        files[name] = "".join("%016x\n" % words.getrandbits(64) for _ in range(LONG // 17 // 256 * 256)).encode()
    made = {"stream": ["icepack", "text"], "ram_stream": ["icepack", "ram_text"], "boot": ["icemulti", "stream", "ram_stream"],
            "module": ["icebox_vlog", "database", "text"]}
    for name, words in made.items():
        for word in words[1:]:
            (folder / word).write_bytes(files[word])
        files[name] = subprocess.run([program(), *words], cwd=folder, check=True, stdout=subprocess.PIPE).stdout
    for name, content in files.items():
        (folder / name).write_bytes(content)
    return files


# the arguments of each call, and its files in the order in which they are read; the last one is standard input where no argument names it
CALLS = (
    (["icepack", "--layout", "layout", "text"], ["layout", "text"]),
    (["icepack", "--layout", "layout"], ["layout", "text"]),
    (["iceunpack", "--layout", "layout", "stream"], ["layout", "stream"]),
    (["icemulti", "stream", "ram_stream"], ["stream", "ram_stream"]),
    (["icesplit", "boot"], ["boot"]),
    (["icebram", "from", "to"], ["from", "to", "ram_text"]),
    (["icebram", "--by-mode", "from", "to"], ["from", "to", "ram_text"]),
    (["icebox_explain", "--layout", "layout", "database", "text"], ["layout", "database", "text"]),
    (["icebox_diff", "--layout", "layout", "database", "text", "stream"], ["layout", "database", "text", "stream"]),
    (["icebox_stat", "--layout", "layout", "database", "stream"], ["layout", "database", "stream"]),
    (["icebox_plan", "--layout", "layout", "database", "text"], ["layout", "database", "text"]),
    (["icebox_plan", "-p", "pins", "-d", "tq144", "--layout", "layout", "database"], ["layout", "pins", "database", "text"]),
    (["icebox_vlog", "--layout", "layout", "database", "text"], ["layout", "database", "text"]),
    (["icebox_vlog", "-p", "pins", "-d", "tq144", "--layout", "layout", "database"], ["layout", "pins", "database", "text"]),
    (["vlogrun", "-s", "module", "events"], ["module", "events"]),
    (["vlogrun", "--vcd", "module"], ["module", "events"]),
    (["vlogrun", "--long", "--changes", "module"], ["module", "long"]),
    (["vlogsweep", "module", "others", "more"], ["module", "others", "more"]),
)


def fill(pipes):
    """Writes each pipe's bytes, one pipe after another. Opening one waits until it is read."""
    for path, content in pipes:
        with open(path, "wb") as pipe:
            pipe.write(content)


def run(words, source, folder):
    """The status of a run and what it wrote, or None if it didn't end. `cat` gives it standard input, which may be a pipe that is filled
    only after the other files were read."""
    shell = ["sh", "-c", 'cat "$0" | exec "$@"', source, program(), *words]
    process = subprocess.Popen(shell, cwd=folder, stdout=subprocess.PIPE, stderr=subprocess.PIPE, start_new_session=True)
    try:
        output, said = process.communicate(timeout=MOST_SECONDS)
    except subprocess.TimeoutExpired:
        os.killpg(process.pid, signal.SIGKILL)
        process.communicate()
        return None
    return process.returncode, output, said


def fault_of(words, order, folder, files):
    """What is wrong with a call that reads pipes in this order, or nothing."""
    named = order[-1] in words
    plain = run(words, os.devnull if named else folder / order[-1], folder)
    if plain is None or plain[0] != 0:
        return "over plain files it came to %s" % (plain,)
    with tempfile.TemporaryDirectory(prefix="once-") as name:
        pipes = pathlib.Path(name)
        for file in order:
            os.mkfifo(pipes / file)
        writer = multiprocessing.Process(target=fill, args=([(pipes / file, files[file]) for file in order],))
        writer.start()
        came = run(words, os.devnull if named else pipes / order[-1], pipes)
        writer.join(MOST_SECONDS if came else 0)
        waits = writer.is_alive()
        writer.kill()
    if came is None:
        return "it waits for a pipe that nobody fills, or fills later"
    if came != plain:
        return "over pipes it came to status %d and said %r" % (came[0], came[2][:200])
    return "a file wasn't read" if waits else ""


def main():
    program()
    tally = Tally()
    with tempfile.TemporaryDirectory(prefix="once-") as name:
        folder = pathlib.Path(name)
        files = made_files(folder)
        for words, order in CALLS:
            tally.tell(" ".join(words), fault_of(words, order, folder, files))
    return tally.end()


if __name__ == "__main__":
    sys.exit(main())
