#!/usr/bin/env python3
"""Runs each tool where the system refuses something, and looks that it tells so and leaves no part of a file.

Usage: check/refusals.py [--short]

For each place where a tool reads a file, as tries.py lists them:

- the file is missing, is a folder, or mustn't be read: status 3. As standard input it is a folder, or is closed: status 3;
- the target is a folder, is in a folder that is missing, is a full device, or mustn't be written: status 4, and it is as it was;
- standard output is a full device, is closed, or is a pipe whose reader is gone: status 4. So it is with the help of each tool, and with the
  program's own help and version;
- a standard stream is closed, so that the next file that is opened takes its number: what goes to the target is what goes there
  otherwise, and no message;
- the target is the file that is read: it has what another target would have;
- memory is limited, in steps from what the run needs to nothing: status 0, and all is written as without a limit; status 5, and nothing is
  written; or, below the limit under which the program begins at all, the system's own refusal, and nothing is written.

Files mustn't be read or written by the user nobody, as which the program runs there where root runs this script. streams.sh has named
pipes, and files of the length of a limit; transcripts/program.md has each exit status. With --short memory is limited at one place of each
tool, in few steps.

The last line is 'N passed, M failed'. Status 0: all passed; 1: something failed; 2: the arguments aren't taken; 127: there is no program or
no database.
"""
import os
import shutil
import sys
import tempfile

from modules.programs import need
from modules.tries import BEFORE, Tries, make_files, own_words, places, speaker

KIB = 1 << 10
# into how many steps the memory is cut that a run needs beside what the program needs to begin, and that: whole, and with --short
STEPS, STEPS_SHORT = (40, 8), (6, 2)
MOST_MEMORY = 1 << 30
NOBODY = 65534


class Refusals(Tries):
    """Runs where something is refused, of a copy of the program that each user may run."""

    def __init__(self, folder, is_short):
        super().__init__(folder)
        self.is_short = is_short
        self.program = shutil.copy(self.program, self.path("program"))
        os.chmod(folder, 0o755)
        os.chmod(self.program, 0o755)

    def fault(self, ended, status, line):
        """What is wrong with a run that must end with this status and say this line, or say nothing where there is none, and write nothing
        to `out`."""
        if ended.status != status or ended.errors.decode(errors="replace") != (line + "\n" if line else ""):
            return "status %s, and it says '%s'; it should be %d, and '%s'" % (ended.status, ended.said(), status, line)
        return "it writes to standard output" if status != 0 and self.output() else ""

    def try_run(self, what, words, source, status, line, **limits):
        """A run that must end in this way."""
        self.tell(what, self.fault(self.run(words, source, **limits), status, line), False)

    def user(self):
        """As whom a run is where a file mustn't be read or written: as this user, whom the file's mode stops, unless that is root."""
        return NOBODY if os.geteuid() == 0 else None


def name_of(use):
    """How a place is told."""
    return " ".join(os.path.basename(word) for word in use)


def has_output(use):
    """Whether a place writes standard output. A list of names is written beside it."""
    return "TARGET" not in use or "--names" in use


def put(path, content, mode=0o644):
    """Writes a file with this mode."""
    path.unlink(missing_ok=True)
    path.write_bytes(content)
    path.chmod(mode)


# ---- files

def try_inputs(tries, uses):
    """Files that can't be read."""
    put(tries.folder / "locked", BEFORE, 0o000)
    for use, source, _ in uses:
        tool = use[0]
        if source == "FILE":
            for what, given, closed in (("a folder", "folder", ()), ("closed", os.devnull, (0,))):
                tries.try_run("%s: standard input is %s" % (name_of(use), what), use, tries.path(given), 3,
                              "%s: read failed: standard input" % tool, closed=closed)
            continue
        for what in ("missing", "folder", "locked"):
            words, stdin = tries.words_of(use, source, what)
            user = tries.user() if what == "locked" else None
            if user is not None:
                tries.target.chmod(0o666)
            tries.try_run("%s: FILE is %s" % (name_of(use), what), words, stdin, 3, "%s: read failed: %s" % (tool, what), user=user)
            tries.tell("%s: FILE is %s, the target" % (name_of(use), what), tries.target.read_bytes() != BEFORE and "it is changed", False)


def try_targets(tries, uses):
    """Targets that can't be written."""
    put(tries.folder / "fixed", BEFORE, 0o444)
    for use, source, name in uses:
        if "TARGET" not in use:
            continue
        for target in ("folder", "missing/out", "fixed", "/dev/full"):
            words = [{"FILE": name, "TARGET": target}.get(word, word) for word in use]
            user = tries.user() if target == "fixed" else None
            tries.try_run("%s: TARGET is %s" % (name_of(use), target), words, os.devnull, 4, "%s: write failed: %s" % (use[0], target), user=user)
        tries.tell("%s: the target that mustn't be written" % name_of(use), (tries.folder / "fixed").read_bytes() != BEFORE and "it is changed", False)
        try_own_input(tries, use, source, name)


def try_own_input(tries, use, source, name):
    """The file that is read as the target."""
    words, stdin = tries.words_of(use, source, name)
    tries.run(words, stdin)
    wanted = tries.target.read_bytes()
    both = tries.folder / "both"
    shutil.copy(name, both)
    words = [{"FILE": "both", "TARGET": "both"}.get(word, word) for word in use]
    fault = tries.fault(tries.run(words, stdin), 0, "")
    tries.tell("%s: FILE is TARGET" % name_of(use), fault or (both.read_bytes() != wanted and "another file is written"), False)


# ---- streams

def without_reader():
    """A stream to a pipe whose reader is gone."""
    reader, writer = os.pipe()
    os.close(reader)
    return writer


def try_streams(tries, what, words, stdin):
    """A run with each standard output that can't be written."""
    streams = (("full", lambda: os.open("/dev/full", os.O_WRONLY), ()), ("closed", lambda: os.open(os.devnull, os.O_WRONLY), (1,)),
               ("a pipe without a reader", without_reader, ()))
    for kind, opened, closed in streams:
        put(tries.folder / "out", b"")
        stream = opened()
        tries.try_run("%s: standard output is %s" % (what, kind), words, stdin, 4, "%s: write failed: standard output" % speaker(words),
                      output=stream, closed=closed)
        os.close(stream)


def try_outputs(tries, uses):
    """Standard outputs that can't be written."""
    for use, source, name in uses:
        if has_output(use):
            try_streams(tries, name_of(use), *tries.words_of(use, source, name))
    for words in own_words():
        try_streams(tries, " ".join(words), words, os.devnull)


def try_closed(tries, uses):
    """Closed streams, whose numbers the files take that are opened next."""
    for use, source, name in uses:
        words, stdin = tries.words_of(use, source, name)
        tries.run(words, stdin)
        wanted = tries.output(), tries.target.read_bytes()
        for closed in ((2,), (0,), (0, 2), (1,), (0, 1, 2)):
            if (0 in closed and stdin != os.devnull) or (1 in closed and has_output(use)):
                continue
            tries.words_of(use, source, name)
            ended = tries.run(words, stdin, closed=closed)
            fault = tries.fault(ended, 0, "") or ((tries.output(), tries.target.read_bytes()) != wanted and "another file is written")
            tries.tell("%s: closed %s" % (name_of(use), closed), fault, False)
            if source != "FILE":
                ended = tries.run(tries.words_of(use, source, "missing")[0], stdin, closed=closed)
                fault = ended.status != 3 and "status %s, and it should be 3" % ended.status
                fault = fault or ((tries.output(), tries.target.read_bytes()) != (b"", BEFORE) and "something is written")
                tries.tell("%s: closed %s, and FILE is missing" % (name_of(use), closed), fault, False)


# ---- memory

def least_memory(tries, words, stdin):
    """The least memory, to 64 KiB, with which a run ends with 0, or nothing where there is none."""
    too_little, enough = 0, MOST_MEMORY
    if tries.run(words, stdin, memory=enough).status != 0:
        return None
    while enough - too_little > 64 * KIB:
        middle = (too_little + enough) // 2
        if tries.run(words, stdin, memory=middle).status == 0:
            enough = middle
        else:
            too_little = middle
    return enough


def fault_of_memory(tries, ended, tool, wanted, is_begun):
    """What is wrong with a run that has little memory."""
    written = tries.output(), tries.target.read_bytes()
    if ended.status == 0:
        return "it is done, but says: " + ended.said() if ended.errors else written != wanted and "another file is written"
    if written != (b"", BEFORE):
        return "status %s, but something is written" % ended.status
    if ended.status == 5:
        return ended.errors not in (b"", b"%s: out of memory\n" % tool.encode()) and "it says: " + ended.said()
    return is_begun and "status %s, and it says: %s" % (ended.status, ended.said())


def steps(needed, begins, counts):
    """Limits from what a run needs to that under which the program begins, and from there to nothing."""
    count, below = counts
    above = [begins + (needed - begins) * step // count for step in range(count, -1, -1)]
    return above + [begins * step // below for step in range(below - 1, -1, -1)]


def try_steps(tries, use, source, name, begins):
    """A run with ever less memory."""
    words, stdin = tries.words_of(use, source, name)
    tries.run(words, stdin)
    wanted = tries.output(), tries.target.read_bytes()
    needed = least_memory(tries, words, stdin)
    if needed is None:
        tries.tell("%s: memory" % name_of(use), "it doesn't end with 0")
        return
    statuses = {}
    for memory in steps(needed, begins, STEPS_SHORT if tries.is_short else STEPS):
        tries.words_of(use, source, name)
        put(tries.folder / "out", b"")
        ended = tries.run(words, stdin, memory=memory)
        statuses[ended.status] = statuses.get(ended.status, 0) + 1
        tries.tell("%s: %d KiB of memory" % (name_of(use), memory // KIB),
                   fault_of_memory(tries, ended, speaker(words), wanted, memory >= begins), False)
    ends = ", ".join("%d with status %s" % (count, status) for status, count in statuses.items())
    print("%s: needs %d KiB; with ever less: %s" % (name_of(use), needed // KIB, ends), flush=True)


def try_memory(tries, uses):
    """Runs with ever less memory."""
    begins = least_memory(tries, ["--version"], os.devnull)
    print("the program begins with %d KiB" % (begins // KIB))
    if tries.is_short:
        uses = {use[0]: (use, source, name) for use, source, name in uses}.values()
    for use, source, name in uses:
        try_steps(tries, use, source, name, begins)


def main(given):
    if given not in ([], ["--short"]):
        print(__doc__, file=sys.stderr)
        return 2
    need("chipdb")
    with tempfile.TemporaryDirectory() as folder:
        tries = Refusals(folder, bool(given))
        uses = places(make_files(tries))
        (tries.folder / "folder").mkdir()
        for part in (try_inputs, try_targets, try_outputs, try_closed):
            part(tries, uses)
            print("%s: %d passed, %d failed so far" % (part.__doc__.strip().rstrip("."), tries.passed, tries.failed), flush=True)
        try_memory(tries, uses + [(words, None, "") for words in own_words() + [["selfrun", "1k", "7", "10"]]])
        return tries.end()


if __name__ == "__main__":
    sys.exit(main(sys.argv[1:]))
