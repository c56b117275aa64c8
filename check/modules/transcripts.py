"""Transcripts: commands and what they print, in indented blocks of a Markdown file.

    $ printf '.device 5k\\n' >wrong.asc
    $ icestorm icepack wrong.asc
    icepack: line 1: Device
    [1]

A line that begins with '$ ' is a command, and lines that begin with '> ' after it belong to the command, as those of a here-document. The
lines up to the next command or the end of the block are what it prints, on standard output and standard error together. Its exit status
stands last, in brackets, if it isn't 0. If what it prints doesn't end with a line feed, its last line is followed by ' (no line feed)'.

The commands of a file run one after another, in one folder, with /bin/sh and an empty standard input. These comments, each on a line of
its own, say more of them. A reader of the page doesn't see them:

    <!-- check: folder examples/player_1k -->   the commands run in a copy of this folder; 'folder .' has icestorm, README.md, examples and
                                                layouts. Otherwise the folder is empty at the start
    <!-- check: needs yosys chipdb -->          what follows is skipped if this machine lacks one of these programs, or the chip databases;
                                                '<!-- check: needs -->' ends that
    <!-- check: each printf ... | icepack -->   each line of the next block is 'WORDS -> LINE' or 'WORDS -> [STATUS] LINE': the command with
                                                WORDS in place of '...' prints the line and ends with the status, 1 if none is told
"""
import dataclasses
import os
import pathlib
import re
import shutil
import subprocess
import tempfile

from modules.programs import TOP, missing

SECONDS = 120
NOTE = re.compile(r"<!-- check: (\w+) ?(.*?) -->$")
STATUS = re.compile(r"\[(\d+)\]$")
EACH = re.compile(r"(.*?)\s*-> (?:\[(\d+)\] )?(.*)$")
# what a folder like the top of the repository has
TOP_PARTS = "README.md", "examples", "layouts"


@dataclasses.dataclass
class Command:
    """A command with the number of its line, what it must print, line by line, its exit status, and what it needs on the machine."""
    line: int
    text: str
    prints: list
    status: int
    needs: tuple


@dataclasses.dataclass
class Failure:
    """A command that did something else: the lines that it printed, and its exit status, or None if it didn't end in time."""
    command: Command
    printed: list
    status: object

    def told(self, name):
        """The command, what was wanted, and what came."""
        parts = ["%s:%d: $ %s" % (name, self.command.line, self.command.text.replace("\n", "\n  > "))]
        for what, lines, status in (("wanted", self.command.prints, self.command.status), ("came", self.printed, self.status)):
            parts.append("  %s, with %s:" % (what, "no end within %d seconds" % SECONDS if status is None else "status %d" % status))
            parts += ["    " + line for line in lines] or ["    (nothing)"]
        return "\n".join(parts)


def read(text):
    """The commands of a transcript, and the folder that it names, or None."""
    reader = Reader()
    for number, line in enumerate(text.splitlines(), 1):
        reader.take(number, line)
    for command in reader.commands:
        settle(command)
    return reader.commands, reader.folder


class Reader:
    """Reads a file line by line. `each` is the command that the lines of a block are put into, and `in_block` tells whether a command of
    this block was read."""

    def __init__(self):
        self.commands, self.folder, self.needs = [], None, ()
        self.each, self.in_block, self.begun = None, False, False

    def take(self, number, line):
        note = NOTE.match(line)
        if note:
            self.note(*note.groups())
        elif line.startswith("    "):
            self.indented(number, line[4:])
        elif line:
            self.in_block = False
            self.each = None if self.begun else self.each
        elif self.in_block:
            self.commands[-1].prints.append("")

    def note(self, word, rest):
        if word == "folder":
            self.folder = rest
        elif word == "needs":
            self.needs = tuple(rest.split())
        elif word == "each":
            self.each, self.begun = rest, False
        else:
            raise ValueError("there is no note 'check: %s'" % word)

    def indented(self, number, line):
        if self.each:
            self.begun, parts = True, EACH.match(line)
            if not parts:
                raise ValueError("line %d: it isn't 'WORDS -> LINE'" % number)
            words, status, prints = parts.groups()
            self.add(number, self.each.replace("...", words), [prints], int(status or 1))
        elif line.startswith("$ "):
            self.in_block = True
            self.add(number, line[2:], [], None)
        elif self.in_block and (line + " ").startswith("> ") and not self.commands[-1].prints:
            self.commands[-1].text += "\n" + line[2:]
        elif self.in_block:
            self.commands[-1].prints.append(line)

    def add(self, number, text, prints, status):
        self.commands.append(Command(number, text, prints, status, self.needs))


def settle(command):
    """Takes blank lines from the end of what a command prints, and then its status."""
    while command.prints and not command.prints[-1]:
        command.prints.pop()
    if command.status is None:
        told = STATUS.match(command.prints[-1]) if command.prints else None
        command.status = int(told.group(1)) if told else 0
        if told:
            command.prints.pop()


def fill(folder, name):
    """Puts into an empty folder what the transcript's folder has."""
    if name == ".":
        for part in TOP_PARTS:
            os.symlink(TOP / part, folder / part)
        os.symlink(shutil.which("icestorm", path=os.environ["PATH"]), folder / "icestorm")
    elif name:
        shutil.copytree(TOP / name, folder, dirs_exist_ok=True)


def lines_of(printed):
    """What was printed, line by line."""
    *lines, last = printed.decode(errors="backslashreplace").split("\n")
    return [*lines, last + " (no line feed)"] if last else lines


def run_command(command, folder):
    """Runs a command, and tells the failure if it does something else."""
    around = {**os.environ, "HOME": str(folder), "TOP": str(TOP)}
    process = subprocess.Popen(["/bin/sh", "-c", command.text], cwd=folder, env=around, stdin=subprocess.DEVNULL, stdout=subprocess.PIPE,
                               stderr=subprocess.STDOUT, start_new_session=True)
    try:
        printed, status = process.communicate(timeout=SECONDS)[0], process.returncode
    except subprocess.TimeoutExpired:
        os.killpg(process.pid, 9)
        printed, status = process.communicate()[0], None
    lines = lines_of(printed)
    return None if (lines, status) == (command.prints, command.status) else Failure(command, lines, status)


def run(path):
    """Runs a transcript. Gives how many commands passed, the failures, and how many were skipped with what they lack."""
    commands, folder = read(pathlib.Path(path).read_text())
    passed, failures, skipped = 0, [], {}
    with tempfile.TemporaryDirectory(prefix="transcript-") as work:
        fill(pathlib.Path(work), folder)
        for command in commands:
            lacking = " ".join(missing(command.needs))
            if lacking:
                skipped[lacking] = skipped.get(lacking, 0) + 1
                continue
            failure = run_command(command, pathlib.Path(work))
            passed += failure is None
            failures += [failure] if failure else []
    return passed, failures, skipped
