"""What scripts share that run the program many times: a run under limits, a tally of what passed, and the places where tools read a file."""
import os
import pathlib
import re
import resource
import subprocess
import sys
import time

from modules.programs import CHIPDB, TOP, program

MOST_SECONDS = 120
BEFORE = b"what was there before\n"
TOOLS = ("icepack", "iceunpack", "icemulti", "icesplit", "icebram", "icebox_explain", "icebox_diff", "icebox_stat", "icebox_plan", "icebox_vlog",
         "vlogrun", "vlogsweep", "selfrun")


def limited(memory, closed, stack):
    """What is done in the process of a run before the program begins: it has so many bytes of memory and of stack at most, if these are
    numbers, and these streams are closed. A run that takes too long is ended by the system."""
    resource.setrlimit(resource.RLIMIT_CPU, (MOST_SECONDS, MOST_SECONDS))
    resource.setrlimit(resource.RLIMIT_CORE, (0, 0))
    for stream in closed:
        os.close(stream)
    if stack is not None:
        resource.setrlimit(resource.RLIMIT_STACK, (stack, stack))
    if memory is not None:
        resource.setrlimit(resource.RLIMIT_AS, (memory, memory))


class Ended:
    """A run that has ended: its status, which is negative where a signal ended it, its lines on standard error, and the seconds of
    processor time."""

    def __init__(self, status, errors, seconds):
        self.status = status
        self.errors = errors
        self.seconds = seconds

    def said(self):
        """What it said, in one line."""
        return self.errors.decode(errors="replace").strip().replace("\n", " / ")[:200]


class Tally:
    """How many things were looked at, and how these came out."""

    def __init__(self):
        self.passed = self.failed = self.skipped = 0
        self.start = time.perf_counter()

    def tell(self, what, fault, is_shown=True):
        """Counts something that passed, where the fault is empty, or failed. What passed isn't always shown."""
        if fault:
            self.failed += 1
            print("FAILED: %s: %s" % (what, fault), flush=True)
        else:
            self.passed += 1
            if is_shown:
                print("passed: %s" % what, flush=True)

    def skip(self, what, lacking):
        """Counts something that this machine lacks a program for."""
        self.skipped += 1
        print("skipped: %s: there is no %s" % (what, ", no ".join(lacking)), flush=True)

    def end(self):
        """Writes how long it took and the last line, and gives the exit status of the script."""
        print("it took %d s" % (time.perf_counter() - self.start))
        print("%d passed, %d failed%s" % (self.passed, self.failed, ", %d skipped" % self.skipped if self.skipped else ""))
        return 1 if self.failed else 0


class Tries(Tally):
    """What was tried so far, in a folder of its own. A run writes into the files `out` and `said` there."""

    def __init__(self, folder):
        super().__init__()
        self.folder = pathlib.Path(folder)
        self.target = self.folder / "target"
        self.program = str(program())

    def path(self, name):
        return str(self.folder / name)

    def run(self, words, source=os.devnull, output=None, memory=None, closed=(), user=None, stack=None, environment=None, instead=None):
        """Runs the program, or another one `instead`, with these arguments and this file as standard input. Its standard output goes to `out`, or to
        the open stream of that number. The environment has these variables besides. Where the system refuses to start it, the status is
        None."""
        target = open(self.path("out"), "wb") if output is None else output
        stdin = os.open(source, os.O_RDONLY)
        try:
            with open(self.path("said"), "wb") as stderr:
                process = subprocess.Popen([instead or self.program] + words, stdin=stdin, stdout=target, stderr=stderr, user=user, cwd=self.folder,
                                           env={**os.environ, **(environment or {})}, preexec_fn=lambda: limited(memory, closed, stack))
                _, status, usage = os.wait4(process.pid, 0)
                process.returncode = os.waitstatus_to_exitcode(status)
        except (OSError, subprocess.SubprocessError) as error:
            return Ended(None, str(error).encode(), 0)
        finally:
            os.close(stdin)
            if output is None:
                target.close()
        return Ended(process.returncode, (self.folder / "said").read_bytes(), usage.ru_utime + usage.ru_stime)

    def words_of(self, use, source, name):
        """The arguments and the standard input of a place for the file of that name. The target gets what was there before."""
        self.target.write_bytes(BEFORE)
        words = [{"FILE": name, "TARGET": str(self.target)}.get(word, word) for word in use]
        return words, {"FILE": name, None: os.devnull}.get(source, source)

    def output(self):
        """What the last run wrote to the file `out`."""
        return (self.folder / "out").read_bytes()


def make_files(tries):
    """The names of files by their last part: copies of the files of the examples, and what the tools make of them."""
    files = {}

    def put(name, content):
        (tries.folder / name).write_bytes(content)
        files[name] = tries.path(name)

    def made(name, words):
        """What a tool makes. Of some examples icebox_vlog makes nothing, since it refuses them."""
        ended = tries.run(words)
        if ended.status == 0:
            put(name, tries.output())
        elif words[0] != "icebox_vlog" or name == "lamp.v":
            sys.exit("%s is needed, and was refused: %s" % (name, ended.said()))

    sources = [path for path in sorted((TOP / "examples").rglob("*")) if path.is_file()]
    for path in sources + [TOP / "layouts/silicon.layout", CHIPDB / "chipdb-1k.txt"]:
        put(path.name if path.suffix != ".v" else path.stem + ".source", path.read_bytes())
    for name in [name for name in files if name.endswith(".asc")]:
        stem = name.removesuffix(".asc")
        made(stem + ".bin", ["icepack", files[name]])
        made(stem + ".v", ["icebox_vlog", files["chipdb-1k.txt"], files[name]])
        if stem + ".v" in files:
            module = (tries.folder / (stem + ".v")).read_text()
            put(stem + ".events", events_of(module).encode())
            put(stem + ".names", names_of(module).encode())
    streams = [files[name] for name in sorted(files) if name.endswith(".bin")]
    for count in (2, 4):
        made("%d.boot" % count, ["icemulti", "-c", "-a", "16"] + streams[:count])
    return files


def events_of(module):
    """Events for a module: each input rises and falls, many times."""
    inputs = re.findall(r"^  input (\w+);$", module, re.M)
    return "".join("%s 1\n%s 0\n" % (name, name) for name in inputs) * 20


def names_of(module):
    """A list of names for all wires of a module."""
    return "".join("%s net[%d]\n" % (wire, number) for number, wire in enumerate(re.findall(r"^  wire (\w+) ", module, re.M)))


def own_words():
    """The arguments that ask for a text of the program itself."""
    return [["--help"], ["--version"], ["--explain"], ["--explain", "Loop"]] + [[tool, "--help"] for tool in TOOLS]


def speaker(words):
    """The name with which a message begins where these are the arguments."""
    return words[0] if words and words[0] in TOOLS else "icestorm"


def places(files):
    """The places where tools read a file: the arguments with the word FILE where its name stands, what goes to standard input, and a file
    that is taken there. TARGET is a file that is written."""
    text, stream, layout, database, module = (files[name] for name in ("lamp.asc", "lamp.bin", "silicon.layout", "chipdb-1k.txt", "lamp.v"))
    known, others, player, events = (files[name] for name in ("random.hex", "steps.hex", "player.asc", "lamp.events"))
    boot, least_text, least_stream, pins, names = (files[name] for name in ("4.boot", "dimmer.asc", "dimmer.bin", "lamp.pcf", "lamp.names"))
    return [
        (["icepack", "FILE", "TARGET"], None, text),
        (["icepack", "-s"], "FILE", text),
        (["icepack", "--layout", "FILE", text, "TARGET"], None, layout),
        (["icepack", "-u", "--layout", layout, "FILE", "TARGET"], None, stream),
        (["icepack", "-s", "--layout", layout, "FILE", "TARGET"], None, least_text),
        (["iceunpack", "FILE", "TARGET"], None, stream),
        (["iceunpack"], "FILE", stream),
        (["iceunpack", "--layout", layout, "FILE"], None, least_stream),
        (["iceunpack", "--layout", "FILE", stream, "TARGET"], None, layout),
        (["icemulti", "-o", "TARGET", "FILE", stream, "FILE"], None, stream),
        (["icemulti", "-A", "16", "FILE"], None, stream),
        (["icemulti", "-c", stream, "FILE"], None, least_stream),
        (["icesplit", "FILE"], None, boot),
        (["icesplit", "-x", "1", "FILE", "TARGET"], None, boot),
        (["icebram", "FILE", others], player, known),
        (["icebram", known, "FILE"], player, others),
        (["icebram", known, others], "FILE", player),
        (["icebram", "--by-mode", known, others], "FILE", least_text),
        (["icebox_explain", "FILE", text], None, database),
        (["icebox_explain", database, "FILE"], None, text),
        (["icebox_explain", "-t", "1 1", database], "FILE", stream),
        (["icebox_explain", "--layout", "FILE", database, stream], None, layout),
        (["icebox_diff", "FILE", text, player], None, database),
        (["icebox_diff", database, "FILE", player], None, text),
        (["icebox_diff", database, player, "FILE"], None, stream),
        (["icebox_diff", "--layout", "FILE", database, text, player], None, layout),
        (["icebox_stat", "FILE", text], None, database),
        (["icebox_stat", database, "FILE"], None, text),
        (["icebox_stat", "--layout", "FILE", database, text], None, layout),
        (["icebox_plan", "FILE", text], None, database),
        (["icebox_plan", "--all-pins", database, "FILE"], None, stream),
        (["icebox_plan", "--layout", "FILE", database, text], None, layout),
        (["icebox_plan", "-p", "FILE", "-d", "tq144", database, text], None, pins),
        (["icebox_plan", "-p", pins, "-d", "tq144", database], "FILE", text),
        (["icebox_vlog", "FILE", text], None, database),
        (["icebox_vlog", "-n", "name", database, "FILE"], None, text),
        (["icebox_vlog", "--all-pins", "--register-clocks", database, "FILE"], None, stream),
        (["icebox_vlog", "--layout", "FILE", database, text], None, layout),
        (["icebox_vlog", "-p", "FILE", "-d", "tq144", database, text], None, pins),
        (["icebox_vlog", "-p", pins, "-d", "tq144", "FILE", text], None, database),
        (["icebox_vlog", "--names", "TARGET", database, "FILE"], None, text),
        (["vlogrun", "FILE", events], None, module),
        (["vlogrun", "-s", module, "FILE"], None, events),
        (["vlogrun", "-s", "FILE"], events, module),
        (["vlogrun", "--vcd", "FILE"], events, module),
        (["vlogrun", "--vcd", "--names", "FILE", module], events, names),
        (["vlogsweep", "FILE", events, events], None, module),
        (["vlogsweep", module, "FILE"], None, events),
        (["vlogsweep", module, events, "FILE", "FILE"], None, events),
    ]
