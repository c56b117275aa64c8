#!/usr/bin/env python3
"""Refuses each request for memory in turn, one for each run, and looks that each tool ends as it should.

Usage: check/memory.py [TOOL...]     all tools, and icestorm for the program's own help and version, if none is named

Each tool runs over files of the examples with a chip database of a 1k, over small databases and their images, one of which has a register as a
clock, over the databases and images of a carry chain and of a RAM in transcripts/files, over a database whose names fill more than one chunk of
65,536 bytes, and writes its help. A first run counts the requests for memory. Then each of them is refused in a run of its own; of a job with
more than MOST_IN_TURN requests the first ones and every 500th after them. Of each such run is asked:

- the request was refused, and the program ended with exit status 5 and the line 'TOOL: out of memory';
- nothing went to standard output, and the target is as it was.

The first requests are those of the start, which takes the arguments. With one of them refused the program may end with 5 and without a
line. It is told of each job how many runs were silent so. Behind the start such a run has failed.

Last, selfrun is compared with a test that makes the same calls one after another, in crates/icestorm_cli/src/tests/steps.rt: selfrun must
ask for memory as often at least. The tests are crates/icestorm_cli/out/icestorm_cli_tests, which `rt test` makes there, or those of the
environment variable ICESTORM_TESTS. If there are none, this is skipped.

modules/refusing.py tells how requests are counted and refused. The chip databases are those of Debian's package fpga-icestorm-chipdb. The last
line is 'N passed, M failed' or 'N passed, M failed, K skipped'. Status 0: nothing failed; 1: something failed; 127: there is no program, no
database or no compiler.
"""
import os
import pathlib
import subprocess
import sys
import tempfile

from modules.programs import TOP, need
from modules.refusing import Refusing, need_refusing
from modules.small_chip import DATABASE, DIVIDER, TILES, TWO_CELLS, text_of
from modules.tries import BEFORE, make_files, own_words, places, speaker

MOST_IN_TURN, FIRST, STEP = 5000, 200, 500
SELFRUN = ["selfrun", "1k", "7", "10"]
TESTS = os.environ.get("ICESTORM_TESTS", str(TOP / "crates/icestorm_cli/out/icestorm_cli_tests"))
STEPS = "tests::steps::takes_the_steps_of_selfrun"


class Job:
    """The words and the standard input of a job, and how it ends with all memory."""

    def __init__(self, tries, words, source):
        self.words, self.source = words, source
        self.ended, self.requests, _ = tries.run_refusing(0, words, source)

    def numbers(self):
        """The numbers of the requests that are refused."""
        if self.requests <= MOST_IN_TURN:
            return list(range(1, self.requests + 1))
        return list(range(1, FIRST + 1)) + list(range(FIRST + STEP, self.requests + 1, STEP))

    def kind(self, tries, number):
        """How a run ends in which that request is refused: told, silent, or what is wrong with it."""
        ended, _, is_refused = tries.run_refusing(number, self.words, self.source)
        if not is_refused:
            return "nothing was refused"
        if ended.status != 5:
            return "status %s, %s" % (ended.status, ended.said())
        if tries.left() != (b"", BEFORE):
            return "status 5, but something is written"
        line = b"%s: out of memory\n" % speaker(self.words).encode()
        return {line: "told", b"": "silent"}.get(ended.errors, "it says: " + ended.said())


def fault_of(kinds, number):
    """What is wrong with the run of a number, by the kinds of the runs up to it: only the first runs say nothing."""
    kind = kinds[number - 1]
    is_at_start = set(kinds[:number]) == {"silent"}
    return "" if kind == "told" or is_at_start else kind


def try_job(tries, words, source):
    """A job with each of its requests refused in turn."""
    job = Job(tries, words, source)
    name = " ".join(os.path.basename(word) if word.startswith(str(tries.folder)) else word for word in words)
    if source != os.devnull:
        name += " <" + os.path.basename(source)
    if job.ended.status != 0:
        tries.tell(name, "with all memory it ends with %s: %s" % (job.ended.status, job.ended.said()))
        return
    numbers, kinds = job.numbers(), []
    for place, number in enumerate(numbers):
        kinds.append(job.kind(tries, number))
        tries.tell("%s: request %d of %d" % (name, number, job.requests), fault_of(kinds, place + 1), False)
    told = ", ".join("%d %s" % (kinds.count(kind), kind) for kind in ("told", "silent"))
    print("%s: %d requests, %d refused: %s" % (name, job.requests, len(numbers), told), flush=True)


# ---- what is tried

def of_page(name):
    """A database of check/transcripts/files, and the text of its image."""
    files = TOP / "check/transcripts/files"
    words = ["awk", "-f", files / "tiles.awk", files / (name + ".tiles")]
    image = subprocess.run(words, stdout=subprocess.PIPE, text=True, check=True).stdout
    return (files / (name + ".chipdb")).read_text(), image


def many_names():
    """The small database with names after its own that fill more than one chunk."""
    nets = "".join(".net %d\n1 1 %s_%d\n" % (net, "name" * 15, net) for net in range(6, 1506))
    return DATABASE.replace("14 18 6", "14 18 1506").replace(".buffer 1 1", nets + ".buffer 1 1")


def samples():
    """Small databases and the texts of their images, each pair with a name, and with the options of icebox_vlog after it."""
    return (("small", DATABASE, text_of(TILES)), ("names", many_names(), text_of(TILES)), ("carry",) + of_page("carry"),
            ("ram",) + of_page("memory"), ("divider", TWO_CELLS, text_of(DIVIDER), "--register-clocks"))


def of_sample(tries, name, database, image, *options):
    """The jobs over a database and an image: the tools that take both, and runs of the module."""
    paths = [tries.path(name + end) for end in (".txt", ".asc", ".v", ".events")]
    for path, text in zip(paths, (database, image)):
        pathlib.Path(path).write_text(text)
    chip, text, module, events = paths
    tries.run(["icebox_vlog", *options, chip, text])
    pathlib.Path(module).write_bytes(tries.output())
    pathlib.Path(events).write_bytes(b"io_0_1_0 1\nio_0_1_0 0\n")
    over_both = [[tool, chip, text] for tool in ("icebox_explain", "icebox_stat", "icebox_plan")] + [["icebox_vlog", *options, chip, text]]
    over_both.append(["icebox_diff", chip, text, str(TOP / "examples/one_bit.asc")])
    return [(words, os.devnull) for words in over_both + [["vlogrun", module, events], ["vlogsweep", module, events, events]]]


def jobs(tries):
    """The words and the standard input of each job, each once."""
    files = make_files(tries)
    found = [tries.words_of(use, source, name) for use, source, name in places(files)]
    for sample in samples():
        found += of_sample(tries, *sample)
    found += [(["icepack", tries.path("small.asc"), str(tries.target)], os.devnull), (SELFRUN, os.devnull)]
    found += [(words, os.devnull) for words in own_words()]
    return [job for place, job in enumerate(found) if job not in found[:place]]


def compare_steps(tries):
    """The numbers of requests of selfrun and of its calls one after another."""
    _, whole, _ = tries.run_refusing(0, SELFRUN)
    ended, steps, _ = tries.run_refusing(0, [STEPS], instead=TESTS)
    fault = ended.status != 0 and "the test ends with %s: %s" % (ended.status, ended.said())
    tries.tell("%s makes %d requests, and its calls one after another make %d" % (" ".join(SELFRUN), whole, steps),
               fault or (whole < steps and "these are more"))


def main(tools):
    need("chipdb")
    need_refusing()
    with tempfile.TemporaryDirectory() as folder:
        tries = Refusing(folder)
        for words, source in jobs(tries):
            if not tools or speaker(words) in tools:
                try_job(tries, words, source)
        if not tools or "selfrun" in tools:
            compare_steps(tries)
        return tries.end()


if __name__ == "__main__":
    sys.exit(main(sys.argv[1:]))
