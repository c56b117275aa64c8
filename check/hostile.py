#!/usr/bin/env python3
"""Gives each tool broken files and files that are made to be slow, and looks that it refuses them as it should.

Usage: check/hostile.py [--short] [SEED [ROUNDS]]     the seed 1 and one round if they are missing

First, each file of the examples, their bitstreams, boot files, modules and events, the layout file and the chip database of a 1k are
taken whole, truncated, with bits turned, with a part doubled, and spliced with another of these files, as the seed and the round say.
Each such file goes through each tool in each place where the tool reads a file, selfrun gets odd arguments, and odd words stand where a
tool's name should. Of each run is asked:

- it ends by itself, with an exit status from 0 to 6, and neither 3, 4 nor 5, since there is nothing that can't be read or written and no
  lack of memory;
- with 0 it says nothing, and with any other status one line that begins with the tool's name;
- with any other status than 0 nothing went to standard output, and the target is as it was;
- it takes no more memory and processor time than MEMORY and TIME below allow for the bytes of its inputs. They are a few times what
  docs/BENCHMARKS.md has of the worst inputs there.

Then inputs of one form grow to four times their length, a form for each list that a tool keeps. The processor time must not grow to more
than GROWTH times.

With --short each broken file goes through a few places alone, and each input that grows goes once through its tool, at four times its
length: it must keep to MEMORY and TIME.

Only what failed is told, and a line for each part. The chip databases are those of Debian's package fpga-icestorm-chipdb. The last line is
'N passed, M failed'. Status 0: all passed; 1: something failed; 2: the arguments aren't taken; 127: there is no program or no database.
"""
import functools
import os
import random
import re
import sys
import tempfile

from modules.programs import need
from modules.tries import BEFORE, TOOLS, Tries, make_files, places

MIB = 1 << 20
# bytes of memory: at the start, and for each byte of a chip database, each of whose buffers an image may set, and of any other input
MEMORY = 32 * MIB, 24, 48
# seconds of processor time: at the start, and for each byte of all inputs
TIME = 0.25, 500e-9
# how much longer four times the input may take, beside some seconds that don't count
GROWTH, UNCOUNTED = 6, 0.05
KINDS = "whole", "truncated", "turned", "turned often", "doubled", "doubled in part", "spliced", "cut out"
# to how many places a broken file goes, and how many odd arguments and names there are, as against the whole of them with --short
SHORT_PLACES, SHORT_PART = 2, 10


# ---- broken files

def broken(kind, draws, given, other):
    """A file's bytes, broken in a way, with the bytes of another file to splice with."""
    first, second = sorted(draws.randrange(len(given) + 1) for _ in range(2))
    if kind == "truncated":
        return given[:first]
    if kind in ("turned", "turned often"):
        count = 1 if kind == "turned" else 1 + len(given) // 1000
        return turned(draws, given, count)
    if kind == "doubled":
        return given + given
    if kind == "doubled in part":
        return given[:second] + given[first:]
    if kind == "spliced":
        return given[:first] + other[draws.randrange(len(other) + 1):]
    if kind == "cut out":
        return given[:first] + given[second:]
    return given


def turned(draws, given, count):
    """The bytes with so many bits turned."""
    changed = bytearray(given)
    for _ in range(count if given else 0):
        changed[draws.randrange(len(changed))] ^= 1 << draws.randrange(8)
    return bytes(changed)


# ---- runs of a tool

def bound_of(names):
    """The bytes of memory and the seconds that a run over these files may take."""
    at_start, of_database, of_other = MEMORY
    sizes = [(os.path.getsize(name), os.path.basename(name).startswith("chipdb")) for name in names]
    memory = at_start + sum(size * (of_database if is_database else of_other) for size, is_database in sizes)
    return memory, TIME[0] + TIME[1] * sum(size for size, _ in sizes)


def fault_of_line(ended, tool):
    """What is wrong with a status and what was said."""
    if ended.status not in (0, 1, 2, 6):
        return "status %d, %s" % (ended.status, ended.said())
    if ended.status == 0:
        return ended.errors and "done, but it says: " + ended.said()
    is_line = re.fullmatch(rb"%s: [\x20-\x7e]+\n" % tool.encode(), ended.errors)
    return "" if is_line else "status %d, and it says: %s" % (ended.status, ended.said())


class Hostile(Tries):
    """Runs over hostile files."""

    def __init__(self, folder, is_short):
        super().__init__(folder)
        self.is_short = is_short
        self.statuses = {}

    def run_use(self, use, source, name):
        """A run of a tool with the file of that name in the place FILE, and the seconds that it may take."""
        words, source = self.words_of(use, source, name)
        inputs = [word for word in words[1:] + [source] if word != str(self.target) and os.path.isfile(word)]
        memory, seconds = bound_of(inputs)
        ended = self.run(words, source, memory=memory)
        self.statuses[ended.status] = self.statuses.get(ended.status, 0) + 1
        return ended, seconds

    def try_use(self, what, use, source, name):
        """Runs a tool with the file of that name in the place FILE, and looks how it ends. Of a run that takes too long, the least time of
        three counts: other programs on the machine cost processor time too."""
        ended, seconds = self.run_use(use, source, name)
        if ended.seconds > seconds:
            again = [self.run_use(use, source, name)[0] for _ in range(2)]
            ended = min(again + [ended], key=lambda run: run.seconds)
        self.tell(what, self.fault(ended, use[0], "TARGET" in use, seconds), False)

    def fault(self, ended, tool, has_target, seconds):
        """What is wrong with a run, or nothing."""
        fault = fault_of_line(ended, tool)
        if fault:
            return fault
        if ended.status != 0 and os.path.getsize(self.path("out")) > 0:
            return "status %d, but it writes to standard output" % ended.status
        if (self.target.read_bytes() != BEFORE) != (ended.status == 0 and has_target):
            return "status %d, but the target is %s" % (ended.status, "as it was" if ended.status == 0 else "changed")
        return ended.seconds > seconds and "%.3f s, and it should be at most %.3f s" % (ended.seconds, seconds)

    def close_part(self, name):
        """Tells how many runs a part had, by exit status."""
        print("%s: %s" % (name, ", ".join("%d with status %d" % (count, status) for status, count in sorted(self.statuses.items()))), flush=True)
        self.statuses = {}


# ---- parts

def try_broken(tries, files, seed):
    """Takes each file, broken in each way, through all tools."""
    uses = [(words, source) for words, source, _ in places(files)]
    names = sorted(files)
    for name in names:
        given = (tries.folder / name).read_bytes()
        for kind in KINDS:
            draws = random.Random("%s %s %s" % (seed, name, kind))
            other = (tries.folder / draws.choice(names)).read_bytes()
            # the name tells bound_of which input is a database
            hostile = tries.folder / ("chipdb.hostile" if name.startswith("chipdb") else "hostile")
            hostile.write_bytes(broken(kind, draws, given, other))
            for use, source in uses_for(name, uses, draws, tries.is_short):
                tries.try_use("%s, %s, seed %s: %s" % (name, kind, seed, " ".join(use)), use, source, str(hostile))
        tries.close_part(name)


def uses_for(name, uses, draws, is_short):
    """The places that a file is taken to: all, or of a chip database, which is long, where it belongs and a few others."""
    if is_short:
        return draws.sample(uses, SHORT_PLACES)
    if not name.startswith("chipdb"):
        return uses
    own = [use for use in uses if use[0][0].startswith("icebox_") and use[0][1] == "FILE"]
    return own + draws.sample(uses, 3)


def try_arguments(tries, seed):
    """Gives selfrun odd arguments. The numbers of events that it takes are small."""
    draws = random.Random("%s arguments" % seed)
    odd = ["", " ", "-", "--", "0", "1", "00", "01", "7", "-1", "+1", "1k", "8k", "8K", "1k ", "18446744073709551615", "18446744073709551616", "9" * 20,
           "9" * 21, "100001", "1e3", "0x10", "1.0", "\u0661", "a" * 100000, "--help", "-h", "\x01", "1\n"]
    for _ in range(200 // (SHORT_PART if tries.is_short else 1)):
        words = [draws.choice(odd) for _ in range(draws.choice((0, 1, 2, 3, 3, 3, 3, 3, 4)))]
        if len(words) == 3 and draws.randrange(2):
            words[0] = draws.choice(("1k", "8k"))
        what = "selfrun %s" % " ".join(word[:30] for word in words)
        tries.target.write_bytes(BEFORE)
        ended = tries.run(["selfrun"] + words, memory=128 * MIB)
        tries.statuses[ended.status] = tries.statuses.get(ended.status, 0) + 1
        tries.tell(what, tries.fault(ended, "selfrun", False, 5), False)
    tries.close_part("selfrun")


def own_answer(words):
    """The status, and what goes to standard error, for words of which the first is no tool's name and none is a cause."""
    if words in (["--help"], ["--version"], ["--explain"]):
        return 0, b""
    if len(words) == 2 and words[0] == "--explain":
        return 1, b"icestorm: no message has this cause: icestorm --explain lists all\n"
    return 2, b"icestorm: usage: TOOL ...\n"


def try_names(tries, seed):
    """Gives the program words that are no tool's name. It writes a text where it is asked for its help, its version or the causes alone. None of
    the words is a cause."""
    draws = random.Random("%s names" % seed)
    odd = ["", " ", "-", "--", "--help", "--version", "--explain", "-h", "-V", "help", "TOOL", "icestorm", "Icepack", "icepack ", "icepack\n",
           "vlogrun.v", "--help=1", "\u0661", "\x01", "a" * 100000]
    for _ in range(100 // (SHORT_PART if tries.is_short else 1)):
        words = [draws.choice(odd)] + draws.choices(odd + list(TOOLS), k=draws.choice((0, 0, 0, 1, 2)))
        ended = tries.run(words, memory=64 * MIB)
        tries.statuses[ended.status] = tries.statuses.get(ended.status, 0) + 1
        wanted = own_answer(words)
        fault = (ended.status, ended.errors) != wanted and "status %s, and it says: %s" % (ended.status, ended.said())
        fault = fault or (bool(tries.output()) != (wanted[0] == 0) and "it writes what it shouldn't")
        tries.tell("icestorm %s" % " ".join(word[:30] for word in words), fault, False)
    tries.close_part("icestorm")


# ---- inputs that grow

def module(ports, items):
    """A module with so many of a kind of item."""
    return "module m (a, b%s);\n  input a;\n  output b;\n%s  assign b = a;\n%sendmodule\n" % (
        "".join(", " + name for name in ports), items[0], items[1])


def modules(count):
    """Modules that are long in one thing each, or in two together."""
    numbers = range(count)
    names = ["p_%d" % k for k in numbers]
    yield "inputs", module(names, ("".join("  input %s;\n" % name for name in names), ""))
    yield "wires", module([], ("".join("  wire n_%d = a;\n" % k for k in numbers), ""))
    yield "a chain of wires", module([], ("".join("  wire n_%d = %s;\n" % (k, "n_%d" % (k - 1) if k else "a") for k in numbers), ""))
    yield "registers", module([], ("".join("  reg r_%d = 1'b0;\n" % k for k in numbers), "".join(
        "  always @(posedge a) if (1'b1) begin if (1'b0) r_%d <= 1'b0; else r_%d <= 16'h5555 >> {1'b0, 1'b0, 1'b0, r_%d}; end\n"
        % (k, k, k) for k in numbers)))
    yield "inputs with a register each", module(names, (
        "".join("  input %s;\n" % name for name in names) + "".join("  reg r_%d = 1'b0;\n" % k for k in numbers),
        "".join("  always @(posedge p_%d) if (1'b1) begin if (1'b0) r_%d <= 1'b0; else r_%d <= 16'h5555 >> {1'b0, 1'b0, 1'b0, r_%d}; end\n"
                % (k, k, k, k) for k in numbers)))
    yield "memories", module([], ("".join("  reg [15:0] m_%d [0:255];\n" % k for k in numbers[:count // 100]), "".join(
        "  initial m_%d[%d] = 16'h0001;\n" % (k // 100, k % 100) for k in numbers[:count // 100 * 100])))
    yield "a long name", module([], ("  wire %s = a;\n" % ("n" * 20 * count), ""))
    yield "names with one beginning", module([], ("".join("  wire %s%d = a;\n" % ("n" * 60, k) for k in numbers), ""))
    yield "a name declared twice, at the end", module([], ("".join("  wire n_%d = a;\n" % k for k in numbers) + "  wire n_0 = a;\n", ""))
    yield "blanks", module([], (" \t\n" * 10 * count, ""))


def databases(count):
    """Chip databases that are long in one thing each, or in two together."""
    numbers = range(count)
    head = ".device 1k 14 18 %d\n.logic_tile 1 1\n" % (count + 2)
    yield "names of one net", head + ".net 0\n" + "".join("1 1 name_%d\n" % k for k in numbers)
    yield "nets with a name", head + "".join(".net %d\n1 1 name\n" % k for k in numbers)
    yield "one name many times", head + ".net 0\n" + "1 1 name\n" * count
    yield "lines of one buffer", head + ".buffer 1 1 0 B0[0] B0[1]\n" + "".join("01 %d\n" % (k + 1) for k in numbers)
    yield "equal lines of one buffer", head + ".buffer 1 1 0 B0[0] B0[1]\n" + "01 1\n" * count
    yield "buffers", head + "".join(".buffer 1 1 %d B0[0]\n1 %d\n" % (k, k + 1) for k in numbers)
    yield "routings", head + "".join(".routing 1 1 %d B0[0]\n1 %d\n" % (k, k + 1) for k in numbers)
    yield "nets with a name and a link each", head + "".join(".net %d\n1 1 name_%d\n.buffer 1 1 %d B0[0]\n1 %d\n" % (k, k, k, k + 1) for k in numbers)
    yield "functions", head + ".logic_tile_bits 54 16\n" + "".join("function_%d B0[0]\n" % k for k in numbers)
    yield "one function many times", head + ".logic_tile_bits 54 16\n" + "LC_0 B0[0]\n" * count
    yield "extra bits", head + ".extra_bits\n" + "".join("extra_%d 0 330 143\n" % k for k in numbers)
    yield "lines of global nets", head + ".gbufin\n" + "0 1 0\n" * count
    yield "tiles", head + ".logic_tile 1 1\n" * count
    yield "other statements", head + ".other\nline\n" * count


def texts(count):
    """Texts that are long in one thing each."""
    yield "extra bits of an LP384", ".device 384\n" + ".extra_bit 0 180 78\n" * count
    yield "extra bits", ".device 1k\n" + ".extra_bit 0 330 143\n" * count
    yield "comments", ".comment\na\n" * count + ".device 1k\n"
    yield "lines of a comment", ".comment\n" + "a\n" * count + ".device 1k\n"
    yield "names of one net", ".device 1k\n" + "".join(".sym 0 name_%d\n" % k for k in range(count))
    yield "empty lines", "\n" * count + ".device 1k\n"
    yield "one long line", ".device 1k\n.sym 0 " + "n" * 10 * count + "\n"
    yield "one long number", ".device 1k\n.sym " + "0" * 10 * count + " n\n"


def layouts(count):
    """Layout files that are long in one thing each."""
    yield "remarks", "#\n" * count
    yield "one long remark", "#" * 2 * count + "\n"
    yield "spaces", ".layout 1k\nwidths" + " " * 2 * count + "\n"


def words(count):
    """Files of memory words that are long in one thing each."""
    draws = random.Random(count)
    yield "columns", "".join("%064x\n" % draws.getrandbits(256) for _ in range(256 * count))
    yield "equal columns but for the last", "".join("%064x\n" % (k if k >= 256 * count - 256 else 0) for k in range(256 * count))
    yield "remarks", "// remark\n" * 256 * count
    yield "underscores", ("0" + "_" * 60 + "1\n") * 256 * count


def streams(count):
    """Bitstreams and boot files that are long in one thing each."""
    preamble = b"\x7e\xaa\x99\x7e"
    yield "preambles without their last byte", preamble[:3] * count
    yield "pieces of a comment", b"\xff\x00" + b"a\x00" * count + b"\x00\xff" + preamble
    yield "commands", preamble + b"\x11\x00" * count
    yield "checks", preamble + b"\x01\x05" * count
    yield "rows of data", preamble + b"\x62\x01\x4b\x72\x00\x02" + (b"\x01\x01" + bytes(2 * 332 // 8) + b"\x00\x00") * (count // 40)


def boots(count):
    """Boot files of one image that is long in one thing."""
    header = b"\x7e\xaa\x99\x7e\x92\x00\x00\x44\x03\x00\x00\xa0\x82\x00\x00\x01\x08" + bytes(15)
    for form, stream in streams(count):
        yield form, 5 * header + stream


def event_lists(line, count):
    """Lists of events that are long in one thing each, with the line of an event."""
    yield "one event many times", line * count
    yield "empty lines", "\n" * count
    yield "one long line", line.strip() + " " * 10 * count + "\n"


def long_lists(name, count):
    """Long lists of events that are long in one thing each, with the name of an input."""
    yield "one line many times", "%s ~ 1\n" % name * count
    yield "repeats of nothing", "repeat 4294967295\nrepeat 4294967295\nend\nend\n" * count
    yield "repeats of one event", (8 * "repeat 1\n" + name + " 0\n" + 8 * "end\n") * (count // 8)
    yield "a repeat of many empty ones", "repeat 1000\n%s ~ 1\n%send\n" % (name, "repeat 1\nend\n" * count)


def name_lists(wire, count):
    """Lists of names that are long in one thing each, with a wire of the module."""
    yield "empty lines", "\n" * count
    yield "one long name", "%s %s\n" % (wire, "n" * 10 * count)
    yield "blanks around a name", "%s%s%sn%s\n" % (" \t" * count, wire, " " * count, "\t" * count)


def pin_files(count):
    """Pin files that are long in one thing each."""
    yield "one pin many times", "set_io led 99\n" * count
    yield "empty lines", "\n" * count
    yield "one long name", "set_io %s 99\n" % ("<" * 10 * count)
    yield "options before a name", "set_io %sled 99\n" % ("-nowarn " * count)


def grown(files):
    """What grows: a name, what is made of a count, the least count, the arguments, and what goes to standard input."""
    text, stream, database, small, known, player = (
        files[name] for name in ("lamp.asc", "lamp.bin", "chipdb-1k.txt", "one_bit.asc", "random.hex", "player.asc"))
    yield "text", texts, 100000, ["icepack", "FILE", "TARGET"], None
    yield "text", texts, 100000, ["icebram", known, known], "FILE"
    yield "text", texts, 100000, ["icebox_stat", database, "FILE"], None
    yield "text", texts, 100000, ["icebox_vlog", "--names", "TARGET", database, "FILE"], None
    yield "pin file", pin_files, 12000, ["icebox_plan", "-p", "FILE", "-d", "tq144", database, text], None
    yield "bitstream", streams, 250000, ["iceunpack", "FILE", "TARGET"], None
    yield "bitstream", streams, 250000, ["icebox_explain", database, "FILE"], None
    yield "bitstream", streams, 250000, ["icebox_diff", database, stream, "FILE"], None
    yield "boot file", boots, 1000000, ["icesplit", "FILE"], None
    yield "layout", layouts, 8000, ["icepack", "--layout", "FILE", text, "TARGET"], None
    yield "words", words, 60, ["icebram", "FILE", "FILE"], player
    yield "database", databases, 50000, ["icebox_explain", "FILE", small], None
    yield "database", databases, 50000, ["icebox_diff", "FILE", small, text], None
    yield "database", databases, 50000, ["icebox_vlog", "FILE", small], None
    yield "database", databases, 50000, ["icebox_stat", "FILE", small], None
    yield "database", databases, 50000, ["icebox_plan", "FILE", small], None
    yield "module", modules, 20000, ["vlogrun", "FILE"], None
    yield "module", modules, 20000, ["vlogsweep", "FILE", os.devnull, os.devnull], None
    with open(files["lamp.events"]) as events:
        line = events.readline()
    yield "list of events", functools.partial(event_lists, line), 20000, ["vlogrun", files["lamp.v"], "FILE"], None
    yield ("long list of events", functools.partial(long_lists, line.split()[0]), 2000,
           ["vlogrun", "--long", "--last", files["lamp.v"], "FILE"], None)
    with open(files["lamp.names"]) as names:
        wire = names.readline().split()[0]
    yield "list of names", functools.partial(name_lists, wire), 100000, ["vlogrun", "--vcd", "--names", "FILE", files["lamp.v"]], None
    # each of 64 lists has at most 65,536 bytes
    yield "list of events", functools.partial(event_lists, line), 1250, ["vlogsweep", files["lamp.v"]] + 64 * ["FILE"], None


def put_hostile(tries, what, content):
    """Writes an input, and gives the file's name, which tells bound_of whether it is a database."""
    name = tries.folder / ("chipdb.hostile" if what == "database" else "hostile")
    name.write_bytes(content if isinstance(content, bytes) else content.encode())
    return str(name)


def seconds_of(tries, use, source, what, content):
    """The least processor time of three runs, and the last exit status."""
    name = put_hostile(tries, what, content)
    runs = [tries.run_use(use, source, name)[0] for _ in range(3)]
    return min(ended.seconds for ended in runs), runs[-1].status


def try_long(tries, files):
    """Takes each long input once through the tool that reads it."""
    for what, forms, count, use, source in grown(files):
        for form, content in forms(4 * count):
            name = put_hostile(tries, what, content)
            tries.try_use("%s of a %s, %s" % (use[0], what, form), use, source, name)
    tries.close_part("long inputs")


def try_growth(tries, files):
    """Takes inputs that grow through the tools that read them."""
    for what, forms, count, use, source in grown(files):
        for (form, small), (_, large) in zip(forms(count), forms(4 * count)):
            short, status = seconds_of(tries, use, source, what, small)
            long, other = seconds_of(tries, use, source, what, large)
            fault = ""
            if status != other or status not in (0, 1):
                fault = "status %d, and four times as long %d" % (status, other)
            elif long > GROWTH * short + UNCOUNTED:
                fault = "%.3f s, and four times as long %.3f s" % (short, long)
            tries.tell("%s of a %s, %s" % (use[0], what, form), fault, False)
    tries.close_part("inputs that grow")


def main(given):
    is_short = given[:1] == ["--short"]
    given = given[is_short:]
    if len(given) > 2 or not all(word.isdecimal() for word in given):
        print(__doc__, file=sys.stderr)
        return 2
    need("chipdb")
    seed, rounds = [int(word) for word in given + ["1", "1"][len(given):]]
    with tempfile.TemporaryDirectory() as folder:
        tries = Hostile(folder, is_short)
        files = make_files(tries)
        for number in range(rounds):
            try_broken(tries, files, "%d.%d" % (seed, number))
            try_arguments(tries, "%d.%d" % (seed, number))
            try_names(tries, "%d.%d" % (seed, number))
        (try_long if is_short else try_growth)(tries, files)
        return tries.end()


if __name__ == "__main__":
    sys.exit(main(sys.argv[1:]))
