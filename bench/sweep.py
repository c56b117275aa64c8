#!/usr/bin/env python3
"""Runs 64 lists of events over one module by vlogsweep, vlogrun, Icarus Verilog and Verilator, compares the lines, and times all by turns.

Usage: bench/sweep.py [-k FOLDER] [-v LISTS] [ROUNDS [PART...]]     4 rounds and all parts if they are missing

There are three parts, each a module and 64 lists:

- `des`: the design des.v that Debian's package iverilog ships among its examples, a DES encryptor in sixteen steps, with each of its ports
  on a pin of an HX8K in the package ct256, by yosys, nextpnr-ice40 and icebox_vlog. A list has 9,500 events: again and again a bit for each
  pin of the text and of the key, and then sixteen rises and falls of the clock. So all lists have the same pins, and other bits;
- `driven`: the large module of check/modules/random_modules.py, 8,000 LUTs, 4,000 registers and 32 memories. A list has 10,000 events, half of them of
  clocks. All lists have the same pins, as those of one test bench, and other bits;
- `drawn`: the same module, and lists whose pins are drawn for each list.

The inputs get short names, since a list of vlogsweep has at most 65,536 bytes. In each round vlogrun and vvp take some of the lists, one run
for each list, by turns; then vlogsweep takes all 64 in one run, once more with --last, and so does the program that Verilator makes. So vlogrun
and vvp have taken each list once at the end. LISTS is how many lists vvp takes, 64 if it is missing. The program of Verilator is built once; its lines are those
of vlogsweep.

Times are processor time, user and system: of vlogrun and vvp the median of their runs with the least in brackets, and the sum of all; of the
others the median of the rounds with the least in brackets. With -k what is made stays in FOLDER, and a
module of `des` and a Verilator program that are there already aren't made anew.

The last line is 'N same, M different', of lists. Status 0: all are the same; 1: one differs; 2: the words aren't taken; 127: a program is
missing.
"""
import os
import pathlib
import random
import re
import shutil
import statistics
import subprocess
import sys
import tempfile
import time

sys.path.insert(0, str(pathlib.Path(__file__).resolve().parent.parent / "check"))
from modules.programs import CHIPDB, need, program
from modules.random_modules import CLOCKS, LARGE, Module
from modules.routing import PACKAGES, Refused, output_of, package_pins, placed, synthesize, write_pins

DES = pathlib.Path("/usr/share/doc/iverilog/examples/des.v")
DES_TOP = """module top (input clk, input [63:0] text, input [63:0] key, output [63:0] coded);
  wire [1:64] t = text, k = key, c;
  des des (t, k, c, clk);
  assign coded = c;
endmodule
"""
DES_EVENTS, DES_CLOCKS = 9500, 16
LISTS, MOST_BYTES, SEEDS = 64, 65536, 12
# the compiler is told to make the program fast, and not small
VERILATOR = ["verilator", "--cc", "--exe", "--build", "-j", "1", "-O3", "-MAKEFLAGS", "OPT_FAST=-O2", "-MAKEFLAGS", "OPT_GLOBAL=-O2",
             "--x-initial", "0", "-Wno-lint", "-Wno-style", "-Wno-fatal", "--top-module", "chip", "--Mdir", "verilated", "-o", "chip", "chip.v",
             "bench.cpp"]


# ---- modules

class Chip:
    """A module's text with short names for the inputs, and the names in it."""

    def __init__(self, text):
        names = re.findall(r"^  input (\w+);$", text, re.M)
        self.short = {name: "p%d" % place for place, name in enumerate(names)}
        self.text = re.sub(r"\b(%s)\b" % "|".join(names), lambda found: self.short[found[0]], text)
        self.inputs = list(self.short.values())
        self.outputs = re.findall(r"^  output (\w+);$", text, re.M)
        self.starts = re.findall(r"^  (?:reg|reg \[15:0\]|initial) (\w+(?:\[\d+\])?) = (1'b[01]|16'h[0-9a-f]{4});$", self.text, re.M)

    def ports(self, form):
        """The ports in Verilog, by the form of a name and its place."""
        return ", ".join([form % (name, "in", place) for place, name in enumerate(self.inputs)]
                         + [form % (name, "out", place) for place, name in enumerate(self.outputs)])

    def verilog_bench(self):
        """A module for Icarus Verilog that runs this one over the events in the file `events.hex`, and writes the lines of vlogrun."""
        # a clock that comes from x to 0 isn't the event of a list: the state begins anew
        starts = "\n".join("    chip.%s = %s;" % start for start in self.starts)
        return """module bench;
  reg [%d:0] in = 0;
  wire [0:%d] out;
  reg [31:0] events [0:65535];
  integer e, count;
  chip chip (%s);
  initial begin
    if (!$value$plusargs("count=%%d", count)) $finish;
    $readmemh("events.hex", events, 0, count - 1);
    #1;
%s
    #1 $display("%%b", out);
    for (e = 0; e < count; e = e + 1) begin
      in[events[e] >> 1] = events[e][0];
      #1 $display("%%b", out);
    end
  end
endmodule
""" % (len(self.inputs) - 1, len(self.outputs) - 1, self.ports(".%s(%s[%d])"), starts)

    def c_bench(self):
        """A program for Verilator that runs this module over lists of events, and writes the lines of vlogsweep. For each list it has two
        arguments: its name and the file of its events."""
        return """#include "Vchip.h"
#include "verilated.h"
#include <cstdio>
#include <string>

static void show(Vchip &chip, std::string &lines) {
    const CData bits[] = {%s};
    for (CData bit : bits)
        lines += char('0' + bit);
    lines += '\\n';
}

static void run(FILE *events, std::string &lines) {
    VerilatedContext context;
    Vchip chip{&context};
    CData *const inputs[] = {%s};
    for (CData *input : inputs)
        *input = 0;
    chip.eval();
    show(chip, lines);
    unsigned event;
    while (fscanf(events, "%%x", &event) == 1) {
        *inputs[event >> 1] = event & 1;
        chip.eval();
        show(chip, lines);
    }
    chip.final();
}

int main(int count, char **words) {
    for (int word = 1; word + 1 < count; word += 2) {
        FILE *events = fopen(words[word + 1], "r");
        if (events == nullptr)
            return 1;
        std::string lines = std::string("events ") + words[word] + "\\n";
        run(events, lines);
        fclose(events);
        fwrite(lines.data(), 1, lines.size(), stdout);
    }
    return 0;
}
""" % (", ".join("chip." + name for name in self.outputs), ", ".join("&chip." + name for name in self.inputs))


def des_source():
    """The design without its test bench, with ports of which each bit is counted from 0."""
    source = DES.read_text()
    return source[source.index("module des("):] + DES_TOP


def des_module(work):
    """The module of the DES encryptor, and the names of the pins of its text and its key, and of its clock."""
    pins = package_pins(CHIPDB / "chipdb-8k.txt", PACKAGES["8k"])
    names = ["clk"] + ["%s[%d]" % (port, bit) for port in ("text", "key", "coded") for bit in range(64)]
    chosen = dict(zip(names, pins))
    if not (work / "module.v").exists():
        (work / "top.v").write_text(des_source())
        write_pins(chosen, work)
        synthesize(work)
        (work / "module.v").write_text(without_loop(work))
    return (work / "module.v").read_text(), {name: pins[pin] for name, pin in chosen.items()}


def without_loop(work):
    """The module of a text, which is routed again where the router wires a cell's output to an input that its table doesn't use."""
    for seed in range(1, SEEDS + 1):
        placed(work, "8k", seed)
        try:
            return output_of([str(program()), "icebox_vlog", CHIPDB / "chipdb-8k.txt", "top.asc"], work)
        except Refused as refused:
            if not str(refused).endswith("Loop"):
                raise
    raise Refused("a loop with each seed")


# ---- lists of events

def des_pins(ports, inputs):
    """The pins of a list of the encryptor: those of its data, and its clock's, again and again."""
    data = [ports["%s[%d]" % (port, bit)] for port in ("key", "text") for bit in range(64)]
    clock = [(ports["clk"], bit) for _ in range(DES_CLOCKS) for bit in (1, 0)]
    step = [(name, None) for name in data if name in inputs] + clock
    return (step * (DES_EVENTS // len(step) + 1))[:DES_EVENTS]


def des_part(work):
    text, ports = des_module(work)
    chip = Chip(text)
    pins = [(chip.short[name], bit) for name, bit in des_pins(ports, chip.short)]
    return chip, [with_bits(pins, "des %d" % number) for number in range(LISTS)]


def with_bits(pins, seed):
    """A list of events: a bit for each pin, drawn where none is given."""
    draws = random.Random(seed)
    return [(name, draws.randrange(2) if bit is None else bit) for name, bit in pins]


def drawn_pins(chip, seed):
    """The pins of a list of the made module, half of them clocks."""
    draws = random.Random(seed)
    counts = [CLOCKS if draws.randrange(2) else len(chip.inputs) for _ in range(LARGE.events)]
    return [(chip.inputs[draws.randrange(count)], None) for count in counts]


def driven_part(_):
    chip = Chip(Module(0, LARGE).text())
    pins = drawn_pins(chip, "pins")
    return chip, [with_bits(pins, "driven %d" % number) for number in range(LISTS)]


def drawn_part(_):
    chip = Chip(Module(0, LARGE).text())
    return chip, [with_bits(drawn_pins(chip, "pins %d" % number), "drawn %d" % number) for number in range(LISTS)]


PARTS = {"des": des_part, "driven": driven_part, "drawn": drawn_part}


# ---- runs

class Run:
    """What a command wrote, and its seconds of processor time and by the clock."""

    def __init__(self, words, work):
        start = time.perf_counter()
        with tempfile.TemporaryFile() as out, tempfile.TemporaryFile() as said:
            process = subprocess.Popen([str(word) for word in words], cwd=work, stdin=subprocess.DEVNULL, stdout=out, stderr=said)
            _, status, usage = os.wait4(process.pid, 0)
            process.returncode = os.waitstatus_to_exitcode(status)
            self.wall = time.perf_counter() - start
            self.seconds = usage.ru_utime + usage.ru_stime
            out.seek(0)
            said.seek(0)
            self.output = out.read()
            if process.returncode != 0:
                raise Refused("%s: status %d, %s" % (words[0], process.returncode, said.read().decode(errors="replace").strip()[-300:]))


class Bench:
    """A module with its lists in a folder, and what was measured of it."""

    def __init__(self, name, work, taken):
        self.name, self.work, self.taken = name, work, taken
        self.chip, self.lists = PARTS[name](work)
        (work / "chip.v").write_text(self.chip.text)
        self.names = ["list_%d" % number for number in range(LISTS)]
        for name, events in zip(self.names, self.lists):
            self.write_list(name, events)
        self.runs = {tool: [] for tool in ("vlogrun", "vlogsweep", "last", "vvp", "verilator")}
        self.lines = {tool: {} for tool in self.runs}
        self.has_sweep = has_sweep()

    def write_list(self, name, events):
        """Writes a list for this project's tools, and for the others in a folder of its name."""
        text = "".join("%s %d\n" % event for event in events)
        if len(text) > MOST_BYTES:
            raise Refused("a list has %d bytes, and vlogsweep takes %d" % (len(text), MOST_BYTES))
        (self.work / name).write_text(text)
        (self.work / (name + ".folder")).mkdir(exist_ok=True)
        places = {pin: place for place, pin in enumerate(self.chip.inputs)}
        (self.work / (name + ".folder") / "events.hex").write_text("".join("%x\n" % (2 * places[pin] + bit) for pin, bit in events))

    def build(self):
        """Makes the programs of Icarus Verilog and of Verilator."""
        (self.work / "bench.v").write_text(self.chip.verilog_bench())
        self.icarus_build = Run(["iverilog", "-g2005", "-o", "bench", "bench.v", "chip.v"], self.work)
        (self.work / "bench.cpp").write_text(self.chip.c_bench())
        self.verilator_build = None
        if shutil.which("verilator") and not (self.work / "verilated/chip").exists():
            self.verilator_build = Run(VERILATOR, self.work)

    def count(self, tool, run):
        self.runs[tool].append(run)
        return run.output

    def run_one(self, tool, number):
        """One list by vlogrun or vvp."""
        name = self.names[number]
        if tool == "vlogrun":
            run = Run([str(program()), "vlogrun", "chip.v", name], self.work)
        else:
            run = Run(["vvp", "-n", "../bench", "+count=%d" % len(self.lists[number])], self.work / (name + ".folder"))
        self.lines[tool][number] = self.count(tool, run)

    def run_all(self, tool):
        """All lists in one run."""
        if tool in ("vlogsweep", "last"):
            run = Run([str(program()), "vlogsweep"] + ["--last"] * (tool == "last") + ["chip.v"] + self.names, self.work)
        else:
            run = Run(["verilated/chip"] + [word for name in self.names for word in (name, name + ".folder/events.hex")], self.work)
        self.lines[tool] = by_list(self.count(tool, run))

    def measure(self, rounds):
        """All runs, by turns."""
        for number in range(rounds):
            for place in range(number * LISTS // rounds, (number + 1) * LISTS // rounds):
                tools = ["vlogrun"] + ["vvp"] * (place < self.taken)
                for tool in tools if place % 2 == 0 else reversed(tools):
                    self.run_one(tool, place)
            if self.has_sweep:
                self.run_all("vlogsweep")
                self.run_all("last")
            if (self.work / "verilated/chip").exists():
                self.run_all("verilator")

    def different(self):
        """The numbers of lists of which two tools write other lines, or too few, each told."""
        found = []
        for number, events in enumerate(self.lists):
            wanted = self.lines["vlogrun"][number].splitlines()
            faults = [] if len(wanted) == len(events) + 1 else ["vlogrun writes %d lines" % len(wanted)]
            for tool in ("vlogsweep", "last", "vvp", "verilator"):
                if self.runs[tool] and (tool != "vvp" or number < self.taken):
                    lines = wanted[-1:] if tool == "last" else wanted
                    faults += first_difference(tool, lines, self.lines[tool].get(number, b"").splitlines())
            if faults:
                found.append(number)
                print("%s, list %d: %s" % (self.name, number, "; ".join(faults)))
        return found

    def tell(self):
        """Writes what was measured."""
        print("%s: a module of %d bytes with %d inputs and %d outputs, and %d lists of %d events" % (
            self.name, len(self.chip.text), len(self.chip.inputs), len(self.chip.outputs), LISTS, len(self.lists[0])))
        for tool in ("vlogrun", "vvp"):
            runs = [run.seconds for run in self.runs[tool]]
            if runs:
                print("  %-40s %9.3f s (%.3f), and %.3f s in all of %d lists" % (
                    tool + ", one list", statistics.median(runs), min(runs), sum(runs), len(runs)))
        for tool, what in ("vlogsweep", "vlogsweep, %d lists" % LISTS), ("last", "vlogsweep --last, %d lists" % LISTS), ("verilator", "the program of Verilator, %d lists" % LISTS):
            runs = [run.seconds for run in self.runs[tool]]
            if runs:
                print("  %-40s %9.3f s (%.3f), %d rounds" % (what, statistics.median(runs), min(runs), len(runs)))
            else:
                print("  %-40s not measured: there is no such program" % what)
        print("  %-40s %9.3f s" % ("the build of Icarus Verilog", self.icarus_build.seconds))
        if self.verilator_build:
            print("  %-40s %9.3f s, %.3f s by the clock" % ("the build of Verilator", self.verilator_build.seconds, self.verilator_build.wall))


def by_list(output):
    """The lines of each list, of what vlogsweep writes."""
    parts = re.split(rb"^events list_(\d+)\n", output, flags=re.M)
    return {int(number): lines for number, lines in zip(parts[1::2], parts[2::2])}


def first_difference(tool, wanted, lines):
    """The first line in which a tool differs from vlogrun."""
    if lines == wanted:
        return []
    if len(lines) != len(wanted):
        return ["%s writes %d lines, and vlogrun %d" % (tool, len(lines), len(wanted))]
    place = next(place for place, pair in enumerate(zip(lines, wanted)) if pair[0] != pair[1])
    return ["%s differs from vlogrun in line %d" % (tool, place + 1)]


def has_sweep():
    """Whether the program has the tool vlogsweep."""
    return subprocess.run([str(program()), "vlogsweep", "--help"], stdin=subprocess.DEVNULL, capture_output=True).returncode == 0


def run_part(name, folder, rounds, taken):
    """Measures a part, and answers how many lists are different."""
    work = folder / name
    work.mkdir(parents=True, exist_ok=True)
    bench = Bench(name, work, taken)
    bench.build()
    bench.measure(rounds)
    bench.tell()
    different = bench.different()
    print("  %d lists are the same line by line, %d aren't" % (LISTS - len(different), len(different)), flush=True)
    return len(different)


def options_of(words):
    """The folder that is kept, and how many lists vvp takes; and the other words."""
    keep, taken = None, LISTS
    while len(words) >= 2 and words[0] in ("-k", "-v"):
        if words[0] == "-k":
            keep = pathlib.Path(words[1]).resolve()
        else:
            taken = min(LISTS, int(words[1])) if words[1].isdecimal() else -1
        words = words[2:]
    return keep, taken, words


def main(words):
    keep, taken, words = options_of(words)
    rounds = int(words[0]) if words and words[0].isdecimal() else 4
    parts = words[1:] or list(PARTS)
    if taken < 0 or not 1 <= rounds <= LISTS or (words and not words[0].isdecimal()) or any(part not in PARTS for part in parts):
        print(__doc__, file=sys.stderr)
        return 2
    need("iverilog", "vvp", "yosys", "nextpnr-ice40", str(DES), "chipdb")
    with tempfile.TemporaryDirectory() as made:
        different = [run_part(part, keep or pathlib.Path(made), rounds, taken) for part in parts]
    print("%d same, %d different" % (LISTS * len(parts) - sum(different), sum(different)))
    return 1 if sum(different) else 0


if __name__ == "__main__":
    sys.exit(main(sys.argv[1:]))
