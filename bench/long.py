#!/usr/bin/env python3
"""Runs two modules over many toggles of their clocks by vlogrun, Icarus Verilog and Verilator, compares the lines, and times all by turns.

Usage: bench/long.py [-k FOLDER] [-v TOGGLES] [ROUNDS [PART...]]     3 rounds and all parts if they are missing

There are two parts, each a module whose clock toggles again and again:

- `blink`: the module of examples/blink_1k, over 16,777,216 toggles;
- `full`: that of the nearly full HX8K of bench/routed.sh, over 1,000,000 toggles.

Each program writes a line at the start and one for each toggle that changes an output, with the number of the toggle before it: vlogrun by
`--long --changes`, the others by a bench that compares the outputs with those of the line before. TOGGLES is how many toggles of each part
Icarus Verilog takes, all if it is missing: its lines are compared with the first ones of vlogrun, and its time is given for all toggles by
that of these. The program of Verilator is built once.

Times are processor time, user and system: the median of the rounds with the least in brackets. With -k what is made stays in FOLDER, and texts
and Verilator programs that are there already aren't made anew.

The last line is 'N same, M different', of comparisons. Status 0: all are the same; 1: one differs; 2: the words aren't taken; 127: a program
is missing.
"""
import os
import pathlib
import re
import shutil
import statistics
import subprocess
import sys
import tempfile

TOP = pathlib.Path(__file__).resolve().parent.parent
sys.path[:0] = [str(TOP / "bench"), str(TOP / "check")]
from modules.programs import CHIPDB, need, program
from modules.routing import output_of
from sweep import VERILATOR, Chip, Run


class Part:
    """A module, how often its clock toggles, and what the programs write."""

    def __init__(self, name, text, toggles, work, taken):
        self.name, self.toggles, self.work = name, toggles, work
        self.taken = min(taken or toggles, toggles)
        self.chip = Chip(text)
        clocks = set(re.findall(r"@\((?:pos|neg)edge (p\d+)\)", self.chip.text))
        if len(clocks) != 1:
            raise ValueError("%s: %d inputs are clocks" % (name, len(clocks)))
        self.clock = self.chip.inputs.index(clocks.pop())
        self.runs = {tool: [] for tool in ("vlogrun", "vvp", "verilator")}
        self.build()

    def build(self):
        """Writes the module and its events, and makes the programs of Icarus Verilog and of Verilator."""
        (self.work / "chip.v").write_text(self.chip.text)
        (self.work / "events").write_text("%s ~ %d\n" % (self.chip.inputs[self.clock], self.toggles))
        (self.work / "bench.v").write_text(self.verilog_bench())
        (self.work / "bench.cpp").write_text(self.c_bench())
        Run(["iverilog", "-g2005", "-o", "bench", "bench.v", "chip.v"], self.work)
        if shutil.which("verilator") and not (self.work / "verilated/chip").exists():
            self.build_run = Run(VERILATOR, self.work)

    def verilog_bench(self):
        """A module for Icarus Verilog."""
        starts = "\n".join("    chip.%s = %s;" % start for start in self.chip.starts)
        return """module bench;
  reg [%d:0] in = 0;
  wire [0:%d] out;
  reg [0:%d] last;
  integer e;
  chip chip (%s);
  initial begin
    #1;
%s
    #1 last = out;
    $display("0 %%b", out);
    for (e = 1; e <= %d; e = e + 1) begin
      in[%d] = ~in[%d];
      #1 if (out !== last) begin
        last = out;
        $display("%%0d %%b", e, out);
      end
    end
  end
endmodule
""" % (len(self.chip.inputs) - 1, len(self.chip.outputs) - 1, len(self.chip.outputs) - 1, self.chip.ports(".%s(%s[%d])"), starts,
       self.taken, self.clock, self.clock)

    def c_bench(self):
        """A program for Verilator."""
        return """#include "Vchip.h"
#include "verilated.h"
#include <cstdio>
#include <cstring>

static const int COUNT = %d;

static void look(Vchip &chip, CData *bits) {
    const CData now[] = {%s};
    memcpy(bits, now, COUNT);
}

static void show(unsigned long number, const CData *bits) {
    printf("%%lu ", number);
    for (int place = 0; place < COUNT; place++)
        putchar('0' + bits[place]);
    putchar('\\n');
}

int main() {
    VerilatedContext context;
    Vchip chip{&context};
    CData *const inputs[] = {%s};
    for (CData *input : inputs)
        *input = 0;
    CData last[COUNT], bits[COUNT];
    chip.eval();
    look(chip, last);
    show(0, last);
    for (unsigned long number = 1; number <= %dUL; number++) {
        *inputs[%d] ^= 1;
        chip.eval();
        look(chip, bits);
        if (memcmp(bits, last, COUNT) != 0) {
            memcpy(last, bits, COUNT);
            show(number, bits);
        }
    }
    chip.final();
    return 0;
}
""" % (len(self.chip.outputs), ", ".join("chip." + name for name in self.chip.outputs), ", ".join("&chip." + name for name in self.chip.inputs),
       self.toggles, self.clock)

    def measure(self, rounds):
        """All programs, by turns."""
        commands = {"vlogrun": [str(program()), "vlogrun", "--long", "--changes", "chip.v", "events"], "vvp": ["vvp", "-n", "bench"]}
        if (self.work / "verilated/chip").exists():
            commands["verilator"] = ["verilated/chip"]
        for number in range(rounds):
            for tool, command in commands.items():
                if tool != "vvp" or number == 0:
                    self.runs[tool].append(Run(command, self.work))

    def tell(self):
        """Writes what was measured, and answers how many programs write the lines of vlogrun, and how many others."""
        print("%s: a module of %d bytes, %d toggles" % (self.name, len(self.chip.text), self.toggles))
        lines = self.runs["vlogrun"][0].output.splitlines()
        same, different = 0, 0
        for tool, runs in self.runs.items():
            if not runs:
                print("  %-32s not measured: there is no such program" % tool)
                continue
            seconds = [run.seconds * (self.toggles / self.taken if tool == "vvp" else 1) for run in runs]
            print("  %-32s %9.3f s (%.3f), %d runs" % (tool, statistics.median(seconds), min(seconds), len(runs)))
            if tool != "vlogrun":
                most = self.taken if tool == "vvp" else self.toggles
                is_same = runs[0].output.splitlines() == [line for line in lines if int(line.split()[0]) <= most]
                same, different = same + is_same, different + (not is_same)
        if hasattr(self, "build_run"):
            print("  %-32s %9.3f s" % ("the build of Verilator", self.build_run.seconds))
        print("  vlogrun writes %d lines" % len(lines), flush=True)
        return same, different


# ---- modules

def blink_module(_):
    """The module of the blinker."""
    folder = TOP / "examples/blink_1k"
    return output_of([program(), "icebox_vlog", "--used-inputs", "-p", folder / "blink.pcf", "-d", "tq144", CHIPDB / "chipdb-1k.txt", folder / "blink.asc"], TOP)


def full_module(folder):
    """The module of the nearly full device."""
    if not (folder / "full_8k.asc").exists():
        subprocess.run([TOP / "bench/routed.sh", "-m", folder], stdout=subprocess.DEVNULL, check=True)
    return output_of([program(), "icebox_vlog", "--used-inputs", CHIPDB / "chipdb-8k.txt", folder / "full_8k.asc"], TOP)


PARTS = {"blink": (blink_module, 16_777_216), "full": (full_module, 1_000_000)}


def run_part(name, folder, rounds, taken):
    """Measures a part."""
    make, toggles = PARTS[name]
    work = folder / name
    work.mkdir(parents=True, exist_ok=True)
    part = Part(name, make(folder), toggles, work, taken)
    part.measure(rounds)
    return part.tell()


def options_of(words):
    """The folder that is kept, and how many toggles vvp takes; and the other words."""
    keep, taken = None, None
    while len(words) >= 2 and words[0] in ("-k", "-v"):
        if words[0] == "-k":
            keep = pathlib.Path(words[1]).resolve()
        else:
            taken = int(words[1]) if words[1].isdecimal() else 0
        words = words[2:]
    return keep, taken, words


def main(words):
    keep, taken, words = options_of(words)
    rounds = int(words[0]) if words and words[0].isdecimal() else 3
    parts = words[1:] or list(PARTS)
    if taken == 0 or not 1 <= rounds <= 64 or (words and not words[0].isdecimal()) or any(part not in PARTS for part in parts):
        print(__doc__, file=sys.stderr)
        return 2
    need("iverilog", "vvp", "yosys", "nextpnr-ice40", "chipdb")
    with tempfile.TemporaryDirectory() as made:
        told = [run_part(part, keep or pathlib.Path(made), rounds, taken) for part in parts]
    print("%d same, %d different" % (sum(same for same, _ in told), sum(different for _, different in told)))
    return 1 if any(different for _, different in told) else 0


if __name__ == "__main__":
    sys.exit(main(sys.argv[1:]))
