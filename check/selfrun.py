#!/usr/bin/env python3
"""Compares what `selfrun DEVICE SEED EVENTS` writes with what is computed here, except the lines `bin` and `explain`.

Usage: check/selfrun.py [DEVICE SEED EVENTS]     the runs of RUNS if they are missing

The computation was written apart from the tools, from the description of the made-up design in docs/FORMATS.md: it makes neither a chip
database nor an image, and runs the cells, flip-flops and block RAMs directly.

The last line is 'N passed, M failed'. Status 0: all passed; 1: something failed; 2: the arguments aren't taken; 127: there is no program.
"""
import sys
import tempfile

from modules.tries import Tries

RUNS = ("1k", 7, 10), ("1k", 1, 0), ("1k", 12345678901234567890, 200), ("1k", 18446744073709551615, 100), ("8k", 7, 20), ("8k", 2, 100)

# by device: columns, rows, and the two columns of block RAM
GRIDS = {"1k": (14, 18, (3, 10)), "8k": (34, 34, (8, 25))}


def sizes(device):
    """How many logic cells and block RAMs a device has."""
    columns, rows, _ = GRIDS[device]
    return 8 * (columns - 4) * (rows - 2), rows - 2


def draws(seed):
    state = seed
    while True:
        state = (6364136223846793005 * state + 1442695040888963407) % 2**64
        yield state >> 48


class Run:
    def __init__(self, device, seed):
        self.cells, self.rams = sizes(device)
        self.nets = 2 + 2 * self.cells + 17 * self.rams
        draw = draws(seed)
        self.luts, self.far, self.flips = [], [], []
        for _ in range(self.cells):
            self.luts.append(next(draw) | 1)
            choice = next(draw)
            self.far.append(choice & 1)
            self.flips.append(choice >> 1 & 1)
        self.words = [[next(draw) for _ in range(256)] for _ in range(self.rams)]
        self.states = [0] * self.cells
        self.registers = [0] * self.rams
        self.pins = [0, 0]
        self.settle()

    def settle(self):
        """All values from the pins and the states: the outputs of cells, and what their tables give."""
        self.tables = []
        self.outs = []
        for j in range(self.cells):
            if self.far[j]:
                first = self.pins[0] if j < 3 else self.outs[j - 3]
            else:
                first = self.pins[1] if j < 1 else self.outs[j - 1]
            second = self.outs[j - 2] if j >= 2 else 0
            fourth = self.registers[j] & 1 if j < self.rams else 0
            table = self.luts[j] >> (first + 2 * second + 8 * fourth) & 1
            self.tables.append(table)
            self.outs.append(self.states[j] if self.flips[j] else table)

    def number(self, first, count):
        return sum(self.outs[first + k] << k for k in range(count))

    def clock(self):
        """A rising edge: all next states are of the values before it."""
        read, write = self.outs[self.cells - 1], self.outs[self.cells - 2]
        for r in range(self.rams):
            address = self.number(8 * r, 8)
            if read:
                self.registers[r] = self.words[r][address]
            if write:
                self.words[r][address] = self.number(16 * r, 16)
        self.states = [t if f else s for t, f, s in zip(self.tables, self.flips, self.states)]

    def event(self, pin, bit):
        if self.pins[pin] != bit:
            if pin == 0 and bit == 1:
                self.clock()
            self.pins[pin] = bit
            self.settle()

    def ones(self):
        return self.outs[self.cells - 1] + self.outs[self.cells // 2]


def lines_of(device, seed, count):
    """The lines that are computed."""
    run = Run(device, seed)
    ones = run.ones()
    draw = draws((seed + 1) % 2**64)
    for _ in range(count):
        event = next(draw)
        run.event(event & 1, event >> 1 & 1)
        ones += run.ones()
    return ["device %s" % device, "nets %d" % run.nets, "cells %d" % run.cells, "rams %d" % run.rams, "wires %d" % run.nets,
            "events %d" % count, "lines %d" % (count + 1), "ones %d" % ones]


def compare(tries, device, seed, count):
    """Runs the tool, and compares."""
    ended = tries.run(["selfrun", device, str(seed), str(count)])
    lines = [line for line in tries.output().decode().splitlines() if line.split()[0] not in ("bin", "explain")]
    fault = ended.status and "status %s, and it says: %s" % (ended.status, ended.said())
    wanted = lines_of(device, seed, count)
    tries.tell("selfrun %s %d %d" % (device, seed, count), fault or (lines != wanted and "%s; it should be %s" % (lines, wanted)))


def main(words):
    if words and (len(words) != 3 or words[0] not in GRIDS or not all(word.isdecimal() for word in words[1:])):
        print(__doc__, file=sys.stderr)
        return 2
    with tempfile.TemporaryDirectory() as folder:
        tries = Tries(folder)
        for device, seed, count in [(words[0], int(words[1]), int(words[2]))] if words else RUNS:
            compare(tries, device, seed, count)
        return tries.end()


if __name__ == "__main__":
    sys.exit(main(sys.argv[1:]))
