#!/usr/bin/env python3
"""Tries iceverify: designs that are equal to their files, files, netlists and modules that are wrong, bits that can't matter, bad and odd input.

Usage: check/verify.py [--short] [-k FOLDER] [NAME ...]

The designs are those of check/verify. Each is taken through yosys and nextpnr-ice40 for an HX1K and an HX8K with three seeds, and has
to be equal. Then one thing is changed in a text, a bitstream, a netlist or the module that icebox_vlog writes, and iceverify has to tell it by
its name. With --short there are fewer of each, for about a minute. With NAMEs only what has one of them in its name is tried. With -k the
files stay in FOLDER, and designs that are there aren't routed again.

The program is that of modules/programs.py, which `./install` installs in a temporary folder. If yosys, yosys-abc, nextpnr-ice40 or the chip
databases are missing, everything is skipped, with a line. One check needs iverilog and vvp, and is skipped without them.

The last line is 'N passed, M failed', with ', K skipped' if something was. Status 0: all passed; 1: one failed; 2: the arguments aren't taken;
127: there is no program.
"""
import concurrent.futures
import json
import os
import pathlib
import re
import shutil
import signal
import subprocess
import sys
import tempfile
import time

from modules.programs import TOP, install, missing, program, stock

sys.path.insert(0, str(TOP / "check" / "verify"))

import odd  # noqa: E402
from device import ENTRIES, Database, Text  # noqa: E402
from ram_forms import bench  # noqa: E402
from routes import EQUAL, PACKAGES, Refused, database_path, output_of, package_pins, routed, synthesized  # noqa: E402
from wrong import MODULES, NETLISTS, TEXTS, entry  # noqa: E402

NEEDED = "yosys", "yosys-abc", "nextpnr-ice40", "chipdb"
DEVICES, SEEDS = ("1k", "8k"), (1, 2, 3)
SHORT_DESIGNS = ("crc", "1k", 1), ("servo", "1k", 1), ("rams", "1k", 1), ("pins", "1k", 1), ("kinds", "1k", 1), ("buses", "1k", 1), \
    ("globals", "1k", 1), ("passes", "1k", 1), ("clocks", "1k", 1), ("dividers", "1k", 1), ("machine", "8k", 1)
SHORT_WRONG = ("a bit of a LUT", "a table of zeros", "a link to a LUT", "an edge", "a carry's set bit", "an enable", "a RAM's contents",
               "a RAM's write mode", "a pin that can't be switched off", "a clock", "a start at 1", "a port more", "data that aren't inverted",
               "an enable of the other edge", "what comes to two buses", "the edge of a divided clock",
               "the other edge of a register", "a column buffer", "an input buffer", "a pull-up more", "a RAM that is off",
               "a bit without a meaning", "all column buffers", "an input buffer of an HX8K", "a pull-up of an HX8K")
SHORT_ODD = "an init that isn't bits", "a bit with a point", "a table that isn't bits", "a parameter more", "a port of a RAM more", \
    "two bits at a port of one"
WORKERS = min(4, os.cpu_count() or 1)


class Failure(Exception):
    """Something that isn't as it should be."""


class Checks:
    """What was tried. folder: where the files are, a folder for each design. prefix: where the tools are installed."""

    def __init__(self, folder, wanted):
        self.folder = folder
        self.prefix = folder / "prefix"
        self.wanted = wanted
        self.passed = self.failed = self.skipped = 0
        self.databases = {}
        self.texts = {}
        self.list = []

    def add(self, name, run, *words):
        """Adds something to try, if its name is wanted."""
        if not self.wanted or any(word in name for word in self.wanted):
            self.list.append((name, run, words))

    def skip(self, name, lacking):
        """Tells what isn't tried."""
        self.skipped += 1
        print("skipped: %s: there is no %s" % (name, ", no ".join(lacking)), flush=True)

    def end(self):
        """Writes the last line, and answers the exit status of the script."""
        print("%d passed, %d failed%s" % (self.passed, self.failed, ", %d skipped" % self.skipped if self.skipped else ""))
        return 1 if self.failed else 0

    def run_all(self):
        """Tries all, a few side by side, and tells each."""
        with concurrent.futures.ThreadPoolExecutor(WORKERS) as pool:
            for (name, _, _), (fault, seconds) in zip(self.list, pool.map(self.run_one, self.list)):
                self.passed += not fault
                self.failed += bool(fault)
                print("%s: %s (%.1f s)" % (name, "FAILED: " + fault if fault else "passed", seconds), flush=True)

    def run_one(self, entry):
        """Tries one, and answers its fault and how long it took."""
        start = time.perf_counter()
        try:
            entry[1](*entry[2])
            fault = ""
        except (Failure, Refused, KeyError, StopIteration) as error:
            fault = "%s: %s" % (type(error).__name__, error)
        return fault, time.perf_counter() - start

    def tool(self, name, words, work, prefix=None, **more):
        """Runs an installed tool."""
        command = [str((prefix or self.prefix) / "bin" / name)] + [str(word) for word in words]
        return subprocess.run(command, cwd=work, capture_output=True, text=True, **more)

    def database(self, device):
        """The chip database of a device; that of an HX8K, which is long, without its nets."""
        if device not in self.databases:
            self.databases[device] = Database(database_path(device), device == "1k")
        return self.databases[device]

    def folder_of(self, design, device, seed):
        return self.folder / ("%s_%s_%d" % (design, device, seed))

    def text_of(self, design, device="1k"):
        """The text of a design, with the places of its pins."""
        if (design, device) not in self.texts:
            work = self.folder_of(design, device, 1)
            text = Text((work / "top.asc").read_text(), self.database(device))
            pins = package_pins(database_path(device), PACKAGES[device])
            words = [line.split() for line in (work / "top.pcf").read_text().splitlines()]
            text.pins = {name: tuple(int(part) for part in pins[pin].split("_")[1:]) for *_, name, pin in words}
            self.texts[design, device] = text
        text = self.texts[design, device].copy()
        text.pins = self.texts[design, device].pins
        return text


def expect(run, status, *said):
    """Looks that a run ends with a status, and has a line with all of these words."""
    lines = (run.stdout + run.stderr).splitlines()
    if run.returncode != status or not any(all(word in line for word in said) for line in lines):
        raise Failure("status %d, it says: %s" % (run.returncode, " / ".join(lines)[:600]))


def check_equal(checks, design, device, seed):
    """A design is equal to its text, with the first seed to its bitstream, and with the last one without its pin file."""
    work = checks.folder_of(design, device, seed)
    expect(checks.tool("iceverify", ["-p", "top.pcf", "top.json", "top.asc"], work), 0, "equal: ")
    if seed == 1:
        checks.tool("icepack", ["top.asc", "top.bin"], work)
        expect(checks.tool("iceverify", ["top.json", "top.asc", "top.bin", "--log", "log", "-p", "top.pcf"], work), 0, "equal: ")
    if seed == SEEDS[-1]:
        expect(checks.tool("iceverify", ["top.json", "top.asc"], work), 0, "equal: ")


def check_edges(checks, device):
    """nextpnr-ice40 sets the edges of a RAM's ports at the wrong port of an HX8K, which is told."""
    run = checks.tool("iceverify", ["-p", "top.pcf", "top.json", "top.asc"], checks.folder_of("edges", device, 1))
    if device == "1k":
        expect(run, 0, "equal: ")
    else:
        expect(run, 1, "RAM falling_write (top.v:", "edge of the write clock: the netlist has falling, the file has rising")


def check_wrong(checks, wrong, by_bitstream=False):
    """Something wrong is told by its name."""
    work = checks.folder_of(wrong.design, wrong.device, 1)
    with tempfile.TemporaryDirectory(dir=checks.folder) as folder:
        place = pathlib.Path(folder)
        netlist, words = work / "top.json", [work / "top.asc"]
        if wrong.is_netlist:
            netlist = place / "wrong.json"
            netlist.write_text(json.dumps(wrong.change(json.loads((work / "top.json").read_text()))))
        else:
            (place / "wrong.asc").write_text(wrong.change(checks.text_of(wrong.design, wrong.device)).text())
            words = [place / "wrong.asc"]
        if by_bitstream:
            checks.tool("icepack", ["wrong.asc", "wrong.bin"], place)
            words = [work / "top.asc", place / "wrong.bin"]
        expect(checks.tool("iceverify", ["-p", work / "top.pcf", netlist, *words], work), 1, *wrong.said)


def check_wrong_module(checks, wrong):
    """Something wrong in the module that icebox_vlog writes is told by its name. In place of the program stands one that writes that module."""
    work = checks.folder_of(wrong.design, "1k", 1)
    module = checks.tool("icebox_vlog", ["top.asc"], work).stdout
    places = {port: "%d_%d_%d" % place for port, place in checks.text_of(wrong.design).pins.items()}
    with tempfile.TemporaryDirectory(dir=checks.folder) as folder:
        prefix = pathlib.Path(folder)
        (prefix / "wrong.v").write_text(wrong.change(module, places))
        (prefix / "share").symlink_to(checks.prefix / "share")
        (prefix / "bin").mkdir()
        shutil.copy(checks.prefix / "bin/iceverify", prefix / "bin")
        (prefix / "bin/icestorm").write_text("#!/bin/sh\n[ $1 = icebox_vlog ] || exec '%s' \"$@\"\nexec cat '%s'\n"
                                             % (checks.prefix / "bin/icestorm", prefix / "wrong.v"))
        (prefix / "bin/icestorm").chmod(0o755)
        expect(checks.tool("iceverify", ["-p", "top.pcf", "top.json", "top.asc"], work, prefix), 1, *wrong.said)


def unreachable_entries(text):
    """Cells with an entry of their table that they never come to, since it needs a 1 at an input without a net: with such a net it is 0."""
    for tile, (_, kind) in sorted(text.tiles.items()):
        for number in range(8 if kind == "logic_tile" else 0):
            cell = (*tile, number)
            if any(text.bit(tile, place) for place in text.cell_bits(cell, *ENTRIES)):
                for k in range(3):
                    if not text.link_on(text.net(tile, "lutff_%d/in_%d" % (number, k))):
                        yield cell, 1 << k


def check_idle(checks):
    """A bit that can't matter is found equal: an entry of a table that the table's inputs never come to. Where such an entry makes a table
    use an input that closes a loop, icebox_vlog refuses the file; then another one is tried."""
    work = checks.folder_of("servo", "1k", 1)
    for cell, number in unreachable_entries(checks.text_of("servo")):
        text = checks.text_of("servo").flip(cell[:2], *checks.text_of("servo").cell_bits(cell, ENTRIES[number]))
        (work / "idle.asc").write_text(text.text())
        run = checks.tool("iceverify", ["-p", "top.pcf", "top.json", "idle.asc"], work)
        if not run.stderr.endswith("Loop\n"):
            return expect(run, 0, "equal: ")
    raise Failure("each table has a net at each input")


def check_other(checks, netlist, text, said):
    """The netlist or the text of something else is told."""
    work = checks.folder_of(*netlist)
    expect(checks.tool("iceverify", ["-p", "top.pcf", "top.json", checks.folder_of(*text) / "top.asc"], work), 1, *said)


def check_older(checks):
    """The netlist of an older source is told, with the register that changed."""
    work = checks.folder / "older"
    synthesized("servo", work, ("10'd17", "10'd16"))
    newer = checks.folder_of("servo", "1k", 1)
    expect(checks.tool("iceverify", ["-p", newer / "top.pcf", "top.json", newer / "top.asc"], work), 1, "register count[0]", "next value")


def with_contents(netlist, bit):
    """Gives all bits of the RAMs of a netlist the same contents: 0, or x for open."""
    for cell in netlist["modules"]["rams"]["cells"].values():
        if cell["type"].startswith("SB_RAM40_4K"):
            cell["parameters"].update({"INIT_" + digit: bit * 256 for digit in "0123456789ABCDEF"})
    return netlist


def check_unloaded(checks):
    """A bitstream that loads no RAM contents is told where the netlist has some, though they are zeros, and is equal where it leaves them open."""
    work = checks.folder_of("rams", "1k", 1)
    netlist = json.loads((work / "top.json").read_text())
    with tempfile.TemporaryDirectory(dir=checks.folder) as folder:
        output_of([stock("icepack"), "-n", work / "top.asc", "bare.bin"], folder)
        for bit, status, said in ("0", 1, "contents at the start: the file doesn't load them"), ("x", 0, "equal: "):
            pathlib.Path(folder, "bare.json").write_text(json.dumps(with_contents(netlist, bit)))
            expect(checks.tool("iceverify", ["-p", work / "top.pcf", "bare.json", work / "top.asc", "bare.bin"], folder), status, said)


def check_swapped_pins(checks):
    """Two outputs that have each other's pin are told."""
    work = checks.folder_of("crc", "1k", 1)
    swapped = {"parity": "full", "full": "parity"}
    lines = [" ".join(swapped.get(word, word) for word in line.split()) for line in (work / "top.pcf").read_text().splitlines()]
    (work / "swapped.pcf").write_text("\n".join(lines) + "\n")
    expect(checks.tool("iceverify", ["-p", "swapped.pcf", "top.json", "top.asc"], work), 1, "output full", "value")


def check_ram_forms(checks, cycles):
    """The forms of block RAMs are those of the model that yosys ships, in a simulation of all modes."""
    work = checks.folder / "forms"
    work.mkdir(exist_ok=True)
    (work / "bench.v").write_text(bench(cycles))
    cells = pathlib.Path(shutil.which("yosys")).resolve().parent.parent / "share/yosys/ice40/cells_sim.v"
    output_of(["iverilog", "-g2009", "-DNO_ICE40_DEFAULT_ASSIGNMENTS", "-o", "bench", "bench.v", cells], work)
    said = output_of(["vvp", "-n", "bench"], work).strip()
    if said != "same":
        raise Failure(said)


def check_bad(checks, words, status, said, files=None):
    """Bad input has a line and a status."""
    work = checks.folder_of("crc", "1k", 1)
    with tempfile.TemporaryDirectory(dir=checks.folder) as folder:
        for name in ("top.json", "top.asc", "top.pcf"):
            shutil.copy(work / name, folder)
        for name, change in (files or {}).items():
            path = pathlib.Path(folder, name)
            path.write_text(change(path.read_text() if path.exists() else ""))
        run = checks.tool("iceverify", words, folder)
        lines = run.stderr.splitlines()
        is_line = len(lines) == 1 and lines[0].startswith("iceverify: ") and said in lines[0]
        if run.returncode != status or run.stdout or not is_line:
            raise Failure("status %d, it says: %s" % (run.returncode, (run.stdout + run.stderr)[:300]))


def check_still(checks, files, words=(), path=None):
    """A design whose files are changed in what doesn't matter is equal still. path: a folder of programs, in place of the PATH."""
    work = checks.folder_of("crc", "1k", 1)
    with tempfile.TemporaryDirectory(dir=checks.folder) as folder:
        for name in ("top.json", "top.asc", "top.pcf"):
            change = files.get(name, str)
            pathlib.Path(folder, name).write_text(change((work / name).read_text()))
        around = {**os.environ, "PATH": str(path(pathlib.Path(folder, "programs")))} if path else None
        run = checks.tool("iceverify", ["-p", "top.pcf", "top.json", "top.asc", *words], folder, env=around)
        expect(run, 0, "equal: ")
        if run.stderr:
            raise Failure("it says: %s" % run.stderr[:300])


def check_compat(checks, design, wrong=None):
    """Numbers as `write_json -compat-int` writes them mean what the bits mean. wrong: a change of that netlist, and what is to be told of it."""
    work = checks.folder_of(design, "1k", 1)
    with tempfile.TemporaryDirectory(dir=checks.folder) as folder:
        netlist = pathlib.Path(folder, "compat.json")
        output_of(["yosys", "-q", "-p", "read_json top.json; write_json -compat-int %s" % netlist], work)
        if not re.search(r'"(LUT_INIT|PIN_TYPE|READ_MODE)": [0-9]', netlist.read_text()):
            raise Failure("yosys wrote no numbers")
        change, said = wrong or (str, ("equal: ",))
        netlist.write_text(change(netlist.read_text()))
        expect(checks.tool("iceverify", ["-p", "top.pcf", netlist, "top.asc"], work), 1 if wrong else 0, *said)


def check_pipes(checks):
    """Each input may be standard input, and a pipe, which can be read only once, even where other programs read it too."""
    work = checks.folder_of("crc", "1k", 1)
    checks.tool("icepack", ["top.asc", "piped.bin"], work)
    for words in (["top.pcf", "top.json", "-"], ["top.pcf", "top.json", "top.asc", "-"], ["top.pcf", "-", "top.asc"], ["-", "top.json", "top.asc"]):
        name = ("top.pcf", "top.json", "top.asc", "piped.bin")[words.index("-")]
        command = [checks.prefix / "bin/iceverify", "-p", *(word.replace("-", "/dev/stdin") for word in words)]
        run = subprocess.run(command, cwd=work, capture_output=True, input=(work / name).read_bytes())
        if run.returncode or not run.stdout.startswith(b"equal: "):
            raise Failure("%s from a pipe: %s" % (name, (run.stdout + run.stderr).decode(errors="replace")[:300]))
    with open(work / "top.asc") as file:
        expect(checks.tool("iceverify", ["-p", "top.pcf", "top.json", "/dev/stdin"], work, stdin=file), 0, "equal: ")


def check_signals(checks):
    """A signal ends it at once, without a line and without its folder, and what it has begun ends too."""
    work = checks.folder_of("crc", "1k", 1)
    for number in (signal.SIGHUP, signal.SIGINT, signal.SIGQUIT, signal.SIGTERM):
        with tempfile.TemporaryDirectory(dir=checks.folder) as folder:
            place = pathlib.Path(folder)
            path = odd.programs(place / "programs", yosys="sleep 600 & echo $! >%s/part; mv %s/part %s/sleeper; wait\n" % ((folder,) * 3))
            (place / "temporary").mkdir()
            around = {**os.environ, "PATH": "%s:%s" % (path, os.environ["PATH"]), "TMPDIR": str(place / "temporary")}
            unignored = "import os, signal, sys; signal.signal(%d, signal.SIG_DFL); os.execv(sys.argv[1], sys.argv[1:])" % number
            run = subprocess.Popen([sys.executable, "-c", unignored, str(checks.prefix / "bin/iceverify"), "top.json", "top.asc"], cwd=work,
                                   env=around, stdout=subprocess.PIPE, stderr=subprocess.PIPE)
            try:
                wait_for((place / "sleeper").exists)
                run.send_signal(number)
                said = b"".join(run.communicate(timeout=60))
            except (Failure, subprocess.TimeoutExpired) as error:
                run.kill()
                raise Failure("%s: %s" % (number.name, error)) from None
            sleeper = pathlib.Path("/proc", (place / "sleeper").read_text().strip(), "status")
            if run.returncode != -number or said or os.listdir(place / "temporary"):
                raise Failure("%s: status %d, it says: %s, it leaves: %s" % (number.name, run.returncode, said[:300].decode(errors="replace"),
                                                                             os.listdir(place / "temporary")))
            wait_for(lambda: not sleeper.exists() or "State:\tZ" in sleeper.read_text())


def wait_for(is_so, seconds=60):
    """Waits until something is so."""
    end = time.monotonic() + seconds
    while not is_so():
        if time.monotonic() > end:
            raise Failure("nothing happens")
        time.sleep(0.02)


def check_log(checks):
    """The folder of --log keeps what iceverify didn't write, and may be that of an earlier run."""
    work = checks.folder_of("crc", "1k", 1)
    with tempfile.TemporaryDirectory(dir=checks.folder) as folder:
        words = ["top.json", "top.asc", "--log", folder]
        for name in ("iceverify.files", "ports.json", "module.v"):
            mine = pathlib.Path(folder, name)
            mine.write_text("mine\n")
            expect(checks.tool("iceverify", words, work), 4, "iceverify: write failed: %s is there, and no earlier run wrote it" % mine)
            if mine.read_text() != "mine\n":
                raise Failure("%s is overwritten" % name)
            shutil.rmtree(folder)
            os.mkdir(folder)
        other = pathlib.Path(folder, "other.v")
        other.write_text("mine\n")
        for _ in range(2):
            expect(checks.tool("iceverify", words, work), 0, "equal: ")
        if other.read_text() != "mine\n" or "cec.log" not in os.listdir(folder):
            raise Failure("there are: %s" % " ".join(os.listdir(folder)))


def check_names(checks):
    """Names with odd numbers are names; those with characters that end a line, or move in it, make no line of their own."""
    work = checks.folder_of("crc", "1k", 1)
    forged, seen = "\u00b2\u2028\nequal: 24 registers\r\x1b[2J", "\\u2028\\nequal: 24 registers\\r\\x1b[2J"
    with tempfile.TemporaryDirectory(dir=checks.folder) as folder:
        place = pathlib.Path(folder)
        name = "\u00b2" + odd.LONG
        (place / "top.asc").write_text(re.sub(r"(?m)^(\.sym [0-9]+) crc\[", r"\1 %s[" % name, entry("crc[5]")(checks.text_of("crc")).text()))
        data = json.loads((work / "top.json").read_text())
        nets = data["modules"]["crc"]["netnames"]
        nets[name] = nets.pop("crc")
        for each, net in nets.items():
            net["hide_name"] = int(each != name)
        (place / "top.json").write_text(json.dumps(data))
        words = ["-p", work / "top.pcf", "top.json", "top.asc"]
        expect(checks.tool("iceverify", words, place), 1, "differs: register %s[5]" % name, "next value", "where ")
        nets[forged] = {**nets[name], "hide_name": 0}
        nets[name]["hide_name"] = 1
        (place / "top.json").write_text(json.dumps(data))
        expect(checks.tool("iceverify", words, place, env={**os.environ, "PYTHONIOENCODING": "ascii"}), 1,
               "differs: register \\xb2%s[5]" % seen, "next value", "where ")
        data["modules"]["crc"]["cells"][forged] = {"type": "OTHER", "parameters": {}, "connections": {}, "attributes": {}}
        (place / "cell.json").write_text(json.dumps(data))
        run = checks.tool("iceverify", ["cell.json", "top.asc"], place)
        expect(run, 1, "iceverify: the netlist's cell \u00b2%s has the type OTHER" % seen)
        if len(run.stderr.splitlines()) != 1:
            raise Failure("it says: %s" % run.stderr[:300])


def check_time(checks):
    """A proof that takes too long, or that abc gives up, isn't decided; what differs all the same is told."""
    work = checks.folder_of("crc", "1k", 1)
    changed = "case $2 in miter*) exit ;; esac\n%s \"$@\" | sed 's/Networks are equivalent/Networks are %s/'\n"
    texts = {"slow": "sleep 600\n", "vague": changed % (shutil.which("yosys-abc"), "UNDECIDED"),
             "silent": changed % (shutil.which("yosys-abc"), "NOT EQUIVALENT")}
    with tempfile.TemporaryDirectory(dir=checks.folder) as folder:
        wrong = pathlib.Path(folder, "wrong.asc")
        wrong.write_text(entry("crc[5]")(checks.text_of("crc")).text())
        slow, vague, silent = ({**os.environ, "PATH": "%s:%s" % (odd.programs(pathlib.Path(folder, name), yosys_abc=text), os.environ["PATH"])}
                               for name, text in texts.items())
        for around, text, seconds, status, said in (
                (slow, "top.asc", 1, 7, ("not decided: ", " functions, in 1 second")), (slow, wrong, 1, 1, ("not decided: ", " in 1 second")),
                (slow, wrong, 1, 1, ("differs: register crc[5]", "next value")), (vague, "top.asc", 60, 7, ("not decided: ", ", since abc gave up")),
                (silent, "top.asc", 60, 1, ("some differ: ", " functions, and abc can't tell for which values"))):
            start = time.monotonic()
            run = checks.tool("iceverify", ["--timeout", str(seconds), "-p", "top.pcf", "top.json", text], work, env=around)
            expect(run, status, *said)
            if time.monotonic() - start > 60:
                raise Failure("it takes %.0f s" % (time.monotonic() - start))


def two_tops(text):
    """A netlist with two top modules."""
    data = json.loads(text)
    data["modules"]["again"] = json.loads(json.dumps(data["modules"]["crc"]))
    return json.dumps(data)


def other_cell(kind, **parameters):
    """Adds a cell of a kind that isn't taken to a netlist."""
    def change(text):
        data = json.loads(text)
        module = data["modules"]["crc"]
        connections = {"PACKAGE_PIN": module["ports"]["clk"]["bits"], "D_IN_0": module["ports"]["rst"]["bits"]} if parameters else {}
        cell = {"type": kind, "parameters": parameters, "connections": connections, "attributes": {"src": "top.v:3.1-3.5"}}
        module["cells"]["other"] = cell
        return json.dumps(data)
    return change


def add_bad(checks):
    """Adds what is bad input."""
    both = ["-p", "top.pcf", "top.json", "top.asc"]
    for words in ([], ["top.json"], ["-d", "tq144", "top.json", "top.asc"], ["-x", "top.json", "top.asc"], both + ["a", "b"], ["-p"],
                  ["--help", "top.json"], both + ["-p", "top.pcf"]):
        checks.add("bad arguments: %s" % " ".join(words), check_bad, checks, words, 2, "usage: iceverify ")
    for name, words, status, said, files in (
            ("no netlist", ["none.json", "top.asc"], 3, "read failed: none.json", {}),
            ("no text", ["top.json", "none.asc"], 3, "read failed: none.asc", {}),
            ("no bitstream", ["top.json", "top.asc", "none.bin"], 3, "read failed", {}),
            ("no names", both, 1, "has no .sym lines", {"top.asc": lambda text: re.sub(r"(?m)^\.sym.*\n", "", text)}),
            ("no device", both, 1, "names no device", {"top.asc": lambda text: re.sub(r"(?m)^\.device.*\n", "", text)}),
            ("another device", both, 1, "the device 384", {"top.asc": lambda text: text.replace(".device 1k", ".device 384")}),
            ("the text isn't one", both, 1, "iceverify: icebox_vlog: line", {"top.asc": lambda text: text.replace(".logic_tile", ".magic_tile", 1)}),
            ("the netlist isn't JSON", both, 1, "the netlist isn't JSON: line 1", {"top.json": lambda text: "module"}),
            ("the netlist has no modules", both, 1, "has no modules", {"top.json": lambda text: "{}"}),
            ("several tops", both, 1, "the netlist has the top modules again, crc", {"top.json": two_tops}),
            ("an unknown cell", both, 1, "cell other (top.v:3) has the type SB_PLL40_CORE, which isn't known",
             {"top.json": other_cell("SB_PLL40_CORE")}),
            ("a latch", both, 1, "cell other (top.v:3) has the PIN_TYPE 000011 and a D_IN_0 that is used",
             {"top.json": other_cell("SB_IO", PIN_TYPE="000011")}),
            ("an output at the pin of a global net", both, 1, "the PIN_TYPE 011001, that of an output, and drives a global net",
             {"top.json": other_cell("SB_GB_IO", PIN_TYPE="011001")}),
            ("an output of a pair", both, 1, "the PIN_TYPE 011001, that of an output, and the IO_STANDARD SB_LVDS_INPUT",
             {"top.json": other_cell("SB_IO", PIN_TYPE="011001", IO_STANDARD="SB_LVDS_INPUT")}),
            ("another standard of a pin", both, 1, "the IO_STANDARD SB_SSTL2_CLASS_1",
             {"top.json": other_cell("SB_IO", IO_STANDARD="SB_SSTL2_CLASS_1")}),
            ("an unknown pin", both, 1, "pin file line 1", {"top.pcf": lambda text: "set_io clk 9999\n"}),
            ("an unknown package", ["-d", "none"] + both, 1, "the device has no package none", {}),
            ("a folder that can't be", ["--log", "top.pcf/log"] + both, 4, "write failed: top.pcf/log", {})):
        checks.add("bad input: %s" % name, check_bad, checks, words, status, said, files)


def add_odd(checks, is_short):
    """Adds odd input, and odd ways to run it."""
    both = ["-p", "top.pcf", "top.json", "top.asc"]
    arguments = (both + [""], ["--timeout", "0"] + both, ["", "top.asc"], ["top.json", ""], ["--timeout=\u00b2"] + both,
                 ["--timeout", odd.LONG] + both, ["--timeout", "1.5"] + both, ["--timeout", "1", "--timeout", "1"] + both)
    for words in arguments[:2] if is_short else arguments:
        checks.add("bad arguments: %s" % " ".join(word[:9] or "''" for word in words), check_bad, checks, words, 2, "usage: iceverify ")
    for what, change, said in odd.NETLISTS:
        if not is_short or what in SHORT_ODD:
            checks.add("bad input: %s" % what, check_bad, checks, both, 1, said, {"top.json": change})
    for design in ("kinds",) if is_short else ("kinds", "rams", "servo"):
        checks.add("equal: numbers for bits in %s" % design, check_compat, checks, design)
    checks.add("wrong: a start at 1 that is a number", check_compat, checks, "servo",
               (odd.net("count", init=2), ("register count[1]", "value at the start: the netlist has 1, the file has 0")))
    checks.add("equal: cells of a newer yosys, which is a script", check_still, checks, {"top.json": odd.changed(odd.scoped)}, (),
               lambda folder: odd.programs(folder, yosys=odd.newer_yosys()))
    checks.add("equal: lines of a pin file that name nothing", check_still, checks,
               {"top.pcf": lambda text: "set_io -nowarn BOARD_CLK 1\nset_io LED 9999\n" + text})
    checks.add("equal: numbers of nets that are none", check_still, checks,
               {"top.asc": lambda text: text + ".sym \u00b2 more\n.sym %s more\n" % odd.LONG}, ["../crc_1k_1/top.asc"])
    checks.add("inputs from pipes", check_pipes, checks)
    checks.add("signals", check_signals, checks)
    checks.add("files in the folder of --log", check_log, checks)
    checks.add("names with odd characters", check_names, checks)
    checks.add("a proof that takes too long", check_time, checks)


def check_other_database(checks):
    """A database of another device is told."""
    with tempfile.TemporaryDirectory(dir=checks.folder) as folder:
        pathlib.Path(folder, "chipdb-1k.txt").symlink_to(database_path("8k"))
        run = checks.tool("iceverify", ["top.json", "top.asc"], checks.folder_of("crc", "1k", 1), env={**os.environ, "ICEBOX_CHIPDB": folder})
        expect(run, 1, "icebox_vlog: Device")


def check_missing(checks):
    """A program that is missing is named."""
    work = checks.folder_of("crc", "1k", 1)
    for name in ("yosys-abc", "yosys", "python3"):
        with tempfile.TemporaryDirectory(dir=checks.folder) as folder:
            for each in ("sh", "dirname", "python3", "yosys", "yosys-abc"):
                if each != name:
                    pathlib.Path(folder, each).symlink_to(shutil.which(each))
            expect(checks.tool("iceverify", ["top.json", "top.asc"], work, env={"PATH": folder}), 3, "iceverify: it needs %s" % name)


def prepare(checks, is_short):
    """Makes the texts of all designs that are needed, a few side by side."""
    designs = list(SHORT_DESIGNS) if is_short else [(design, device, seed) for design in EQUAL for device in DEVICES for seed in SEEDS]
    designs += [] if is_short else [("edges", device, 1) for device in DEVICES]
    sources = {design: checks.folder / "sources" / design for design, _, _ in designs}
    with concurrent.futures.ThreadPoolExecutor(WORKERS) as pool:
        new = [design for design in designs if not (checks.folder_of(*design) / "top.asc").exists()]
        list(pool.map(lambda name: synthesized(name, sources[name]), {name for name, _, _ in new}))
        list(pool.map(lambda design: routed(*design, sources[design[0]], checks.folder_of(*design)), new))
    return designs


def add_all(checks, designs, is_short):
    """Adds all that is tried."""
    for design in designs:
        if design[0] == "edges":
            checks.add("edges of RAMs on %s" % design[1], check_edges, checks, design[1])
        else:
            checks.add("equal: %s %s seed %d" % design, check_equal, checks, *design)
    for wrong in TEXTS + NETLISTS:
        if not is_short or wrong.what in SHORT_WRONG:
            checks.add("wrong: %s%s" % (wrong.what, " of the netlist" if wrong.is_netlist else ""), check_wrong, checks, wrong)
    for wrong in MODULES:
        if not is_short or wrong.what in SHORT_WRONG:
            checks.add("wrong: %s of the module" % wrong.what, check_wrong_module, checks, wrong)
    for wrong in TEXTS[:1] if is_short else TEXTS:
        checks.add("wrong: %s of the bitstream" % wrong.what, check_wrong, checks, wrong, True)
    checks.add("a bit that can't matter", check_idle, checks)
    checks.add("the text of another design", check_other, checks, ("crc", "1k", 1), ("servo", "1k", 1), ("register crc[0]", "no partner"))
    checks.add("the netlist of an older source", check_older, checks)
    lacking = missing(("iverilog", "vvp"))
    if lacking:
        checks.skip("the forms of block RAMs", lacking)
    else:
        checks.add("the forms of block RAMs", check_ram_forms, checks, 2000 if is_short else 20000)
    if stock("icepack"):
        checks.add("contents of RAMs that aren't loaded", check_unloaded, checks)
    else:
        checks.skip("contents of RAMs that aren't loaded", ["stock icepack"])
    checks.add("pins the other way round", check_swapped_pins, checks)
    add_bad(checks)
    add_odd(checks, is_short)
    checks.add("a database of another device", check_other_database, checks)
    checks.add("programs that are missing", check_missing, checks)


def main(words):
    """Reads the arguments, tries all, and answers the exit status."""
    is_short = "--short" in words
    words = [word for word in words if word != "--short"]
    keep = None
    if words[:1] == ["-k"] and len(words) > 1:
        keep, words = pathlib.Path(words[1]), words[2:]
    if any(word.startswith("-") for word in words):
        print(__doc__, file=sys.stderr)
        return 2
    program()
    with tempfile.TemporaryDirectory() as made:
        folder = (keep or pathlib.Path(made)).resolve()
        folder.mkdir(parents=True, exist_ok=True)
        checks = Checks(folder, words)
        lacking = missing(NEEDED)
        if lacking:
            checks.skip("all of it", lacking)
        else:
            install(checks.prefix)
            add_all(checks, prepare(checks, is_short), is_short)
            checks.run_all()
    return checks.end()


if __name__ == "__main__":
    sys.exit(main(sys.argv[1:]))
