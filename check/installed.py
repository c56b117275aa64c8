#!/usr/bin/env python3
"""Installs the tools into a folder, and looks that they are at home there.

Usage: check/installed.py [-q]     -q leaves out what runs the program over the chip databases of real devices

- Each installed script runs the program with the arguments that it should, and hands on standard input as it came: the layout of real
  chips, the chip database of the image's device, the options that are always passed. So does `icestorm` with the tool's name. Here a script
  stands in the place of the program, which tells what it gets. This is done in each shell of SHELLS that is there.
- Where there is no database, or the input can't be copied, a script says so and ends with exit status 3. No temporary file is left.
- Images come from pipes, two as well. At a terminal, and nowhere else, a line after a refusal names its cause.
- The examples of helps make and read files as chips have them. What an installed tool always has is said once in its help.
- The tools are installed over older ones.
- Each tool has a manual page, which groff shows without a warning, and which has each option of the help.
- bash completes the tools' names and options, and the causes behind `icestorm --explain`.
- The stock tools' calls work over an HX1K and an HX8K, and `make` over stock.mk, a Makefile as those of IceStorm's examples.

What this machine lacks a program for is skipped: the manual pages without groff, the completions without bash, the real devices without the
databases of Debian's package fpga-icestorm-chipdb, and `make` without make, yosys and nextpnr-ice40.

The last line is 'N passed, M failed' or 'N passed, M failed, K skipped'. Status 0: nothing failed; 1: something failed; 2: the arguments
aren't taken; 127: there is no program.
"""
import os
import pathlib
import pty
import re
import shlex
import shutil
import subprocess
import sys
import tempfile

from modules.programs import CHIPDB, TOP, missing
from modules.small_chip import DATABASE, TILES, text_of
from modules.tries import TOOLS, Tries

SHELLS = ("sh",), ("dash",), ("bash", "--posix"), ("busybox", "sh"), ("ksh",), ("yash", "-o", "posix"), ("mksh",)

# what stands in the program's place: it runs the program for a help, the version or the causes, and where install or a script asks it itself;
# else it writes its arguments, a line each, and standard input
TELLER = """#!/bin/sh
case $*,$# in
iceunpack,1 | icepack,1 | --version,1 | --help,1 | --explain,1 | *" --help",2) exec "%s" "$@" ;;
esac
printf '%%s\\n' "$@"
exec cat
"""
# the options that an installed tool always has, as its help names them
ALWAYS = {"icemulti": "--as-stock", "icebram": "--by-mode", "icebox_stat": "--all-pins", "icebox_plan": "--all-pins",
          "icebox_vlog": "--used-inputs, --all-pins and --register-clocks"}
TEXT_1K = text_of(TILES).encode()
TEXT_8K = b".comment of a router\nwith words\n.device 8k\r\n.sym 5 .device 1k\n"
BEHIND_PIPE = TEXT_1K + b"x" * 200000 + b"\0\xff"


def first_lines(output):
    """The start of what was written, in one line."""
    return output.decode(errors="replace")[:300].replace("\n", " / ")


class Installed(Tries):
    """The tools as they are installed under a prefix, and a folder `work` with images."""

    def __init__(self, folder):
        super().__init__(folder)
        self.work = self.folder / "the work"
        self.copies = self.folder / "copies"
        self.databases = self.folder / "data bases"
        for made in (self.work, self.copies, self.databases):
            made.mkdir()
        (self.databases / "chipdb-1k.txt").write_text("# a database\n" + DATABASE)
        (self.databases / "chipdb-8k.txt").write_text("# of an 8k\n.device  8k\t34 34 6\n")
        self.shells = [shell for shell in SHELLS if shutil.which(shell[0])]

    def install(self, name, program):
        """Installs that program, and gives the folder."""
        prefix = self.folder / name
        run = subprocess.run([TOP / "install", prefix], env={**os.environ, "ICESTORM": str(program)}, capture_output=True)
        if run.returncode != 0:
            sys.exit("check/installed.py: nothing is installed: " + first_lines(run.stderr))
        return prefix

    def teller(self, name):
        """A script that stands in the program's place."""
        path = self.folder / name
        path.write_text(TELLER % self.program)
        path.chmod(0o755)
        return path

    def environment(self, prefix, variables):
        """The variables of a run: there is no HOME."""
        return {"PATH": "%s:%s" % (prefix / "bin", os.environ["PATH"]), "TMPDIR": str(self.copies), "LC_ALL": "C.UTF-8", **variables}

    def run_script(self, prefix, words, source=b"", variables=None, shell=(), **more):
        """Runs an installed script. Its standard error may be taken elsewhere."""
        given = {"input": source, **more} if "stdin" not in more and "preexec_fn" not in more else more
        given = {"stdout": subprocess.PIPE, "stderr": subprocess.PIPE, **given}
        return subprocess.run([*shell, prefix / "bin" / words[0], *words[1:]], cwd=self.work, env=self.environment(prefix, variables or {}), **given)

    def gets(self, prefix, words, wanted, source=b"", variables=None, **more):
        """Looks that the program gets these arguments, and standard input as it came, by the tool's script and by icestorm."""
        output = "".join(word + "\n" for word in [words[0]] + wanted).encode() + source
        variables = {"ICEBOX_CHIPDB": str(self.databases)} if variables is None else variables
        for shell, called in [(shell, words) for shell in self.shells] + [(self.shells[0], ["icestorm", *words])]:
            run = self.run_script(prefix, called, source, variables, shell, **more)
            fault = "" if (run.returncode, run.stdout, run.stderr) == (0, output, b"") else (
                "status %d, it gets: %s, it says: %s" % (run.returncode, first_lines(run.stdout), first_lines(run.stderr)))
            self.tell("%s: %s" % (" ".join(shell), " ".join(called)), fault, fault)

    def stops(self, prefix, words, said, source=b"", variables=None, **more):
        """Looks that a script ends with exit status 3 and a last line with these words, and that nothing was written."""
        for shell in self.shells:
            run = self.run_script(prefix, words, source, variables, shell, **more)
            line = (run.stderr.decode().splitlines() or [""])[-1]
            is_told = line.startswith(words[0] + ": ") and all(part in line for part in said)
            fault = "" if run.returncode == 3 and not run.stdout and is_told else "status %d, it says: %s" % (run.returncode, first_lines(run.stderr))
            self.tell("%s: %s: %s" % (" ".join(shell), " ".join(words), line), fault, fault)


def make_images(tries):
    """Writes images of each kind into the folder `work`."""
    for name, text in (("a.asc", TEXT_1K), ("b.asc", TEXT_8K), ("with a space.asc", TEXT_8K), ("-n", TEXT_8K), ("none.asc", b"no device\n"),
                       ("other.asc", b".device 2k\n"), ("blanks.asc", b".device   8k \r\n"), ("odd.asc", b".device ../8k\n")):
        (tries.work / name).write_bytes(text)
    for name in ("a", "b"):
        run = subprocess.run([tries.program, "icepack", name + ".asc", name + ".bin"], cwd=tries.work, capture_output=True)
        if run.returncode != 0:
            sys.exit("check/installed.py: no bitstream of %s.asc: %s" % (name, first_lines(run.stderr)))
    (tries.work / "wrong.asc").write_bytes(b".device 2k\n")
    (tries.work / "pins.asc").write_text(text_of(TILES[:2]))
    run = subprocess.run([tries.program, "icebox_vlog", tries.databases / "chipdb-1k.txt", "a.asc"], cwd=tries.work, capture_output=True)
    (tries.work / "a.v").write_bytes(run.stdout)
    (tries.work / "c: d.events").write_bytes(b"x 1\n")


def layout_of(prefix):
    """The arguments that name the layout of real chips."""
    return ["--layout", str(prefix / "share/icestorm/silicon.layout")]


def stat_of(prefix):
    """The arguments that icebox_stat always has."""
    return layout_of(prefix) + ["--all-pins"]


def try_arguments(tries):
    """What the scripts make of their arguments."""
    prefix = tries.install("a prefix", tries.teller("teller"))
    layout = layout_of(prefix)
    vlog, stat = layout + ["--register-clocks", "--all-pins", "--used-inputs"], stat_of(prefix)
    small, large = str(tries.databases / "chipdb-1k.txt"), str(tries.databases / "chipdb-8k.txt")

    def gets(words, wanted, **more):
        tries.gets(prefix, words, wanted, **more)

    # tools without a database
    gets(["icepack", "-s", "a.asc"], layout + ["-s", "a.asc"])
    gets(["iceunpack"], layout, source=b"bytes")
    gets(["icepack", "--layout=x", "a.asc"], ["--layout=x", "a.asc"])
    gets(["icepack", "--", "--layout"], layout + ["--", "--layout"])
    gets(["icepack", "--version"], ["--version"])
    gets(["icebram", "from", "to"], ["--by-mode", "from", "to"], source=TEXT_1K)
    gets(["icebram", "--by-mode", "from", "to"], ["--by-mode", "from", "to"])
    gets(["icebram", "--", "--by-mode", "to"], ["--by-mode", "--", "--by-mode", "to"])
    gets(["icemulti", "-p0", "a.bin", "b b.bin"], ["--as-stock", "-p0", "a.bin", "b b.bin"])
    gets(["icemulti", "a.bin", "--as-stock"], ["a.bin", "--as-stock"])
    gets(["icemulti", "-o", "--as-stock", "a.bin"], ["--as-stock", "-o", "--as-stock", "a.bin"])
    gets(["icesplit", "-x", "1", "a.boot"], ["-x", "1", "a.boot"])
    gets(["vlogrun", "-s", ""], ["-s", ""], source=b"clk 1\n")

    # the word for the standard layout, which is no option of the program
    gets(["icepack", "--layout", "standard", "a.asc"], ["a.asc"])
    gets(["iceunpack", "a.bin", "--layout=standard"], ["a.bin"])
    gets(["icebox_diff", "--layout", "standard", "a.asc", "b.asc"], [small, "a.asc", "b.asc"])
    gets(["icebox_stat", "--layout=standard"], ["--all-pins", small], source=TEXT_1K)
    gets(["icepack", "--layout", "./standard", "a.asc"], ["--layout", "./standard", "a.asc"])
    gets(["icepack", "--layout", "x", "--layout", "standard"], ["--layout", "x", "--layout", "standard"])
    gets(["icepack", "--layout", "standard", "--layout", "x"], ["--layout", "standard", "--layout", "x"])
    gets(["icepack", "--layout=standard", "--layout=standard"], ["--layout", "standard", "--layout=standard"])
    gets(["icepack", "--layout"], ["--layout"])
    gets(["icepack", "--", "--layout=standard"], layout + ["--", "--layout=standard"])
    gets(["icebox_vlog", "-n", "--layout=standard", "a.asc"], vlog + [small, "-n", "--layout=standard", "a.asc"])
    gets(["icemulti", "--layout=standard"], ["--as-stock", "--layout=standard"])

    # -v of the stock tools
    gets(["icepack", "-v", "a.asc"], layout + ["a.asc"])
    gets(["iceunpack", "-vv", "a.bin", "-v"], layout + ["a.bin"])
    gets(["icemulti", "-o", "-v", "-v", "a.bin"], ["--as-stock", "-o", "-v", "a.bin"])
    gets(["icemulti", "-v", "-p0", "--", "-v"], ["--as-stock", "-p0", "--", "-v"])
    gets(["icepack", "-vs", "a.asc"], layout + ["-s", "a.asc"])
    gets(["icemulti", "-vo", "v.bin", "-cv", "a.bin"], ["--as-stock", "-o", "v.bin", "-c", "a.bin"])
    gets(["icemulti", "-ov.bin", "a.bin"], ["--as-stock", "-ov.bin", "a.bin"])
    gets(["icebram", "-v", "-g", "16", "256"], ["--by-mode", "-g", "16", "256"])
    gets(["icebram", "-g", "-s", "-v", "16", "256"], ["--by-mode", "-g", "-s", "-v", "16", "256"])
    gets(["icebox_vlog", "-v", "a.asc"], vlog + [small, "-v", "a.asc"])
    gets(["vlogrun", "-v"], ["-v"])

    # one image, of each device and kind
    gets(["icebox_explain", "a.asc"], layout + [small, "a.asc"])
    gets(["icebox_explain", "b.asc"], layout + [large, "b.asc"])
    gets(["icebox_explain", "a.bin"], layout + [small, "a.bin"])
    gets(["icebox_vlog", "b.bin"], vlog + [large, "b.bin"])
    gets(["icebox_stat", "b.bin"], stat + [large, "b.bin"])
    gets(["icebox_stat", "with a space.asc"], stat + [large, "with a space.asc"], source=b"not read")
    gets(["icebox_stat", "blanks.asc"], stat + [large, "blanks.asc"])
    gets(["icebox_vlog", "none.asc"], vlog + [small, "none.asc"])
    gets(["icebox_stat", "odd.asc"], stat + [small, "odd.asc"])

    # two images: the device is that of the first one that is a file
    gets(["icebox_diff", "a.asc", "b.asc"], layout + [small, "a.asc", "b.asc"], source=b"not read")
    gets(["icebox_diff", "b.bin", "b.asc"], layout + [large, "b.bin", "b.asc"])
    gets(["icebox_diff", "-q", "with a space.asc", "a.asc"], layout + [large, "-q", "with a space.asc", "a.asc"])
    gets(["icebox_diff", "/dev/null", "b.asc", "-q"], layout + [large, "/dev/null", "b.asc", "-q"])
    gets(["icebox_diff", "missing.asc", "b.asc"], layout + [large, "missing.asc", "b.asc"])
    gets(["icebox_diff", "missing.asc", "missing.bin"], layout + [small, "missing.asc", "missing.bin"])
    gets(["icebox_diff", "/dev/stdin", "a.asc"], layout + [small, "/dev/stdin", "a.asc"], source=TEXT_8K)
    gets(["icebox_diff", "/dev/stdin", "missing.asc"], layout + [large, "/dev/stdin", "missing.asc"], source=TEXT_8K)
    gets(["icebox_diff", "--", "-n", "a.asc"], layout + [large, "--", "-n", "a.asc"])
    gets(["icebox_diff", "a.asc"], layout + ["a.asc"], source=TEXT_1K)
    gets(["icebox_diff"], layout, source=TEXT_1K)
    gets(["icebox_diff", small, "a.asc"], layout + [small, "a.asc"])
    gets(["icebox_diff", small, "b.asc", "a.asc"], layout + [small, "b.asc", "a.asc"])
    gets(["icebox_diff", "--layout", "a.asc", "b.asc", "a.asc"], [large, "--layout", "a.asc", "b.asc", "a.asc"])

    # options with values, names after --
    gets(["icebox_explain", "-t", "1 1", "b.asc"], layout + [large, "-t", "1 1", "b.asc"])
    gets(["icebox_explain", "b.asc", "-t", "1 1"], layout + [large, "b.asc", "-t", "1 1"])
    gets(["icebox_explain", "--layout", "a.asc", "b.asc"], [large, "--layout", "a.asc", "b.asc"])
    gets(["icebox_vlog", "-n", "a.asc", "b.asc"], vlog + [large, "-n", "a.asc", "b.asc"])
    gets(["icebox_vlog", "-ntop", "b.asc"], vlog + [large, "-ntop", "b.asc"])
    gets(["icebox_vlog", "--names", "a.asc", "b.asc"], vlog + [large, "--names", "a.asc", "b.asc"])
    gets(["icebox_vlog", "--names=a.asc", "b.asc"], vlog + [large, "--names=a.asc", "b.asc"])
    gets(["icebox_vlog", "--", "-n"], vlog + [large, "--", "-n"])
    gets(["icebox_vlog", "-p", "pins.pcf", "a.asc"], vlog + ["-d", "tq144", small, "-p", "pins.pcf", "a.asc"])
    gets(["icebox_vlog", "b.asc", "-ppins.pcf"], vlog + ["-d", "ct256", large, "b.asc", "-ppins.pcf"])
    gets(["icebox_vlog", "-d", "qn84", "-p", "pins.pcf", "a.asc"], vlog + [small, "-d", "qn84", "-p", "pins.pcf", "a.asc"])
    gets(["icebox_vlog", "-n", "-p", "a.asc"], vlog + [small, "-n", "-p", "a.asc"])
    gets(["icebox_vlog", "--used-inputs", "a.asc"], layout + ["--register-clocks", "--all-pins", small, "--used-inputs", "a.asc"])
    gets(["icebox_vlog", "--all-pins", "a.asc"], layout + ["--register-clocks", "--used-inputs", small, "--all-pins", "a.asc"])
    gets(["icebox_vlog", "--register-clocks", "a.asc"], layout + ["--all-pins", "--used-inputs", small, "--register-clocks", "a.asc"])
    gets(["icebox_stat", "--all-pins", "a.asc"], layout + [small, "--all-pins", "a.asc"])
    gets(["icebox_plan", "b.asc", "-p", "pins.pcf"], stat + ["-d", "ct256", large, "b.asc", "-p", "pins.pcf"])
    gets(["icebox_plan", "-d", "qn84", "-p", "pins.pcf", "a.asc"], stat + [small, "-d", "qn84", "-p", "pins.pcf", "a.asc"])
    gets(["icebox_plan", "--all-pins", "a.asc"], layout + [small, "--all-pins", "a.asc"])

    # pipes: none is named, or one that can't be read twice
    gets(["icebox_explain"], layout + [small], source=TEXT_1K)
    gets(["icebox_vlog", "-n", "top"], vlog + [large, "-n", "top"], source=TEXT_8K)
    gets(["icebox_stat"], stat + [large], source=(tries.work / "b.bin").read_bytes())
    gets(["icebox_stat"], stat + [small], source=BEHIND_PIPE)
    gets(["icebox_plan", "-p", "pins.pcf"], stat + ["-d", "tq144", small, "-p", "pins.pcf"], source=TEXT_1K)
    gets(["icebox_vlog", "/dev/stdin", "-n", "top"], vlog + [large, "-n", "top"], source=TEXT_8K)
    gets(["icebox_stat"], stat + [small], source=b"")

    # a database is named, or what isn't for the script to judge
    gets(["icebox_stat", small], stat + [small], source=TEXT_8K)
    gets(["icebox_explain", large, "a.asc"], layout + [large, "a.asc"], source=b"not read")
    gets(["icebox_vlog", "a.asc", "b.asc"], vlog + ["a.asc", "b.asc"])
    gets(["icebox_vlog", "missing.asc"], vlog + ["missing.asc"])
    gets(["icebox_stat", "/"], stat + ["/"])
    gets(["icebox_vlog", "--version"], ["--version"])
    try_places(tries, prefix)
    try_pipes(tries, prefix)
    try_terminal(tries, prefix)


def try_places(tries, prefix):
    """Where databases are looked for, and what is said where there is none."""
    stat, own, always = ["icebox_stat", "a.asc"], prefix / "share/icestorm/chipdb", stat_of(prefix)
    if (CHIPDB / "chipdb-1k.txt").exists():
        tries.gets(prefix, stat, always + [str(CHIPDB / "chipdb-1k.txt"), "a.asc"], variables={})
    tries.stops(prefix, ["icebox_stat", "other.asc"], ("chipdb-2k.txt", str(own), str(CHIPDB), "ICEBOX_CHIPDB"), variables={})
    tries.stops(prefix, stat, ("chipdb-1k.txt", "no place", "ICEBOX_CHIPDB"), variables={"ICEBOX_CHIPDB": "no place"})
    tries.stops(prefix, ["icebox_vlog"], ("chipdb-8k.txt", "no place"), source=TEXT_8K, variables={"ICEBOX_CHIPDB": "no place"})
    shutil.copytree(tries.databases, own)
    tries.gets(prefix, stat, always + [str(own / "chipdb-1k.txt"), "a.asc"], variables={})
    shutil.copytree(tries.databases, tries.work / "-d")
    tries.gets(prefix, stat, always + ["./-d/chipdb-1k.txt", "a.asc"], variables={"ICEBOX_CHIPDB": "-d"})
    tries.stops(prefix, ["icebox_stat"], ("temporary",), source=TEXT_1K, variables={"TMPDIR": "/no/place"})
    tries.stops(prefix, ["icebox_stat"], ("can't be read",), preexec_fn=lambda: os.close(0))
    tries.tell("no temporary file is left", ", ".join(path.name for path in tries.copies.iterdir()))


def pipe_with(content):
    """The end to read of a pipe that this was written to."""
    reading, writing = os.pipe()
    os.write(writing, content)
    os.close(writing)
    return reading


def try_pipes(tries, prefix):
    """Names that are pipes, while standard input is something else or a pipe among them."""
    large = str(tries.databases / "chipdb-8k.txt")

    def gets(shell, words, wanted, contents, source):
        """Looks at a run in which each word PIPE is the name of a pipe with the next of these contents."""
        pipes = [pipe_with(content) for content in contents]
        names = ["/dev/fd/%d" % pipe for pipe in pipes]

        def named(words):
            rest = iter(names)
            return [next(rest) if word == "PIPE" else word for word in words]

        run = tries.run_script(prefix, named(words), source, {"ICEBOX_CHIPDB": str(tries.databases)}, shell, pass_fds=pipes)
        for pipe in pipes:
            os.close(pipe)
        lines, taken = wanted
        # a name that a copy takes the place of isn't passed on
        names[:] = names[len(names) - lines.count("PIPE"):]
        output = "".join(word + "\n" for word in [words[0], *named(lines)]).encode() + taken
        fault = "" if run.stdout == output else "it gets: " + first_lines(run.stdout + run.stderr)
        tries.tell("%s: %s, pipes" % (" ".join(shell), " ".join(words)), fault, fault)

    for shell in tries.shells:
        gets(shell, ["icebox_stat", "PIPE"], (stat_of(prefix) + [large], TEXT_8K), [TEXT_8K], b"not read")
        start = layout_of(prefix) + [large]
        gets(shell, ["icebox_diff", "PIPE", "PIPE"], (start + ["/dev/stdin", "PIPE"], TEXT_8K), [TEXT_8K, TEXT_1K], b"not read")
        gets(shell, ["icebox_diff", "PIPE", "b.asc"], (start + ["PIPE", "b.asc"], b"not read"), [TEXT_1K], b"not read")
        gets(shell, ["icebox_diff", "-q", "PIPE", "/dev/stdin"], (start + ["-q", "PIPE", "/dev/stdin"], TEXT_8K), [TEXT_1K], TEXT_8K)
        gets(shell, ["icebox_diff", "/dev/stdin", "PIPE"], (start + ["/dev/stdin", "PIPE"], TEXT_8K), [TEXT_1K], TEXT_8K)
        gets(shell, ["icebox_diff", large, "PIPE", "PIPE"], (start + ["PIPE", "PIPE"], b""), [TEXT_1K, TEXT_1K], b"")


def try_terminal(tries, prefix):
    """At a terminal a script waits for no image: the program says its usage."""
    ours, theirs = pty.openpty()
    os.write(ours, b"\4" * (len(tries.shells) + 1))
    tries.gets(prefix, ["icebox_stat"], stat_of(prefix), stdin=theirs)
    os.close(ours)
    os.close(theirs)


def said_at_terminal(tries, prefix, words, shell):
    """The exit status of a run whose standard error is a terminal, what it writes, and the lines that it says."""
    ours, theirs = pty.openpty()
    run = tries.run_script(prefix, words, b"", {"ICEBOX_CHIPDB": str(tries.databases)}, shell, stderr=theirs)
    os.write(theirs, b".\n") # so that there is something to read
    said = b""
    while not said.endswith(b".\r\n"):
        said += os.read(ours, 4096)
    os.close(ours)
    os.close(theirs)
    return run.returncode, run.stdout, said.decode().splitlines()[:-1]


def try_refusals(tries, prefix):
    """What is said of refusals, at a terminal and elsewhere: real runs."""
    for words, status, lines in (
        (["icepack", "wrong.asc"], 1, ["icepack: line 1: Device", "icestorm --explain Device tells more"]),
        (["icestorm", "icepack", "wrong.asc"], 1, ["icepack: line 1: Device", "icestorm --explain Device tells more"]),
        (["icesplit", "a.bin"], 1, ["icesplit: header 0: offset 4", "icestorm --explain header tells more"]),
        (["vlogsweep", "a.v", "c: d.events"], 1, ["vlogsweep: c: d.events line 1: Pin", "icestorm --explain Pin tells more"]),
        (["icebram", "-g", "16", "255"], 2, ["icebram: usage: icebram [--by-mode] FROM TO | icebram -g [-s SEED] WIDTH DEPTH"]),
        (["icebox_diff", "-q", "a.asc", "pins.asc"], 1, []),
        (["icebox_diff", "-q", "a.asc", "a.asc"], 0, []),
        (["iceunpack", "missing.bin"], 3, ["iceunpack: read failed: missing.bin"]),
        (["icestorm", "--explain", "loop"], 1, ["icestorm: no message has this cause: icestorm --explain lists all"]),
    ):
        for shell in tries.shells:
            got = said_at_terminal(tries, prefix, words, shell)
            fault = "" if got == (status, b"", lines) else "status %d, it says: %s" % (got[0], " / ".join(got[2]))
            tries.tell("%s: at a terminal: %s" % (" ".join(shell), " ".join(words)), fault, fault)
        run = tries.run_script(prefix, words, variables={"ICEBOX_CHIPDB": str(tries.databases)})
        fault = "" if (run.returncode, run.stderr.decode().splitlines()) == (status, lines[:1]) else "it says: " + first_lines(run.stderr)
        tries.tell("elsewhere: %s" % " ".join(words), fault)


def help_of(command):
    """The help that a command writes."""
    return subprocess.run([*command, "--help"], capture_output=True, check=True).stdout.decode()


def examples_of(text):
    """The command lines that a help has as examples."""
    part = re.search(r"^Examples?: +(.*(?:\n  .*)*)", text, re.M)
    return [shlex.split(line) for line in part.group(1).splitlines()]


def try_helps(tries, prefix):
    """The helps: what the installed tool always has is said once, and its examples are for chips."""
    image, layout = tries.folder / "image", TOP / "layouts/silicon.layout"
    image.mkdir()
    shutil.copy(TOP / "examples/player_1k/player.asc", image / "blink.asc")
    shutil.copy(layout, image)
    subprocess.run([tries.program, "icepack", "--layout", layout, "blink.asc", "blink.bin"], cwd=image, check=True)
    chip = (image / "blink.bin").read_bytes()
    text = subprocess.run([tries.program, "iceunpack", "--layout", layout, "blink.bin"], cwd=image, check=True, capture_output=True).stdout
    told = help_of([prefix / "bin/icestorm"])
    tries.tell("icestorm --help", "its example names a layout file" if "silicon.layout" in told else "")
    for tool in TOOLS:
        told = help_of([prefix / "bin" / tool])
        long = [line for line in told.splitlines() if len(line) > 80]
        tries.tell("the lines of %s --help" % tool, "longer than 80 columns: " + long[0] if long else "")
        tries.tell("icestorm %s --help" % tool, "" if help_of([prefix / "bin/icestorm", tool]) == told else "it is another one")
        always = re.findall(r"always has (.*?)\. ", told.replace("\n", " "))
        wanted = ALWAYS.get(tool)
        tries.tell("what %s always has" % tool, "" if always == ([wanted] if wanted else []) else "the help says: " + " / ".join(always))
    for command, instead in (((tries.program,), tries.program), *(((tries.program, tool), tries.program) for tool in TOOLS),
                             *(((prefix / "bin" / tool,), prefix / "bin/icestorm") for tool in TOOLS)):
        for words in examples_of(help_of(command)):
            line = " ".join(words)
            words = words[1:] if words[0] == "icestorm" else words
            fault = ""
            if words[0] in ("icepack", "iceunpack"):
                (image / "blink.bin").write_bytes(chip)
                ended = subprocess.run([instead, *words], cwd=image, capture_output=True)
                right = (image / "blink.bin").read_bytes() == chip and (words[0] == "icepack" or (image / "blink.asc").read_bytes() == text)
                fault = "" if ended.returncode == 0 and right else "status %d, it isn't the file of a chip" % ended.returncode
            elif words[0].startswith("icebox") and any(word.endswith(".bin") for word in words):
                is_right = ("--layout" in words) == (instead == tries.program)
                fault = "" if is_right else "it has the layout of chips twice, or not at all"
            tries.tell("the example: " + line, fault)


def try_older(tries, prefix):
    """The tools put in the place of older ones, where icestorm was the program."""
    older = tries.folder / "older"
    (older / "bin").mkdir(parents=True)
    shutil.copy(tries.program, older / "bin/icestorm")
    (older / "bin/icemulti").write_text('#!/bin/sh\nexec "$(dirname "$0")/icestorm" icemulti "$@"\n')
    for program in (older / "bin/icestorm", tries.program, older / "bin/icestorm"):
        tries.install("older", program)
        for words in (["icestorm", "icepack", "a.asc"], ["icestorm", "--version"], ["icemulti", "a.bin"]):
            got, wanted = (tries.run_script(place, words) for place in (older, prefix))
            is_same = (got.returncode, got.stdout, got.stderr) == (0, wanted.stdout, b"")
            fault = "" if is_same else "it says: " + first_lines(got.stderr)
            tries.tell("installed again, by %s: %s" % (pathlib.Path(program).name, " ".join(words)), fault)
    is_whole = (older / "libexec/icestorm/icestorm").read_bytes() == pathlib.Path(tries.program).read_bytes()
    tries.tell("the program that is installed again", "" if is_whole else "it isn't the one of before")


def try_pages(tries, prefix):
    """The manual pages."""
    for tool in ("icestorm", *TOOLS, "iceverify"):
        page = prefix / "share/man/man1" / (tool + ".1")
        shown = subprocess.run(["groff", "-man", "-ww", "-Tascii", "-P-cbou", page], capture_output=True)
        text = shown.stdout.decode(errors="replace")
        sections = ["NAME", "SYNOPSIS", "EXIT STATUS", "EXAMPLES", "SEE ALSO"] + ["DESCRIPTION"] * (tool in ("icebox_vlog", "icebox_stat", "icebox_plan"))
        missing = [section for section in sections if "\n%s\n" % section not in text]
        missing += [option for option in options(prefix, tool) if "\n       %s" % option not in text]
        fault = first_lines(shown.stderr) or ("it has no " + ", ".join(missing) if missing else "")
        self_named = "%s - " % tool in text
        tries.tell("the manual page %s" % page.name, fault or ("" if self_named else "it has another name"))


def options(prefix, tool):
    """The options that the help of an installed tool has."""
    words = [prefix / "bin" / tool, "--help"]
    lines = subprocess.run(words, capture_output=True, check=True).stdout.decode().splitlines()
    return [line.split()[0] for line in lines if line.startswith("  -")]


def completed(prefix, name, words):
    """What bash completes the last one of these words to, where the completions of that name were read."""
    script = 'source "$1" && shift && complete -p "$1" >&2 && COMP_WORDS=("$@") && COMP_CWORD=$(($# - 1)) && '
    script += '_icestorm "$1" "${COMP_WORDS[COMP_CWORD]}" "${COMP_WORDS[COMP_CWORD - 1]}" && printf "%s " "${COMPREPLY[@]}"'
    run = subprocess.run(["bash", "--norc", "-c", script, "bash", prefix / "share/bash-completion/completions" / name, *words], capture_output=True)
    return run.stdout.decode().split(), run.stderr.decode()


def try_completions(tries, prefix):
    """The completions for bash."""
    for tool in TOOLS:
        found, said = completed(prefix, tool, [tool, "-"])
        wanted = options(prefix, tool) + ["--help"]
        is_bound = said.strip() == "complete -o default -F _icestorm " + tool
        tries.tell("bash completes %s" % tool, "" if found == wanted and is_bound else "to: %s; %s" % (" ".join(found), said))
    found, said = completed(prefix, "iceverify", ["iceverify", "-"])
    tries.tell("bash completes iceverify", "" if found == options(prefix, "iceverify") and said else "to: " + " ".join(found))
    for words, wanted in ((["icestorm", "icebox_"], ["icebox_explain", "icebox_diff", "icebox_stat", "icebox_plan", "icebox_vlog"]), (["icepack", "--la"], ["--layout"]),
                          (["icestorm", "icebram", "--b"], ["--by-mode"]), (["icestorm", "--e"], ["--explain"]),
                          (["icestorm", "--explain", "Lo"], ["Long", "LongPayload", "Loop"]), (["icepack", "a"], []), (["icestorm", "icepack", ""], [])):
        found, _ = completed(prefix, words[0], words)
        tries.tell("bash completes: %s" % " ".join(words), "" if found == wanted else "to: " + " ".join(found))


def try_devices(tries, prefix):
    """The stock tools' calls, over real databases."""
    examples = TOP / "examples"

    def holds(words, wanted, source=b""):
        run = tries.run_script(prefix, words, source)
        is_wanted = run.returncode == 0 and not run.stderr and wanted(run.stdout)
        fault = "" if is_wanted else "status %d, it says: %s" % (run.returncode, first_lines(run.stderr))
        tries.tell(" ".join(pathlib.Path(word).name for word in words) + (" from a pipe" if source else ""), fault)

    text = examples / "bus_1k/bus.asc"
    header = (examples / "bus_1k/bus.module").read_bytes().splitlines()[0]
    explained = {name: (examples / name).read_bytes() for name in ("blink_1k/blink.explain", "lights_8k/lights.explain")}
    holds(["icebox_explain", str(examples / "blink_1k/blink.asc")], lambda output: output == explained["blink_1k/blink.explain"])
    holds(["icebox_vlog"], lambda output: output.splitlines()[0] == header, text.read_bytes())
    try_part(tries, prefix, try_make, "make", "yosys", "nextpnr-ice40")
    holds(["icebox_explain"], lambda output: output == explained["lights_8k/lights.explain"], (examples / "lights_8k/lights.asc").read_bytes())


def try_make(tries, prefix):
    """A stock project's Makefile."""
    for source in (TOP / "examples/player_1k").iterdir():
        if source.suffix != ".asc":
            shutil.copy(source, tries.work)
    shutil.copy(TOP / "check/modules/stock.mk", tries.work / "Makefile")
    flags = ["VLOG_FLAGS=-p player.pcf"] if "-p" in options(prefix, "icebox_vlog") else []
    run = subprocess.run(["make"] + flags, cwd=tries.work, env=tries.environment(prefix, {}), capture_output=True)
    tries.tell("make", "" if run.returncode == 0 else "status %d: %s" % (run.returncode, first_lines(run.stderr)))
    for name, start in (("player.bin", b"\xff"), ("player.ex", b".device 1k\n"), ("player_chip.v", b"module chip ("), ("player_loaded.bin", b"\xff"),
                        ("player.stat", b"luts ")):
        path = tries.work / name
        tries.tell("make makes %s" % name, "" if path.exists() and path.read_bytes().startswith(start) else "it isn't there, or begins otherwise")
    if shutil.which("yosys-abc"):
        run = subprocess.run(["make", "verify"], cwd=tries.work, env=tries.environment(prefix, {}), capture_output=True)
        tries.tell("make verify", "" if run.returncode == 0 and b"\nequal: " in run.stdout else "it says: " + first_lines(run.stdout + run.stderr))
    pair = [tries.work / name for name in ("player.bin", "player_loaded.bin")]
    is_loaded = all(path.exists() for path in pair) and pair[0].read_bytes() != pair[1].read_bytes()
    tries.tell("make puts other contents into the RAM", "" if is_loaded else "the bitstreams are the same")


def try_part(tries, prefix, part, *needs):
    """A part, if this machine has what it needs."""
    lacking = missing(needs)
    if lacking:
        tries.skip(part.__doc__.rstrip("."), lacking)
    else:
        part(tries, prefix)


def main(words):
    if words not in ([], ["-q"]):
        print(__doc__, file=sys.stderr)
        return 2
    with tempfile.TemporaryDirectory() as folder:
        tries = Installed(folder)
        make_images(tries)
        try_arguments(tries)
        prefix = tries.install("real", tries.program)
        try_refusals(tries, prefix)
        try_helps(tries, prefix)
        try_older(tries, prefix)
        try_part(tries, prefix, try_pages, "groff")
        try_part(tries, prefix, try_completions, "bash")
        if not words:
            try_part(tries, prefix, try_devices, "chipdb")
        return tries.end()


if __name__ == "__main__":
    sys.exit(main(sys.argv[1:]))
