#!/usr/bin/env python3
"""Where the processor seconds of the gate go: by crate, by tests and wrong edits, and by function.

Usage: bench/gate.py [-j JOBS]           proves all from nothing, in a copy of the last commit, and prints a table of the crates
       bench/gate.py NAME...             proves these crates alone, one function after the other, and prints the fifty dearest functions
       bench/gate.py --tests NAME...     the same for the tests of these crates

The table has, for each crate, the processor seconds of its proof, of the proofs of its tests, and of its wrong edits, how many functions it has,
and the peak memory of its proof in MB. Seconds of the processes of the prover are read once a second, so the last second of each is lost. JOBS is
how many of them run side by side, as many as .ci/jobs says if it is missing.

With names each crate is checked by one process, and the seconds of a function are those since the last line of that process: they are processor
seconds, so that they hold on a busy machine too. The libraries below a crate must be built in this checkout (`rt ci` or `rt check` does that).

Status 0: all is proved; 1: something isn't; 2: the words aren't taken.
"""
import os
import pathlib
import re
import subprocess
import sys
import tempfile
import time

TOP = pathlib.Path(__file__).resolve().parent.parent
TICKS = os.sysconf("SC_CLK_TCK")


def rows():
    """The crates of crates.txt in their order, each with the libraries that it names."""
    lines = (line.split("#")[0].strip() for line in (TOP / "crates.txt").read_text().splitlines())
    return {line.split(":")[0].split()[0]: line.split(":")[1].split() for line in lines if line}


def seconds_of(process):
    """The processor seconds that a process has used, by its number."""
    fields = pathlib.Path(f"/proc/{process}/stat").read_text().rsplit(")", 1)[1].split()
    return (int(fields[11]) + int(fields[12])) / TICKS


def provers(folder):
    """The processes of the prover that work below a folder: number, words, seconds, peak memory in MB."""
    for process in filter(str.isdigit, os.listdir("/proc")):
        try:
            words = pathlib.Path(f"/proc/{process}/cmdline").read_text().split("\0")
            if not words[0].endswith("bin/rattle") or not os.readlink(f"/proc/{process}/cwd").startswith(folder):
                continue
            peak = re.search(r"VmHWM:\s+(\d+)", pathlib.Path(f"/proc/{process}/status").read_text())
            yield process, words, os.readlink(f"/proc/{process}/cwd"), seconds_of(process), int(peak[1]) // 1024 if peak else 0
        except OSError:
            continue


def kind_of(words, cwd):
    """What such a process does: the proof of a crate, that of its tests, or a wrong edit."""
    if "/crates/" not in cwd or "must-fail" in cwd or "edit" in os.path.basename(cwd):
        return "edits"
    return "tests" if "--test" in words else "proof"


def whole(jobs):
    """Runs the proofs, the tests and the wrong edits of the last commit from nothing, and prints the table."""
    with tempfile.TemporaryDirectory(prefix="gate-") as room:
        subprocess.run(["git", "clone", "-q", str(TOP), f"{room}/copy"], check=True)
        seen, begun = {}, time.time()
        with open(f"{room}/log", "w+") as log:
            run = subprocess.Popen(["rt", "ci", "--anew"], cwd=f"{room}/copy", stdout=log, stderr=subprocess.STDOUT, env={**os.environ, "RT_JOBS": jobs})
            while run.poll() is None:
                for process, words, cwd, seconds, peak in provers(room):
                    name = words[words.index("--crate-name") + 1] if "--crate-name" in words else "?"
                    seen[process, name, kind_of(words, cwd)] = seconds, peak
                time.sleep(1)
            log.seek(0)
            text = log.read()
        print_table(seen, text, time.time() - begun)
        print(text.splitlines()[-1])
        return run.returncode


def print_table(seen, text, minutes):
    """Prints the table of the crates, from what was seen of each process and the log."""
    functions = {name: len(re.findall(rf"^fn {name}::.*: proved$", text, re.M)) for name in rows()}
    total = dict.fromkeys(("proof", "tests", "edits"), 0.0)
    print("| crate | functions | proof | tests | edits | MB |\n|---|---|---|---|---|---|")
    for name in rows():
        cells = {kind: [value for (_, crate, what), value in seen.items() if crate == name and what == kind] for kind in total}
        sums = {kind: sum(seconds for seconds, _ in values) for kind, values in cells.items()}
        for kind in total:
            total[kind] += sums[kind]
        peak = max((peak for _, peak in cells["proof"]), default=0)
        print(f"| `{name}` | {functions[name]} | {sums['proof']:.0f} | {sums['tests']:.0f} | {sums['edits']:.0f} | {peak} |")
    print(f"| all | {sum(functions.values())} | {total['proof']:.0f} | {total['tests']:.0f} | {total['edits']:.0f} | |")
    print(f"\n{minutes / 60:.0f} minutes with {sum(total.values()):.0f} processor seconds")


def below(name, found=None):
    """The crates of this repository that a crate stands on, directly or not."""
    found = {} if found is None else found
    for library in rows().get(name, []):
        if library in rows() and library not in found:
            found[library] = True
            below(library, found)
    return list(found)


def command(name, tests, room):
    """The words with which rt checks a crate, from nothing and by one process."""
    kit = pathlib.Path(subprocess.run(["rt", "doc"], capture_output=True, text=True, check=True).stdout.strip()).parent
    root = "src/main.rt" if (TOP / "crates" / name / "src/main.rt").exists() else "src/lib.rt"
    words = [f"{kit}/bin/rattle", "check", "--crate-name", name, root, "--extern", f"std={kit}/rlibs/std.rlib", "-L", f"dependency={kit}/rlibs"]
    for library in rows()[name]:
        own = TOP / "crates" / library / "out/rlib"
        at = own if library in rows() else kit / "rlibs"
        words += ["--extern", f"{library}={at}/{library}.rlib"]
    for library in below(name):
        words += ["-L", f"dependency={TOP}/crates/{library}/out/rlib"]
    words += ["--antt-project", f"{kit}/rattle/logic/antt-project.json", "--logic-built", f"{kit}/logic_built", "--links", f"{name}="]
    return [*words, "--jobs", "1", "--incremental", room, "--progress", *(["--test"] if tests else [])]


def functions_of(name, tests):
    """Checks a crate, and gives the seconds of each function, those of the whole, and whether it is proved."""
    found, last = [], 0.0
    with tempfile.TemporaryDirectory(prefix="gate-") as room:
        run = subprocess.Popen(command(name, tests, room), cwd=TOP / "crates" / name, stdout=subprocess.PIPE, stderr=subprocess.STDOUT, text=True)
        for line in run.stdout:
            told = re.match(r"checked (\S+),", line)
            if told:
                now = seconds_of(run.pid)
                found.append((now - last, told[1]))
                last = now
        _, status, used = os.wait4(run.pid, 0)
    return found, used.ru_utime + used.ru_stime, status == 0


def by_function(names, tests):
    """Prints the dearest functions of some crates."""
    found, is_proved = [], True
    for name in names:
        functions, seconds, is_whole = functions_of(name, tests)
        is_proved = is_proved and is_whole
        found += functions
        print(f"{name}: {len(functions)} functions, {seconds:.0f} processor seconds, {sum(it for it, _ in functions):.0f} of them by function")
    for seconds, name in sorted(found, reverse=True)[:50]:
        print(f"{seconds:8.1f}  {name}")
    return 0 if is_proved else 1


def main(words):
    tests = words[:1] == ["--tests"]
    names = words[1:] if tests else words
    if not names or names[0] == "-j":
        if tests or len(names) not in (0, 2):
            sys.exit(2)
        jobs = names[1] if names else subprocess.run([TOP / ".ci/jobs"], capture_output=True, text=True, check=True).stdout.strip()
        return whole(jobs)
    if any(name not in rows() for name in names):
        print(f"gate.py: {[name for name in names if name not in rows()][0]} is no crate of crates.txt", file=sys.stderr)
        return 2
    return by_function(names, tests)


if __name__ == "__main__":
    sys.exit(main(sys.argv[1:]))
