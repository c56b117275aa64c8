#!/usr/bin/env python3
"""Tries the wrong bodies of check/wrong_bodies, or those of some crates, each of which the prover must refuse.

Usage: check/wrong_bodies.py [CRATE ...]

A wrong body is an edit of a crate: a file with lines 'file: NAME', 'old: TEXT' and 'new: TEXT'. The few that say most of the public promises
stand in crates/CRATE/must-fail, where rt ci tries them at each run; the others stand here, for a release and for whoever changes a
contract. They are tried on a copy of the crates, over what an earlier rt ci on this machine proved; what has changed since is proved
first. One costs 30 to 160 processor seconds, and each crate as much again as its own proof.

Each edit that isn't refused, or can't be tried, is told. The last line is 'N passed, M failed'. Status 0: all are refused; 1: one isn't, or a
crate isn't proved; 2: a crate has none here; 127: the command rt is missing.
"""
import os
import pathlib
import re
import shutil
import subprocess
import sys
import tempfile

TOP = pathlib.Path(__file__).resolve().parent.parent
BODIES = TOP / "check/wrong_bodies"
TRIED = re.compile(r"(?:rt: )?must-fail (\S+): (.*)")
REFUSED = "refused, as it must be"


def copy(names, place):
    """Copies the crates to a folder, with the wrong bodies of these in place of their own edits."""
    shutil.copytree(TOP / "crates", place / "crates", ignore=shutil.ignore_patterns("out", "must-fail"))
    for name in ("crates.txt", "HANDLES"):
        shutil.copy(TOP / name, place)
    for name in names:
        shutil.copytree(BODIES / name, place / "crates" / name / "must-fail")


def tell(lines, count):
    """Shows what isn't refused, and tells how many are; with what failed besides, if not all were tried."""
    tried = [found.groups() for found in map(TRIED.match, lines) if found]
    wrong = [(name, said) for name, said in tried if not said.startswith(REFUSED)]
    for name, said in wrong:
        print("%s: %s" % (name, said))
    if len(tried) < count:
        sys.stdout.writelines(lines[-20:])
    print("%d passed, %d failed" % (len(tried) - len(wrong), len(wrong) + count - len(tried)))
    return 0 if len(tried) == count and not wrong else 1


def main(names):
    there = sorted(path.name for path in BODIES.iterdir())
    lacking = [name for name in names if name not in there]
    if lacking:
        print("check/wrong_bodies.py: there are none of %s" % lacking[0], file=sys.stderr)
        return 2
    if not shutil.which("rt"):
        print("check/wrong_bodies.py: the command rt of the Rattle kit isn't on the PATH", file=sys.stderr)
        return 127
    names = names or there
    count = sum(len(list((BODIES / name).glob("*.edit"))) for name in names)
    around = {name: value for name, value in os.environ.items() if name != "CI"} # rt ci takes no names there
    with tempfile.TemporaryDirectory(prefix="wrong-bodies-") as folder:
        copy(names, pathlib.Path(folder))
        ran = subprocess.run(["rt", "ci", *names], cwd=folder, env=around, stdin=subprocess.DEVNULL, stdout=subprocess.PIPE,
                             stderr=subprocess.STDOUT, text=True, errors="replace")
    return tell(ran.stdout.splitlines(True), count)


if __name__ == "__main__":
    sys.exit(main(sys.argv[1:]))
