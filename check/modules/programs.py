"""Which program is checked, where it is installed for a check, and what else is on this machine.

The program is that of the environment variable ICESTORM, or else the one that ./icestorm runs: what was built here if it is fresh, else
that of dist/.
"""
import functools
import os
import pathlib
import shutil
import subprocess
import sys

TOP = pathlib.Path(__file__).resolve().parent.parent.parent
CHIPDB = pathlib.Path("/usr/share/fpga-icestorm/chipdb")
STOCK_TOOLS = "icepack", "iceunpack", "icemulti", "icebram"


@functools.cache
def program():
    """The path of the program that is checked; of an installed icestorm, which is a script, that of its program. Ends the script with status
    127 if there is none."""
    named = os.environ.get("ICESTORM")
    if not named:
        chosen = subprocess.run([TOP / "dist/choose"], stdout=subprocess.PIPE, text=True)
        named = chosen.stdout.strip()
    if not named or not os.access(named, os.X_OK):
        what = " " + named if named else " of these sources; ./build proves and builds it"
        print("%s: there is no program%s" % (sys.argv[0], what), file=sys.stderr)
        sys.exit(127)
    path = pathlib.Path(named).resolve()
    installed = path.parent.parent / "libexec/icestorm/icestorm"
    return installed if installed.exists() else path


def stock(name):
    """The stock tool of that name: the first on the PATH that doesn't stand beside an installed `icestorm`. None if there is none."""
    folders = [pathlib.Path(folder) for folder in os.environ["PATH"].split(os.pathsep)]
    found = [folder / name for folder in folders if os.access(folder / name, os.X_OK) and not (folder / "icestorm").exists()]
    return found[0] if found else None


def is_there(need):
    """Whether this machine has a program, the chip databases if the need is `chipdb`, or the stock tools if it is `fpga-icestorm`."""
    if need == "chipdb":
        return (CHIPDB / "chipdb-1k.txt").exists() and (CHIPDB / "chipdb-8k.txt").exists()
    if need == "fpga-icestorm":
        return all(stock(name) for name in STOCK_TOOLS)
    return shutil.which(need) is not None


def missing(needs):
    """Those of the needs that this machine lacks."""
    return [need for need in needs if not is_there(need)]


def need(*needs):
    """Ends the script with status 127 if there is no program to check, or this machine lacks one of these needs."""
    program()
    lacking = missing(needs)
    if lacking:
        print("%s: there is no %s" % (sys.argv[0], ", no ".join(lacking)), file=sys.stderr)
        sys.exit(127)


def install(prefix):
    """Installs the program that is checked, with its scripts, below a folder."""
    around = {**os.environ, "ICESTORM": str(program())}
    subprocess.run([TOP / "install", prefix], env=around, stdout=subprocess.DEVNULL, check=True)
