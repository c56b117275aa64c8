#!/usr/bin/env python3
"""Looks that the files of the examples go with one another, and compares what is made of them with what the stock tools make.

Usage: check/examples.py [TEXT...]     without names: the examples; else the last point below for these texts

- Each NAME.run has the lines of vlogrun -s of NAME.module over NAME.events.
- Each NAME.explain is what icebox_explain writes of NAME.asc, and each NAME.module what icebox_vlog writes of it, also with --register-clocks,
  since no clock there comes from a register. Two of the examples are refused with a known line: the router wires the output of a cell to an
  input that the cell's table doesn't use, which is a loop. With --used-inputs they are taken.
- icebram puts the steps of steps.hex in place of those of random.hex into player.asc. Each line but those of RAMs stays.
- Four of the examples become boot files, with several options, and icesplit takes the images out again.
- icepack, iceunpack, icebram and icemulti write what the stock tools write, byte for byte. Of the stock iceunpack the tiles, contents of RAMs
  and extra bits count: its text has other comments. Boot files are those of four images; with --as-stock also those of fewer images, and of
  images that are named again.

What needs the chip databases of Debian's package fpga-icestorm-chipdb, or the stock tools of fpga-icestorm, is skipped if these aren't there.

The last line is 'N passed, M failed' or 'N passed, M failed, K skipped'. Status 0: nothing failed; 1: something failed; 2: the arguments
aren't taken; 127: there is no program.
"""
import pathlib
import subprocess
import sys
import tempfile

from modules.programs import CHIPDB, TOP, missing, need, program, stock
from modules.routing import Refused
from modules.stock import LAYOUT, difference, pack_by_stock
from modules.tries import Tally

EXAMPLES = TOP / "examples"
PLAYER = EXAMPLES / "player_1k"
LOOPS = {"blink": "icebox_vlog: net 23567: Loop\n", "lights": "icebox_vlog: net 32759: Loop\n"}
BOOT_OPTIONS = "", "-p0", "-p1", "-p3", "-c", "-a16", "-A16", "-p2 -A 12", "-c -a 20"
BOOT_LISTS = (0,), (0, 1), (0, 1, 2), (0, 1, 2, 3), (0, 0), (0, 1, 0), (0, 0, 1), (0, 1, 1, 2), (3, 1, 2, 3), (0, 0, 0, 0)


def output_of(words, source=None):
    """What the program writes for these arguments, and the text as standard input."""
    run = subprocess.run([program(), *words], capture_output=True, input=source or b"")
    if run.returncode != 0:
        raise Refused(run.stderr.decode(errors="replace") or "status %d" % run.returncode)
    return run.stdout


def database_of(text):
    """The chip database of an example, whose folder ends in the device's word."""
    return CHIPDB / ("chipdb-%s.txt" % text.parent.name.rpartition("_")[2])


def tell_same(tally, what, written, path):
    """Whether a file has what is written."""
    tally.tell(what, "" if written == path.read_bytes() else "it isn't what %s has" % path.name)


# ---- files that go with one another

def try_runs(tally, _):
    """The lines of runs."""
    for lines in sorted(EXAMPLES.glob("*/*.run")):
        module, events = lines.with_suffix(".module"), lines.with_suffix(".events")
        tell_same(tally, "vlogrun -s of %s" % module.name, output_of(["vlogrun", "-s", module, events]), lines)


def try_explained(tally, _):
    """Explained texts, modules, and the designs that are refused."""
    for explained in sorted(EXAMPLES.glob("*/*.explain")):
        text = explained.with_suffix(".asc")
        tell_same(tally, "icebox_explain of %s" % text.name, output_of(["icebox_explain", database_of(text), text]), explained)
    for module in sorted(EXAMPLES.glob("*/*.module")):
        text = module.with_suffix(".asc")
        for options in [], ["--register-clocks"]:
            tell_same(tally, " ".join(["icebox_vlog", *options, "of", text.name]), output_of(["icebox_vlog", *options, database_of(text), text]), module)
    for name, line in LOOPS.items():
        text, = EXAMPLES.glob("*/%s.asc" % name)
        try_loop(tally, text, line)


def try_loop(tally, text, line):
    """A design that is refused for a loop, and taken with --used-inputs."""
    run = subprocess.run([program(), "icebox_vlog", database_of(text), text], capture_output=True)
    is_refused = (run.returncode, run.stdout, run.stderr.decode()) == (1, b"", line)
    tally.tell("icebox_vlog of %s is refused" % text.name, "" if is_refused else "status %d, and it says: %s" % (run.returncode, run.stderr))
    module = output_of(["icebox_vlog", "--used-inputs", database_of(text), text])
    tally.tell("icebox_vlog --used-inputs of %s" % text.name, "" if module.startswith(b"module chip (") else "it is no module")


# ---- other contents of RAMs

def try_words(tally, folder):
    """Other contents of RAMs."""
    known, others, text = PLAYER / "random.hex", PLAYER / "steps.hex", (PLAYER / "player.asc").read_bytes()
    replaced = output_of(["icebram", known, others], text)
    is_right = replaced != text and without_words(replaced) == without_words(text)
    tally.tell("icebram puts other words into player.asc", "" if is_right else "it replaces nothing, or more than words")
    (folder / "loaded.asc").write_bytes(replaced)


def without_words(text):
    """The lines of a text but those of RAMs, which are 64 digits long."""
    return [line for line in text.splitlines() if len(line) != 64]


def try_stock_words(tally, folder):
    """Other contents of RAMs by the stock icebram."""
    with open(PLAYER / "player.asc", "rb") as text:
        words = [stock("icebram"), PLAYER / "random.hex", PLAYER / "steps.hex"]
        theirs = subprocess.run(words, stdin=text, stdout=subprocess.PIPE, check=True).stdout
    tell_same(tally, "the stock icebram writes the same", theirs, folder / "loaded.asc")


# ---- boot files

def try_boot_files(tally, folder):
    """Boot files, taken apart again."""
    texts = EXAMPLES / "blink_1k/blink.asc", PLAYER / "player.asc", folder / "loaded.asc", EXAMPLES / "one_bit.asc"
    images = [folder / (text.stem + ".bin") for text in texts]
    for text, image in zip(texts, images):
        output_of(["icepack", "--layout", LAYOUT, text, image])
    for options in BOOT_OPTIONS:
        boot = folder / ("%s.boot" % options)
        output_of(["icemulti", *options.split(), "-o", boot, *images])
        taken = [output_of(["icesplit", "-x", str(number), boot]) for number in range(len(images))]
        differing = [image.name for image, out in zip(images, taken) if image.read_bytes() != out]
        tally.tell("icesplit of a boot file by icemulti %s" % options, differing and "other images: " + " ".join(differing))


def try_stock_boot_files(tally, folder):
    """Boot files by the stock icemulti."""
    images = [folder / (name + ".bin") for name in ("blink", "player", "loaded", "one_bit")]
    for options in BOOT_OPTIONS:
        subprocess.run([stock("icemulti"), *options.split(), "-o", folder / "stock.boot", *images], check=True)
        tell_same(tally, "the stock icemulti %s writes the same" % options, (folder / "stock.boot").read_bytes(), folder / ("%s.boot" % options))
    for numbers in BOOT_LISTS:
        for options in BOOT_OPTIONS:
            if image_at_power_on(options) < len(numbers):
                words = [*options.split(), *(images[number] for number in numbers)]
                subprocess.run([stock("icemulti"), "-o", folder / "stock.boot", *words], check=True)
                what = "icemulti --as-stock %s of images %s" % (options, " ".join(map(str, numbers)))
                tell_same(tally, what, output_of(["icemulti", "--as-stock", *words]), folder / "stock.boot")


def image_at_power_on(options):
    """The image that options of icemulti choose for power-on."""
    return next((int(word[2:]) for word in options.split() if word.startswith("-p")), 0)


# ---- bitstreams

def try_stock_bitstreams(tally, folder, texts=None):
    """Bitstreams and their texts by the stock icepack and iceunpack."""
    for text in texts or sorted(EXAMPLES.rglob("*.asc")):
        try:
            pack_by_stock(text, folder)
            fault = difference(text, folder)
        except Refused as refused:
            fault = "refused: %s" % refused
        tally.tell("the stock icepack and iceunpack of %s" % text.name, fault)


def try_part(tally, part, needs, folder):
    """A part, if this machine has what it needs."""
    lacking = missing(needs)
    what = part.__doc__.rstrip(".")
    if lacking:
        tally.skip(what, lacking)
        return
    try:
        part(tally, folder)
    except (Refused, OSError, subprocess.CalledProcessError) as error:
        tally.tell(what, str(error))


def main(words):
    if any(word.startswith("-") for word in words):
        print(__doc__, file=sys.stderr)
        return 2
    need(*["fpga-icestorm"] * bool(words))
    tally = Tally()
    with tempfile.TemporaryDirectory() as folder:
        if words:
            try_stock_bitstreams(tally, pathlib.Path(folder), [pathlib.Path(word).resolve() for word in words])
            return tally.end()
        for part, needs in ((try_runs, ()), (try_explained, ("chipdb",)), (try_words, ()), (try_stock_words, ("fpga-icestorm",)),
                            (try_boot_files, ()), (try_stock_boot_files, ("fpga-icestorm",)), (try_stock_bitstreams, ("fpga-icestorm",))):
            try_part(tally, part, needs, pathlib.Path(folder))
    return tally.end()


if __name__ == "__main__":
    sys.exit(main(sys.argv[1:]))
