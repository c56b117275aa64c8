"""The programs that iceverify runs, its inputs, and the folder in which all of them work."""
import contextlib
import os
import shutil
import signal
import subprocess
import sys
from pathlib import Path
from typing import Callable, Dict, List, Optional, Set

from stopping import MEMORY, READING, TOO_LONG, WRITING, Stop, held

LIMIT = 1 << 28
LIST, TITLE = "iceverify.files", "Files that iceverify --log wrote here, and may write again:"


class Tools:
    """folder: where files for the programs and their logs go. here: the folder of the installed tools. kept: the folder as --log names it, if
    it is to stay. owned: the files there that this run may write, since it or an earlier one made them."""

    def __init__(self, folder: Path, here: Path, kept: Optional[str] = None):
        self.folder = folder
        self.here = here
        self.kept = kept
        self.owned: Set[str] = self.listed() if kept else set()
        self.paths: Dict[str, str] = {}
        self.copies = 0

    def need(self, names: List[str]) -> None:
        """Raises Stop if one of the programs is missing."""
        missing = [name for name in names if not shutil.which(name)]
        if missing:
            raise Stop(READING, "it needs %s, which is missing: install the package yosys" % " and ".join(missing))

    def path(self, name) -> str:
        """Where a file can be read more than once: at its own place, or, as for a pipe, as a copy in the folder. Raises Stop as `read`."""
        name = str(name)
        if name not in self.paths:
            real = os.path.realpath(name)
            if not os.path.isfile(real):
                self.copies += 1
                real = str(self.write_bytes("input%d" % self.copies, read_bytes(name, name)))
            self.paths[name] = real
        return self.paths[name]

    def read(self, name) -> str:
        """The text of a file. Raises Stop if it can't be read, or is longer than LIMIT bytes."""
        return read_bytes(self.path(name), name).decode("utf-8", errors="replace")

    def listed(self) -> Set[str]:
        """The files that earlier runs wrote into a folder that is kept. Raises Stop if the list of them isn't one."""
        path = self.folder / LIST
        if not os.path.lexists(path):
            return set()
        title, *names = read_bytes(path, self.shown(LIST)).decode("utf-8", errors="replace").split("\n")
        if title != TITLE:
            raise Stop(WRITING, "write failed: %s is there, and no earlier run wrote it" % self.shown(LIST))
        return set(names)

    def shown(self, name: str) -> str:
        """The path of a file of the folder, for a reader."""
        return os.path.join(self.kept or str(self.folder), name)

    def claim(self, name: str) -> Path:
        """The path of a file in the folder that is to be written. Raises Stop if that would overwrite what no run of iceverify wrote."""
        path = self.folder / name
        if self.kept and name not in self.owned:
            if os.path.lexists(path):
                raise Stop(WRITING, "write failed: %s is there, and no earlier run wrote it" % self.shown(name))
            try:
                with open(self.folder / LIST, "a", encoding="utf-8") as file:
                    file.write(name + "\n" if self.owned else "%s\n%s\n" % (TITLE, name))
            except OSError:
                raise Stop(WRITING, "write failed: %s" % self.shown(LIST)) from None
            self.owned.add(name)
        return path

    def write_bytes(self, name: str, data: bytes) -> Path:
        """Writes a file into the folder."""
        path = self.claim(name)
        try:
            path.write_bytes(data)
        except OSError:
            raise Stop(WRITING, "write failed: %s" % self.shown(name)) from None
        return path

    def write(self, name: str, text: str) -> Path:
        """Writes a text into the folder."""
        return self.write_bytes(name, text.encode("utf-8", errors="backslashreplace"))

    def run(self, name: str, words: List[str], output: str = "", seconds: Optional[float] = None,
            meanwhile: Callable[[], None] = lambda: None) -> subprocess.CompletedProcess:
        """Runs a program in the folder, and keeps what it says as NAME.log there; its standard output in a file of its own, if that is named.
        `meanwhile` is called while it runs. Raises subprocess.TimeoutExpired if it takes more than so many seconds. However this ends, the program
        has ended, and all that it began."""
        process = None
        try:
            with held():
                process = subprocess.Popen(words, cwd=self.folder, stdin=subprocess.DEVNULL, stdout=subprocess.PIPE, stderr=subprocess.PIPE,
                                           start_new_session=True)
            meanwhile()
            out, errors = process.communicate(timeout=seconds)
        except OSError:
            raise Stop(READING, "it needs %s, which can't be run" % words[0]) from None
        finally:
            end_group(process)
        said = out.decode(errors="replace")
        if output:
            self.write(output, said)
        self.write(name + ".log", "%s\n%s%s" % (" ".join(words), "" if output else said, errors.decode(errors="replace")))
        return subprocess.CompletedProcess(words, process.returncode, out, errors)

    def yosys(self, name: str, script: str) -> str:
        """Runs a script of yosys, and answers the text of the file NAME.json that it wrote."""
        self.write(name + ".ys", script)
        made = self.claim(name + ".json")
        ended = self.run(name, ["yosys", "-q", "-s", name + ".ys"])
        if ended.returncode != 0:
            said = (ended.stderr.decode(errors="replace").strip() or "it ended with status %d" % ended.returncode).splitlines()[-1]
            raise Stop(MEMORY if ended.returncode == -9 else READING, "yosys failed: %s" % said)
        return self.read(made)

    def progress(self, line: str) -> None:
        """Says what is done, if there is somebody at a terminal."""
        if sys.stderr and sys.stderr.isatty():
            print("iceverify: %s" % line, file=sys.stderr, flush=True)


def end_group(process: Optional[subprocess.Popen]) -> None:
    """Ends a program that hasn't been waited for, with all that it began. Its number is its own until then."""
    if process and process.returncode is None:
        with held(), contextlib.suppress(ProcessLookupError):
            os.killpg(process.pid, signal.SIGKILL)
            process.wait()


def read_bytes(path, shown) -> bytes:
    """The bytes of a file, which an error names as `shown`. Raises Stop if it can't be read, or is longer than LIMIT bytes."""
    try:
        with open(path, "rb") as file:
            data = file.read(LIMIT + 1)
    except OSError:
        raise Stop(READING, "read failed: %s" % shown) from None
    if len(data) > LIMIT:
        raise Stop(TOO_LONG, "too long: %s limit %d" % (shown, LIMIT))
    return data
