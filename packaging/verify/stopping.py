"""How a run of iceverify ends before it has a verdict."""
import contextlib
import os
import resource
import signal

REFUSED = 1
USAGE = 2
READING = 3
WRITING = 4
MEMORY = 5
TOO_LONG = 6
OPEN = 7

ENDING = signal.SIGHUP, signal.SIGINT, signal.SIGQUIT, signal.SIGTERM


def visible(text: str) -> str:
    """A text for a reader. What would end a line, or move in it, is shown by its number, so that no name makes a line of its own."""
    return "".join(char if char.isprintable() else char.encode("unicode_escape").decode() for char in text)


class Stop(Exception):
    """Ends the run.

    status: the exit status, one of those above.
    line: what standard error says, without the name of the tool in front.
    """

    def __init__(self, status, line):
        super().__init__(line)
        self.status = status
        self.line = line


class Signalled(BaseException):
    """Ends the run, since one of the signals ENDING has come. It is no Exception, so that nothing else takes it."""

    def __init__(self, number):
        super().__init__(number)
        self.number = number


class Waiting:
    """depth: in how many `held` blocks the run is. number: the signal that has come meanwhile."""

    depth = 0
    number = None


def ignore_signals():
    """From here on none of the signals ends the run. They aren't set to SIG_IGN, since Python writes a line if one comes just then."""
    for number in ENDING:
        if signal.getsignal(number) != signal.SIG_IGN:
            signal.signal(number, lambda *_: None)


def take_signals(is_interrupted):
    """From here on each of the signals ENDING raises Signalled, the first alone. One that is ignored stays so, as SIGHUP below nohup, but for
    SIGINT if is_interrupted."""
    for number in ENDING:
        if signal.getsignal(number) != signal.SIG_IGN or (number == signal.SIGINT and is_interrupted):
            signal.signal(number, take_signal)


def take_signal(number, _):
    """Takes a signal."""
    ignore_signals()
    if Waiting.depth:
        Waiting.number = number
    else:
        raise Signalled(number)


@contextlib.contextmanager
def held():
    """Lets a signal wait until the end of the block, so that what is begun in it is known to what ends it."""
    Waiting.depth += 1
    try:
        yield
    finally:
        Waiting.depth -= 1
        if Waiting.number is not None and not Waiting.depth:
            number, Waiting.number = Waiting.number, None
            raise Signalled(number)


def die(number):
    """Ends the process by a signal, as if nothing had taken it, so that a shell or make that waits for it knows. Without a core file."""
    resource.setrlimit(resource.RLIMIT_CORE, (0, resource.getrlimit(resource.RLIMIT_CORE)[1]))
    signal.signal(number, signal.SIG_DFL)
    os.kill(os.getpid(), number)
