"""`mount-git` in the background: another process shows the folder, in a session of its own, which no terminal ends."""

import contextlib
import io
import os
import signal
import sys
from collections.abc import Callable
from typing import Any, NoReturn

from yakembi import ending
from yakembi.git import Refusal

# What comes after the lines once all is well.
WELL = b"\0"
# By these who began it is ended before all is well.
INTERRUPTS = (signal.SIGINT, signal.SIGTERM, signal.SIGHUP, signal.SIGQUIT)


class Both(io.RawIOBase):
    """Where lines go to: the file, and the process that was started as long as that waits."""

    def __init__(self, file: int, pipe: int) -> None:
        super().__init__()
        self.places = [file, pipe]

    def writable(self) -> bool:
        return True

    def write(self, piece: Any, /) -> int:
        """A place that takes nothing any more keeps the other from nothing."""
        for place in self.places:
            with contextlib.suppress(OSError):
                os.write(place, piece)
        return len(piece)


def begin(log: str) -> Callable[[], None]:
    """Runs on as another process, whose lines go to the end of the file. What is given is to be called once all is
    well: then the process that was started ends with status 0, and else with that of the other one. It prints the lines
    that came until then.
    """
    open_standard()
    file = os.open(log, os.O_WRONLY | os.O_CREAT | os.O_APPEND | os.O_CLOEXEC, 0o666)
    here, there = os.pipe()
    child = os.fork()
    if child != 0:
        os.close(there)
        wait_for(child, here)
    close_others(file, there)
    os.setsid()
    os.chdir("/")
    nothing = os.open(os.devnull, os.O_RDONLY)
    os.dup2(nothing, 0)
    for descriptor in (1, 2):
        os.dup2(file, descriptor)
    both = Both(file, there)
    sys.stdout = sys.stderr = io.TextIOWrapper(io.BufferedWriter(both), errors="surrogateescape", line_buffering=True)
    return lambda: tell_that_all_is_well(both, there)


def open_standard() -> None:
    """Nothing else gets the numbers of standard input, output and error, if these are closed."""
    while (descriptor := os.open(os.devnull, os.O_RDWR)) <= 2:
        pass
    os.close(descriptor)


def close_others(*kept: int) -> None:
    """What the caller left open isn't kept open by us."""
    for name in os.listdir("/proc/self/fd"):
        if int(name) > 2 and int(name) not in kept:
            with contextlib.suppress(OSError):
                os.close(int(name))


def tell_that_all_is_well(both: Both, pipe: int) -> None:
    """A Refusal, if who began it is gone: they wanted no mount any more."""
    both.places.remove(pipe)
    try:
        os.write(pipe, WELL)
    except BrokenPipeError:
        raise Refusal("whoever began it in the background has ended before it was mounted") from None
    os.close(pipe)


def wait_for(child: int, pipe: int) -> NoReturn:
    """Prints what comes, and ends as it went. Who interrupts it ends the other process."""
    def interrupt(number: int, _: object) -> None:
        with contextlib.suppress(ProcessLookupError):
            os.kill(child, signal.SIGTERM)
    for number in filter(ending.is_heeded, INTERRUPTS):
        signal.signal(number, interrupt)
    said = b""
    while piece := os.read(pipe, 1 << 16):
        said += piece
    for line in said.removesuffix(WELL).splitlines(keepends=True):
        with contextlib.suppress(OSError):
            os.write(1 if line.startswith(b"mounted ") else 2, line)
    if said.endswith(WELL):
        os._exit(0)
    status = os.waitstatus_to_exitcode(os.waitpid(child, 0)[1])
    if status < 0:
        os.write(2, f"mount-git: a signal ended it: {signal.Signals(-status).name}\n".encode())
    os._exit(status if status > 0 else 1)
