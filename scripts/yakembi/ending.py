"""How signals end `mount-git`: by an exit, which releases what is held, or as the mount ends. Then they do no more,
so that what is to be released is, and the status is that of the end.
"""

import contextlib
import signal
import sys
from collections.abc import Callable, Iterator

SIGNALS = (signal.SIGTERM, signal.SIGINT, signal.SIGHUP)
# Those by which an exit was begun. What is raised then is lost if Python happens to be in a destructor.
came: list[int] = []


def exit_at(*numbers: signal.Signals) -> None:
    """These end the program with status 1, but for those that whoever started it has ignored, as `nohup` does."""
    for number in filter(is_heeded, numbers):
        signal.signal(number, begin_exit)


def is_heeded(number: signal.Signals) -> bool:
    return number == signal.SIGTERM or signal.getsignal(number) != signal.SIG_IGN


def begin_exit(number: int, _: object) -> None:
    came.append(number)
    ignore()
    sys.exit(1)


def ignore() -> None:
    """No signal disturbs the program any more, nor what it runs from now on."""
    for number in SIGNALS:
        signal.signal(number, signal.SIG_IGN)


@contextlib.contextmanager
def calls(end: Callable[[], object]) -> Iterator[None]:
    """In the block signals call `end`, each time that it isn't under way, and after it they do nothing."""
    is_under_way = False

    def call(*_: object) -> None:
        nonlocal is_under_way
        # Without an end of them, calls in the midst of each other would end the program themselves.
        if not is_under_way:
            is_under_way = True
            try:
                end()
            finally:
                is_under_way = False

    for number in filter(is_heeded, SIGNALS):
        signal.signal(number, call)
    try:
        if came:
            sys.exit(1)
        yield
    finally:
        ignore()
