"""What `mountd fuse` makes of each error with which a message can't be read: a run of it is watched, and one of its
reads of standard input fails.

    python3 tests/mount_receiving.py ERROR COUNT PROGRAM [WORD ..]

The read of that count, from 1, fails with the error of that name, as `ECONNABORTED`, and takes no message away.
Standard input and output are the program's, and so is the status, unless that read never came. It needs ptrace.
"""

import errno
import pathlib
import sys

import tracing
from checks import check, status_of
from message_model import ROOT, spelled
from mount_messages import LOOKUP, SHOW_SAMPLE, STARTS, Kernel
from tracing import Calls, Info

# The number of the call (x86-64), the descriptor by which messages come, and the status if too few were read.
READ, MESSAGES, TOO_FEW = 0, 0, 99
# The kernel says that nothing is mounted any more, by the second if a message was on its way to who reads.
ENDS = ["ENODEV", "ECONNABORTED"]
# There is no message: it was withdrawn, a signal came, or none is there yet.
PASSED_OVER = ["ENOENT", "EINTR", "EAGAIN"]
# Some of all others.
FAULTS = ["EIO", "EPERM", "EINVAL", "ENOTCONN", "ECONNRESET"]
FAULT = 4, b"mountd: session Receive\n"
WELL = 0, b""
THREADS = 4
MAKES = spelled("mkdir", 9, ROOT, 0o755, 0, b"made")


class FailingRead(Calls):
    """One of the reads of messages fails."""

    def __init__(self, error: int, count: int) -> None:
        super().__init__()
        # How many are to come until then.
        self.error, self.count = error, count

    def error_of(self, call: Info) -> int:
        if call.number != READ or call.words[0] != MESSAGES:
            return 0
        self.count -= 1
        return self.error if self.count == 0 else 0


def main(words: list[str]) -> int:
    error, count, *program = words
    calls = FailingRead(getattr(errno, error), int(count))
    status = tracing.run(calls, program)
    return status if calls.count <= 0 else TOO_FEW


def failing(error: str, count: int, *more: object) -> Kernel:
    return Kernel([sys.executable, __file__, error, count, *SHOW_SAMPLE, *more])


def check_receiving(folder: pathlib.Path) -> None:
    """Each error of a read is the end, is passed over, or is reported; and the overlay is closed."""
    for error, wanted in [*[(error, WELL) for error in ENDS], *[(error, FAULT) for error in FAULTS]]:
        with failing(error, 1) as kernel:
            check(f"{error} before the first message", (status_of(kernel.process), kernel.end()), (wanted[0], wanted))
        overlay = folder / error
        overlay.mkdir()
        with failing(error, 3, "--overlay", overlay) as kernel:
            kernel.asked(STARTS)
            kernel.asked(MAKES)
            check(f"{error} after a change", (status_of(kernel.process), kernel.end()), (wanted[0], wanted))
            check(f"{error}: the overlay is closed", (overlay / "0").exists(), True)
    for error in PASSED_OVER:
        for count in (1, 2, 3):
            with failing(error, count) as kernel:
                check_goes_on(f"{error} of read {count}", kernel)
                check(f"{error} of read {count}: the end", kernel.end(), WELL)


def check_goes_on(name: str, kernel: Kernel) -> None:
    kernel.asked(STARTS)
    first = kernel.asked(LOOKUP)
    check(f"{name}: messages are answered", [kernel.asked(LOOKUP) for _ in range(8)], [first] * 8)


def check_receiving_by_threads() -> None:
    """What ends one thread, or is passed over by it, keeps no other from its messages, and is told in the end."""
    for errors, wanted in [(ENDS, WELL), (PASSED_OVER, WELL), (FAULTS, FAULT)]:
        for error in errors:
            # Each thread reads once, and who answers reads again.
            with failing(error, THREADS + 2, "--threads", THREADS) as kernel:
                check_goes_on(f"{error} for one thread", kernel)
                check(f"{error} for one thread: the end", kernel.end(), wanted)


if __name__ == "__main__":
    sys.exit(main(sys.argv[1:]))
