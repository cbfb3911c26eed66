"""mountd stands still between two messages, so that its overlay's files show what was answered, and nothing half done.

It is stopped and looked at. If each of its threads waits for the next message, for an object that its message needs, or
for another thread, it stays so for a while; else it runs on, and is tried again. What waits for an object has changed
nothing for its message yet, but for a rename over an open file, which is two changes. Should this program be killed
meanwhile, the kernel wakes mountd: a process group that is stopped, and that nobody of its session has started any
more, is sent SIGHUP and SIGCONT.
"""

import contextlib
import os
import pathlib
import signal
import subprocess
import time
from collections.abc import Iterator

from yakembi.git import Refusal

# How long it may be at work each time that it is looked at, and how long it runs on between two looks, at first and at
# most.
SECONDS_BUSY = 60.0
SECONDS_BETWEEN, MOST_BETWEEN = 0.002, 0.05
# As /proc shows the call in which a thread stands: read(2), by which messages come, recvfrom(2), by which objects come,
# and futex(2). On another machine these are the numbers of other calls.
MACHINE = "x86_64"
READ, RECEIVE, FUTEX = "0", "45", "202"
# The descriptor by which messages come.
MESSAGES = 0


def stop(child: subprocess.Popen[bytes]) -> None:
    """Stops a child until SIGCONT, and waits until all its threads stand: at first the others of them run on."""
    child.send_signal(signal.SIGSTOP)
    with contextlib.suppress(ChildProcessError):
        os.waitid(os.P_PID, child.pid, os.WSTOPPED | os.WEXITED | os.WNOWAIT)


def is_waiting(call: str) -> bool:
    """Whether a thread that stands in that call waits for a message, for an object, or for another thread."""
    number, *words = call.split()
    return number in (RECEIVE, FUTEX) or (number == READ and int(words[0], 16) == MESSAGES)


def is_between_messages(process: int) -> bool:
    """Whether no thread of a stopped process is at work. A Refusal, if that can't be said."""
    machine = os.uname().machine
    if machine != MACHINE:
        raise Refusal(f"what mountd is at can be told on {MACHINE} alone, and this is {machine}")
    try:
        calls = [(task / "syscall").read_text() for task in pathlib.Path(f"/proc/{process}/task").iterdir()]
    except PermissionError:
        raise Refusal("this system doesn't tell what mountd is at (kernel.yama.ptrace_scope)") from None
    except (FileNotFoundError, ProcessLookupError):
        raise Refusal("mountd has ended") from None
    return all(map(is_waiting, calls))


@contextlib.contextmanager
def standing_still(child: subprocess.Popen[bytes]) -> Iterator[None]:
    """The child does nothing in the block, and is at no message. A Refusal, if it is at work all the time, or has
    ended."""
    end, pause = time.monotonic() + SECONDS_BUSY, SECONDS_BETWEEN
    while True:
        stop(child)
        try:
            if is_between_messages(child.pid):
                yield
                return
        finally:
            child.send_signal(signal.SIGCONT)
        if time.monotonic() > end:
            raise Refusal(f"mountd was at work for {SECONDS_BUSY:.0f} s: try it again")
        time.sleep(pause)
        pause = min(2 * pause, MOST_BETWEEN)
