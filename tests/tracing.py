"""A program that is watched, call by call, by ptrace(2): what its calls are, and what they return."""

import ctypes
import os
import signal
from collections.abc import Iterator

LIBC = ctypes.CDLL(None, use_errno=True)
LIBC.ptrace.argtypes = [ctypes.c_long, ctypes.c_long, ctypes.c_void_p, ctypes.c_void_p]
LIBC.ptrace.restype = ctypes.c_long
# ptrace(2): requests, options, and the flag of a stop at a call.
TRACE_ME, SET_WORD, CALL, SET_OPTIONS, CALL_INFO = 0, 6, 24, 0x4200, 0x420E
MARK_CALLS, WATCH_THREADS, KILL_TOO = 1, 8, 1 << 20
MARK = 0x80
# What `CALL_INFO` tells.
ENTRY, EXIT = 1, 2
# Where `struct user` has what a call returns, and its number; no call has that one.
RETURNED_AT, NUMBER_AT, NO_CALL = 80, 120, -1


class Info(ctypes.Structure):
    """`struct ptrace_syscall_info` as it is at an entry; at an exit the first number is what was returned."""

    _fields_ = [("op", ctypes.c_uint8), ("padding", ctypes.c_uint8 * 3), ("arch", ctypes.c_uint32),
                ("place", ctypes.c_uint64), ("stack", ctypes.c_uint64), ("number", ctypes.c_uint64),
                ("words", ctypes.c_uint64 * 6)]


def ptrace(request: int, task: int, place: object = None, data: object = None) -> int:
    done = int(LIBC.ptrace(request, task, place, data))
    if done < 0:
        raise OSError(ctypes.get_errno(), os.strerror(ctypes.get_errno()))
    return done


def can_watch() -> bool:
    """Whether a program may be watched here."""
    child = os.fork()
    if child == 0:
        try:
            ptrace(TRACE_ME, 0)
        except OSError:
            os._exit(1)
        os._exit(0)
    return os.waitstatus_to_exitcode(os.waitpid(child, 0)[1]) == 0


class Calls:
    """The calls of a program, some of which fail."""

    def __init__(self) -> None:
        # Each task's call that is under way, and what it returns if it is to fail.
        self.calls: dict[int, Info] = {}
        self.failing: dict[int, int] = {}

    def stopped(self, task: int) -> None:
        """The task stands before a call or after it."""
        info = Info()
        ptrace(CALL_INFO, task, ctypes.sizeof(info), ctypes.addressof(info))
        if info.op == ENTRY:
            self.calls[task] = info
            if error := self.error_of(info):
                ptrace(SET_WORD, task, NUMBER_AT, NO_CALL)
                self.failing[task] = error
        elif task in self.failing:
            del self.calls[task]
            ptrace(SET_WORD, task, RETURNED_AT, -self.failing.pop(task))
        elif info.op == EXIT and (call := self.calls.pop(task, None)):
            returned = ctypes.c_int64(info.number).value
            if returned >= 0:
                self.done(task, call, returned)

    def error_of(self, call: Info) -> int:
        """The error with which that call is to fail, of which nothing is done then; 0 if it isn't."""
        return 0

    def done(self, task: int, call: Info, returned: int) -> None:
        """That call went well."""


def stops() -> Iterator[tuple[int, int]]:
    """Each task that has stopped or ended, and how."""
    while True:
        yield os.waitpid(-1, 0x40000000)  # __WALL: threads too


def watch(calls: Calls, program: int) -> int:
    """Watches the program to its end, and gives its status."""
    for task, status in stops():
        if not os.WIFSTOPPED(status):
            if task == program:
                return os.waitstatus_to_exitcode(status)
            continue
        told = os.WSTOPSIG(status)
        if told == signal.SIGTRAP | MARK:
            calls.stopped(task)
        # Neither a new thread's first stop nor one that tells of it is a signal of the program's own.
        passed = 0 if told in (signal.SIGTRAP | MARK, signal.SIGTRAP, signal.SIGSTOP) else told
        ptrace(CALL, task, None, passed)
    raise AssertionError("stops end with the program")


def started(program: list[str]) -> int:
    """The program, which runs to its first call and can be watched from there."""
    child = os.fork()
    if child == 0:
        ptrace(TRACE_ME, 0)
        os.execvp(program[0], program)
    os.waitpid(child, 0)
    ptrace(SET_OPTIONS, child, None, MARK_CALLS | WATCH_THREADS | KILL_TOO)
    ptrace(CALL, child)
    return child


def run(calls: Calls, program: list[str]) -> int:
    """The status of the program, which has our input and output for its own, so that the other side sees its end."""
    child = started(program)
    os.close(0)
    os.close(1)
    return watch(calls, child)
