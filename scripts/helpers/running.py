"""Programs that may hang: each is waited for as long as `PATIENCE` says, and then killed."""

import contextlib
import os
import pathlib
import re
import subprocess
import threading
from collections.abc import Iterator, Sequence
from typing import IO, Any

# How many seconds anything that is waited for may take: what hangs is found, and a machine whose disk stands still for
# a while passes.
PATIENCE = 120
# The status of what was killed since it took longer.
STILL_RUNNING = "still running"

Process = subprocess.Popen[bytes]
Status = int | str
# How a program ended: its status, its output and its errors.
Ending = tuple[Status, bytes, bytes]

# How many programs hung.
hung = 0


def finished(words: Sequence[object], **more: Any) -> subprocess.CompletedProcess[bytes]:
    """A program's run to its end. One that has none is killed, and its status says so; `more` is `subprocess.run`'s."""
    global hung
    texts = [str(word) for word in words]
    try:
        return subprocess.run(texts, **more, timeout=PATIENCE)
    except subprocess.TimeoutExpired as late:
        hung += 1
        status: Any = STILL_RUNNING
        return subprocess.CompletedProcess(texts, status, late.stdout or b"", late.stderr or b"")


def pipes(process: Process) -> tuple[IO[bytes], IO[bytes]]:
    """The pipes that a process reads from and writes to."""
    assert process.stdin is not None and process.stdout is not None
    return process.stdin, process.stdout


def most_memory(process: Process) -> int:
    """The most memory that a process has had, in bytes."""
    return most_memory_of(process.pid)


def most_memory_of(process: int) -> int:
    """.. by its number."""
    found = re.search(r"^VmHWM:\s+(\d+) kB$", pathlib.Path(f"/proc/{process}/status").read_text(), re.M)
    return int(found[1]) * 1024 if found else 0


def most_own_memory(process: Process) -> int:
    """.. without the pages of files, of which the kernel maps some more or fewer around each that is used."""
    found = re.search(r"^RssFile:\s+(\d+) kB$", pathlib.Path(f"/proc/{process.pid}/status").read_text(), re.M)
    return most_memory(process) - int(found[1]) * 1024 if found else 0


def doing(process: int) -> str:
    """What a process is at, and each that it started: for whoever waits for it. Empty once it is gone."""
    folder = pathlib.Path(f"/proc/{process}")
    try:
        name, _, fields = (folder / "stat").read_text().partition("(")[2].rpartition(")")
        waits = (folder / "wchan").read_text()
        started = (folder / "task" / str(process) / "children").read_text().split()
    except OSError:
        return ""
    state, *numbers = fields.split()
    seconds = (int(numbers[10]) + int(numbers[11])) / os.sysconf("SC_CLK_TCK")
    here = f"{name} is in state {state}, waits in {waits}, and has used {seconds:.1f} s"
    return "; ".join(filter(None, [here, *map(doing, map(int, started))]))


def kill_hung(process: Process) -> None:
    global hung
    hung += 1
    process.kill()


def status_of(process: Process) -> Status:
    """The status of a process that is to end by itself, whose output nobody wants."""
    try:
        return process.wait(PATIENCE)
    except subprocess.TimeoutExpired:
        kill_hung(process)
        process.wait()
        return STILL_RUNNING


def ending_of(process: Process) -> Ending:
    """How a process ends that is to end by itself."""
    try:
        output, errors = process.communicate(timeout=PATIENCE)
    except subprocess.TimeoutExpired:
        kill_hung(process)
        return STILL_RUNNING, *process.communicate()
    return process.returncode, output, errors


@contextlib.contextmanager
def watched(process: Process) -> Iterator[Process]:
    """A process that is killed if the block takes too long, so that who waits for a line of it learns its end."""
    alarm = threading.Timer(PATIENCE, kill_hung, [process])
    alarm.daemon = True
    alarm.start()
    try:
        yield process
    finally:
        alarm.cancel()
