"""Proves crates side by side: each in a room of its own, as many at a time as processors and memory allow.

`rt` keeps others out of the folders of a crate and of all that it stands on, so two runs of it in one tree go one after
the other. A room is a tree of one crate's own: its sources, and those and the libraries of all below it, as hard links.
What a command makes or keeps in the room goes back into the crate's out/ when it ends, however it ends.
"""

import concurrent.futures
import contextlib
import dataclasses
import fcntl
import os
import pathlib
import shutil
import signal
import subprocess
import sys
import time
from collections.abc import Callable, Iterable, Iterator
from concurrent.futures import Future, ThreadPoolExecutor

from crates import READ, TOP, Below, with_those_below, write_rows

# What a check was seen to take at most, with one job and for each further one (docs/GATE.md).
FIRST_JOB = 1_500_000_000
NEXT_JOB = 800_000_000
MOST_JOBS = 4


def tell(text: str) -> None:
    print(text, file=sys.stderr, flush=True)


# ---- rooms


@contextlib.contextmanager
def locked(crate: pathlib.Path) -> Iterator[int]:
    """Keeps `rt` and other rooms out of a crate's directory meanwhile."""
    folder = os.open(crate, os.O_RDONLY)
    try:
        fcntl.flock(folder, fcntl.LOCK_EX)
        yield folder
    finally:
        os.close(folder)


def link_tree(source: pathlib.Path, target: pathlib.Path) -> None:
    if source.is_dir():
        shutil.copytree(source, target, copy_function=os.link)


def move_all(source: pathlib.Path, target: pathlib.Path) -> None:
    """Moves what stands in a folder into another, in the place of what has its name there."""
    for path in list(source.iterdir()):
        there = target / path.name
        if there.is_dir():
            shutil.rmtree(there)
        path.rename(there)


def leave(room: pathlib.Path, out: pathlib.Path) -> None:
    """Gives back what a room holds of its crate's out/, also after a run that was killed."""
    made = room / "crates" / out.parent.name / "out"
    if made.is_dir():
        move_all(made, out)
    if room.is_dir():
        shutil.rmtree(room)


def furnish(room: pathlib.Path, name: str, below: Iterable[str]) -> None:
    """The crate's sources and what earlier runs kept, and the sources and libraries of those below."""
    for other in {name, *below}:
        for part in READ:
            link_tree(TOP / "crates" / other / part, room / "crates" / other / part)
    for other in below:
        with locked(TOP / "crates" / other):
            link_tree(TOP / "crates" / other / "out/rlib", room / "crates" / other / "out/rlib")
    write_rows(room, {name, *below})
    shutil.copy(TOP / "HANDLES", room)


@contextlib.contextmanager
def room_of(name: str, below: Iterable[str]) -> Iterator[tuple[pathlib.Path, int]]:
    """A crate's directory in a room of its own, and the lock that keeps others out as long as somebody has it."""
    out = TOP / "crates" / name / "out"
    room = out / "room"
    with locked(out.parent) as lock:
        out.mkdir(exist_ok=True)
        leave(room, out)
        kept = list(out.iterdir())
        try:
            furnish(room, name, below)
            made = room / "crates" / name / "out"
            made.mkdir()
            for path in kept:
                # Programs stay where they are too: a mount may start one meanwhile.
                if path.is_dir():
                    path.rename(made / path.name)
                else:
                    shutil.copy2(path, made)
            yield made.parent, lock
        finally:
            leave(room, out)


# ---- side by side


@dataclasses.dataclass
class Task:
    """A command for a crate, once the tasks that it waits for have passed."""

    crate: str
    command: list[str]
    waits: list[str]
    passed: Callable[[], object]


# Whether a task's command passed, what it said, and its seconds.
Ended = tuple[bool, bytes, float]


def library_tasks(left: list[str], below: Below, mark: Callable[[str], object]) -> dict[str, Task]:
    """The proof of each of these libraries, once those below it are proved; `mark` gets the name of each."""
    def task(name: str) -> Task:
        return Task(name, ["lib"], [other for other in below[name] if other in left], lambda: mark(name))

    return {name: task(name) for name in left}


def weight_of(crate: str) -> int:
    """What a crate's proof takes, judged by the length of its code: some six seconds of a processor for each 1,000
    bytes, twice that in the highest crates."""
    return sum(path.stat().st_size for path in (TOP / "crates" / crate / "src").rglob("*.rt"))


def processors() -> int:
    return len(os.sched_getaffinity(0))


def half_of_the_memory() -> int:
    with open("/proc/meminfo") as lines:
        return next(1024 * int(line.split()[1]) for line in lines if line.startswith("MemTotal:")) // 2


class Lanes:
    """Tasks that run side by side, those with the longest chain of others after them first. `tasks` has each by its
    name, after those that it waits for."""

    def __init__(self, tasks: dict[str, Task], below: Below) -> None:
        self.tasks, self.below = tasks, below
        self.chains = self.found_chains()
        self.left = sorted(tasks, key=lambda name: self.chains[name], reverse=True)
        self.memory = half_of_the_memory()
        # A check of several jobs uses half of them in the mean: the rest wait for its longest function.
        self.lanes = processors() * 3 // 2
        self.running: dict[Future[Ended], tuple[str, int]] = {}
        self.processes: set[subprocess.Popen[bytes]] = set()
        self.ended: set[str] = set()
        self.is_over = False

    def found_chains(self) -> dict[str, int]:
        """Of each task what it takes, and what the longest chain of those that wait for it takes."""
        found: dict[str, int] = {}
        for name in reversed(list(self.tasks)):
            behind = [found[other] for other in found if name in self.tasks[other].waits]
            found[name] = weight_of(self.tasks[name].crate) + max(behind, default=0)
        return found

    def ready(self) -> list[str]:
        busy = {self.tasks[name].crate for name, _ in self.running.values()}
        return [name for name in self.left
                if self.ended.issuperset(self.tasks[name].waits) and self.tasks[name].crate not in busy]

    def is_head(self, name: str) -> bool:
        return all(self.chains[name] > self.chains[other] for other, _ in self.running.values())

    def jobs_for(self, name: str, waiting: int) -> int:
        """How many jobs the first of those that wait gets: what lanes and memory are left, but for one job of each
        other. The head of the longest chain, for which all wait at last, gets the most that it can use."""
        idle = self.lanes - sum(jobs for _, jobs in self.running.values())
        taken = sum(FIRST_JOB + NEXT_JOB * (jobs - 1) for _, jobs in self.running.values())
        fitting = 1 + (self.memory - taken - FIRST_JOB) // NEXT_JOB
        if self.running and min(idle, fitting) < 1:
            return 0
        wanted = MOST_JOBS if self.is_head(name) else min(MOST_JOBS, idle - (waiting - 1))
        return max(1, min(wanted, self.lanes, fitting))

    def start(self, pool: ThreadPoolExecutor) -> None:
        while waiting := self.ready():
            first = waiting[0]
            jobs = self.jobs_for(first, len(waiting))
            if jobs == 0:
                return
            self.left.remove(first)
            self.running[pool.submit(self.run, self.tasks[first], jobs)] = first, jobs

    def run(self, task: Task, jobs: int) -> Ended:
        began = time.monotonic()
        verb, *rest = task.command
        below = with_those_below(self.below, self.below[task.crate])
        with room_of(task.crate, below) as (folder, lock):
            if self.is_over:
                return False, b"", 0
            # If we are killed, who proves runs on for a while: the lock goes with it. A group, and no session: Linux
            # gives each session the same share of the processors, whatever its jobs.
            process = subprocess.Popen(["rt", verb, "--jobs", str(jobs), *rest], cwd=folder, stdin=subprocess.DEVNULL,
                                       stdout=subprocess.PIPE, stderr=subprocess.STDOUT, process_group=0,
                                       pass_fds=(lock,))
            self.processes.add(process)
            said, _ = process.communicate()
            self.processes.remove(process)
        return process.returncode == 0, said, time.monotonic() - began

    def stop(self) -> None:
        self.is_over = True
        for process in list(self.processes):
            with contextlib.suppress(ProcessLookupError):
                os.killpg(process.pid, signal.SIGTERM)

    def end(self, future: Future[Ended]) -> None:
        """Reports a task that ended; if it failed, no other runs on."""
        name, _ = self.running.pop(future)
        is_well, said, seconds = future.result()
        if self.is_over:
            return
        if not is_well:
            self.stop()
            tell(f"  {name}: failed after {seconds:.0f} s")
            sys.stderr.buffer.write(said)
            return
        self.ended.add(name)
        self.tasks[name].passed()
        left = len(self.left) + len(self.running)
        tell(f"  {name}: passed in {seconds:.0f} s" + (f", {left} left" if left else ""))

    def all_pass(self) -> bool:
        """Whether all pass. A problem of ours, as a full disk, ends those that run, and is raised."""
        with ThreadPoolExecutor(self.lanes) as pool:
            try:
                while (self.left and not self.is_over) or self.running:
                    if not self.is_over:
                        self.start(pool)
                    for future in concurrent.futures.wait(self.running, return_when="FIRST_COMPLETED").done:
                        self.end(future)
            except KeyboardInterrupt:
                self.stop()
            except BaseException:
                # The pool waits for those that run.
                self.stop()
                raise
        return not self.is_over
