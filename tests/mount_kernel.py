"""A commit that `mountd fuse` shows: calls of the system in it and in a plain directory, and what its ends leave."""

import collections
import contextlib
import ctypes
import itertools
import os
import pathlib
import random
import signal
import sqlite3
import struct
import subprocess
import sys
import threading
import time
import traceback
from collections.abc import Callable, Iterator
from concurrent.futures import ThreadPoolExecutor
from typing import Any

from checks import PATIENCE, check, finished, git
from folder_operations import Folder, shown
from helpers.disks import folder_in_memory
from mount_calls import CALLS, Steps
from mount_differences import DIFFERENCES, Differences, opened
from mount_files import TOLD
from mount_folder import Both, MountGit, checkout, children, said_by, unmount
from mount_fuse import command_of, left_of
from mount_names import check_names
from programs import MOUNT_GIT, MOUNTD, TOP
from yakembi.overlay_files import BODY, JOURNAL, PART, RECORD_BYTES, STORED, records

# ---- calls of the system


@contextlib.contextmanager
def beside_plain(folder: pathlib.Path, repository: pathlib.Path) -> Iterator[tuple[list[pathlib.Path], Differences]]:
    """A mounted folder and a plain one, and their differences. The next mount shows what was left there."""
    differences = Differences(DIFFERENCES)
    with folder_in_memory() as inner:
        plain, overlay = inner / "plain", inner / "overlay"
        with MountGit(repository, "HEAD", folder / "mounted", "--overlay", overlay) as mount:
            tops = [mount.folder / "calls", plain]
            for top in tops:
                top.mkdir()
            yield tops, differences
            check("calls: the end, with nothing said", (mount.end("SIGTERM"), mount.said()), (0, []))
        with MountGit(repository, "HEAD", folder / "mounted", "--overlay", overlay) as mount:
            check("calls: mounted again", shown(Folder(mount.folder / "calls")), shown(Folder(plain)))
            check("calls: the second end, with nothing said", (mount.end("SIGTERM"), mount.said()), (0, []))


def check_calls(folder: pathlib.Path, repository: pathlib.Path) -> None:
    """Calls of the system, after the subjects of pjdfstest, say and leave what they do in a plain directory."""
    with beside_plain(folder, repository) as (tops, differences):
        for call in CALLS:
            check_steps(call, [top / call.__name__ for top in tops], differences)
    differences.check_rows(is_about_names=False)


def check_named(folder: pathlib.Path, repository: pathlib.Path) -> None:
    """Calls on names of all kinds, as links that lead nowhere, trailing slashes and dots, do so too."""
    with beside_plain(folder, repository) as (tops, differences):
        check_names(tops, differences)
    differences.check_rows(is_about_names=True)


def check_steps(call: Callable[[pathlib.Path], Steps], tops: list[pathlib.Path], differences: Differences) -> None:
    """Each step gives in the first folder what it gives in the second, and they leave the same."""
    name = call.__name__.replace("_", " ")
    for top in tops:
        top.mkdir()
    for (step, got), (_, wanted) in itertools.zip_longest(*[given(call(top)) for top in tops], fillvalue=("", None)):
        differences.check(f"{name}: {step}", got, wanted)
    check(f"{name}: what is left", *[shown(Folder(top)) for top in tops])


def given(steps: Steps) -> list[tuple[str, Any]]:
    """What the steps give, until one fails that shouldn't."""
    found = []
    try:
        for step in steps:
            found.append(step)
    except OSError as problem:
        found.append(("its end", f"{problem}, in line {traceback.extract_tb(problem.__traceback__)[-1].lineno}"))
    return found


# ---- random operations on open files

FILES_PROGRAM = TOP / "tests" / "mount_files.py"
OPERATIONS_OF_A_LIFE = 2_500


def check_random_files(folder: pathlib.Path, repository: pathlib.Path, seed: int, operations: int) -> None:
    """Random operations on open files, also through memory, beside the same on a plain folder, in two lives at least.
    Each second life is killed once all is closed, and what was closed is in the next one."""
    lives = max(2, operations // OPERATIONS_OF_A_LIFE)
    print(f"random files: {operations:,} operations in {lives} lives, from seed {seed} on")
    with folder_in_memory() as inner:
        plain, overlay = inner / "plain", inner / "overlay"
        plain.mkdir()
        for life in range(lives + 1):
            with MountGit(repository, "HEAD", folder / "mounted", "--overlay", overlay) as mount:
                (mount.folder / "random").mkdir(exist_ok=True)
                count = operations // lives if life < lives else 0
                run_files([mount.folder / "random", plain], seed + life, count, folder / "operations")
                if life % 2 == 0:
                    os.kill(mountd_of(mount)[-1], signal.SIGKILL)
                    mount.status()
                else:
                    check("random files: the end, with nothing said", (mount.end("SIGTERM"), mount.said()), (0, []))


def run_files(tops: list[pathlib.Path], seed: int, operations: int, log: pathlib.Path) -> None:
    """This many operations in both folders, by a program of its own, which prints its last ones if something differs.
    If it dies, or stands still, they are in its log."""
    done = finished([sys.executable, FILES_PROGRAM, *tops, seed, operations, log], capture_output=True)
    if done.returncode != 0:
        last = [] if done.returncode == 1 else log.read_text().splitlines()[-TOLD:]
        print(os.fsdecode(done.stdout + done.stderr), *last, sep="\n", flush=True)
    check(f"random files: {operations:,} by seed {seed}", done.returncode, 0)


# ---- programs that keep files open

GIT = [
    ("git init, add and commit", "mkdir work && cd work && git init -q -b main && "
                                 "git config user.name Test && git config user.email test@example.org && "
                                 "cp -r ../notes . && git add -A && git commit -qm one && "
                                 "git status --porcelain && git ls-files | wc -l"),
    ("git commit again", "cd work && echo more >> notes/1/1.txt && rm notes/2/2.txt && git status --porcelain && "
                         "git commit -qam two && git diff --stat HEAD^ && git log --format=%s"),
    ("git branch, checkout and merge", "cd work && git checkout -qb side && echo side > side && git add side && "
                                       "git commit -qm side && git checkout -q - && ls && git merge -q side && ls"),
    ("git stash and clean", "cd work && echo x >> side && touch other && git stash -qu && git status --porcelain && "
                            "git stash pop -q && git status --porcelain && git checkout -q . && git clean -qfd"),
    ("git gc and fsck", "cd work && git gc -q && git fsck --no-dangling 2>&1 && git log --format=%s && "
                         "git status --porcelain"),
    ("git clone", "git clone -q --no-hardlinks work copied-work && "
                  "diff -r --no-dereference -x .git work/notes copied-work/notes"),
]


def check_git(folder: pathlib.Path, repository: pathlib.Path) -> None:
    """Git makes, changes and packs a repository in the mounted folder."""
    plain = checkout(repository, folder / "plain")
    with MountGit(repository, "HEAD", folder / "mounted") as mount:
        both = Both(repository, mount.folder, plain, folder)
        for name, command in GIT:
            both.check(name, command)
        check("git: the end, with nothing said", (mount.end("SIGTERM"), mount.said()), (0, []))


# Ends in a transaction that isn't committed, and leaves its journal, which is of the kind that is named: but for `wal`
# the file doesn't say which.
DIES = """
import os, sqlite3, sys
base = sqlite3.connect(sys.argv[1])
base.execute("PRAGMA journal_mode = " + sys.argv[2])
base.execute("PRAGMA cache_size = 2")
base.execute("BEGIN")
base.executemany("INSERT INTO rows VALUES (?, ?)", [(-number, "never" * 50) for number in range(1, 100)])
os._exit(7 if base.execute("PRAGMA journal_mode").fetchone()[0] == sys.argv[2] else 1)
"""
# What is after the name of a file in which something has to be taken back, and with what that begins.
LEFT = {"-journal": bytes.fromhex("d9d505f920a163d7"), "-wal": bytes.fromhex("377f06")}


def check_sqlite(folder: pathlib.Path, repository: pathlib.Path) -> None:
    """SQLite commits, rolls back, and takes back what a program left that died, with each kind of journal."""
    with MountGit(repository, "HEAD", folder / "mounted", "--overlay", folder / "overlay") as mount:
        for journal in ("delete", "truncate", "persist", "wal"):
            path = mount.folder / f"{journal}.sqlite"
            check(f"sqlite: journal {journal}", kept_in(path, journal), (journal, 60, "ok"))
        check("sqlite: no journal is left", sorted(path.name for path in mount.folder.glob("delete*")),
              ["delete.sqlite"])
        check("sqlite: the end, with nothing said", (mount.end("SIGTERM"), mount.said()), (0, []))


def kept_in(path: pathlib.Path, journal: str) -> tuple[str, int, str]:
    """The journal that it has, how many rows stand in it at the end, and what its own check says."""
    with contextlib.closing(sqlite3.connect(path)) as base:
        has = base.execute(f"PRAGMA journal_mode = {journal}").fetchone()[0]
        base.execute("CREATE TABLE rows (number INTEGER PRIMARY KEY, text TEXT)")
        for first in (0, 20, 40):
            with base:
                base.executemany("INSERT INTO rows VALUES (?, ?)", [(first + i, "text" * 20) for i in range(20)])
        with contextlib.suppress(ZeroDivisionError), base:
            base.execute("DELETE FROM rows")
            raise ZeroDivisionError
    died = finished([sys.executable, "-c", DIES, path, journal])
    check(f"sqlite: a program dies with journal {journal}", (died.returncode, left_by(path)),
          (7, ["-wal" if journal == "wal" else "-journal"]))
    with contextlib.closing(sqlite3.connect(path)) as base:
        base.execute(f"PRAGMA journal_mode = {journal}")
        count = base.execute("SELECT count(*) FROM rows").fetchone()[0]
        return has, count, base.execute("PRAGMA integrity_check").fetchone()[0]


def left_by(path: pathlib.Path) -> list[str]:
    """By which files beside it something has to be taken back."""
    beside = {end: path.with_name(path.name + end) for end in LEFT}
    return [end for end, head in LEFT.items() if beside[end].exists() and beside[end].read_bytes().startswith(head)]


# ---- kills


def mountd_of(mount: MountGit) -> list[int]:
    return [process for process in children(mount.process.pid) if b"fuse" in command_of(process)]


def check_killed_mountd(folder: pathlib.Path, repository: pathlib.Path) -> None:
    """A mountd that is killed unmounts the folder, and one line says so; the next mount has all that was answered."""
    overlay = folder / "overlay"
    with MountGit(repository, "HEAD", folder / "mounted", "--overlay", overlay) as mount:
        (mount.folder / "made").write_text("kept")
        os.kill(mountd_of(mount)[-1], signal.SIGKILL)
        check("mountd killed: the end", (mount.status(), len(mount.said())), (1, 1))
        check("mountd killed: nothing is mounted", mount.is_mounted(), False)
    with MountGit(repository, "HEAD", folder / "mounted", "--overlay", overlay) as mount:
        check("mountd killed: what is there", (mount.folder / "made").read_text(), "kept")
        check("mountd killed: the second end, with nothing said", (mount.end("SIGTERM"), mount.said()), (0, []))


def check_lost_mountd(folder: pathlib.Path, repository: pathlib.Path) -> None:
    """If no mountd can be started again after a commit, who asks is told, and the mount ends with a line and status
    1; the next mount has all that was answered."""
    overlay, program, is_lost = folder / "overlay", folder / "some mountd", folder / "is lost"
    program.write_text(f'#!/bin/sh\nif test "$1" = fuse -a -e "{is_lost}"\n'
                       f'then echo mountd: open Device >&2; exit 3\nfi\nexec "{MOUNTD}" "$@"\n')
    program.chmod(0o755)
    wanted = ["mount-git: mountd wasn't opened again, and nothing is mounted any more: Device"]
    with MountGit(repository, "HEAD", folder / "mounted", "--overlay", overlay, "--mountd", program) as mount:
        (mount.folder / "made").write_text("kept")
        is_lost.touch()
        check("mountd lost: who asks", said_by(MOUNT_GIT, "commit", mount.folder, "-m", "m"), (1, wanted))
        check("mountd lost: the end", (mount.status(), mount.said()), (1, wanted))
        check("mountd lost: nothing is mounted", mount.is_mounted(), False)
    with MountGit(repository, "HEAD", folder / "mounted", "--overlay", overlay) as mount:
        check("mountd lost: what is there", (mount.folder / "made").read_text(), "kept")
        check("mountd lost: the second end, with nothing said", (mount.end("SIGTERM"), mount.said()), (0, []))


def check_kills(folder: pathlib.Path, repository: pathlib.Path) -> None:
    """A mount that was killed continues where it was, at the same folder. Without `mount-git` it is shown on."""
    overlay = folder / "overlay"
    with MountGit(repository, "HEAD", folder / "killed", "--overlay", overlay) as mount:
        (mount.folder / "kept").write_text("kept")
        mount.kill()
        check("killed with all below: the overlay isn't closed", (overlay / "0").exists(), False)
        with MountGit(repository, "HEAD", mount.folder, "--overlay", overlay) as again:
            check("killed with all below: what is there", (again.folder / "kept").read_text(), "kept")
            running = mountd_of(again)
            again.process.kill()
            again.process.wait(PATIENCE)
            (again.folder / "kept too").write_text("kept too")
            told = said_by(*MountGit.words(repository, "HEAD", again.folder, "--overlay", overlay))
            check("killed alone: it is shown on", told, (1, [f"mount-git: something is mounted on {again.folder}"]))
            unmount(again.folder)
            check("killed alone: nothing runs once it is unmounted", left_of(running), [])
            check("killed alone: the overlay is closed", (overlay / "0").exists(), True)
            with MountGit(repository, "HEAD", mount.folder, "--overlay", overlay) as last:
                kept = [(last.folder / name).read_text() for name in ("kept", "kept too")]
                check("killed alone: what is there", kept, ["kept", "kept too"])
                check("killed alone: the end", last.end("SIGTERM"), 0)
        line = f"mount-git: {mount.folder} was left by a mount that was killed, and is unmounted"
        check("killed: what is said", [mount.said(), again.said(), last.said()], [[], [line], []])


def check_early_ends(folder: pathlib.Path, repository: pathlib.Path, seed: int) -> None:
    """A signal at any moment of the beginning leaves nothing mounted, and nothing that runs."""
    generator = random.Random(seed)
    for number in range(10):
        mount = MountGit(repository, "HEAD", folder / "mounted", "--overlay", folder / "overlay")
        time.sleep(generator.random() * 0.5)
        running = children(mount.process.pid)
        mount.process.send_signal(generator.choice([signal.SIGTERM, signal.SIGINT]))
        # Between the kernel's mount and its own word that it is there, that is said.
        status, said = mount.status(), mount.said()
        said = [line for line in said if line != "mount-git: it was ended before it was mounted"]
        check(f"ended early, {number}: it ends, with nothing else said", (status is None, said), (False, []))
        check(f"ended early, {number}: what is left", (mount.is_mounted(), left_of(running)), (False, []))
    with MountGit(repository, "HEAD", folder / "mounted", "--overlay", folder / "overlay") as mount:
        check("ended early: the last end, with nothing said", (mount.end("SIGTERM"), mount.said()), (0, []))


def check_removed_at_ends(folder: pathlib.Path, repository: pathlib.Path) -> None:
    """A file that was removed while it is open is gone with the mount, however that ends."""
    overlay = folder / "overlay"
    ends: list[tuple[str, Callable[[MountGit], object]]] = [
        ("SIGTERM", lambda mount: mount.end("SIGTERM")), ("a kill", MountGit.kill),
    ]
    for how, end in ends:
        with MountGit(repository, "HEAD", folder / "mounted", "--overlay", overlay) as mount:
            before = sorted(os.listdir(mount.folder))
            path = mount.folder / "removed"
            path.write_text("removed")
            with contextlib.suppress(OSError), opened(path, os.O_RDWR):
                path.unlink()
                end(mount)
        with MountGit(repository, "HEAD", folder / "mounted", "--overlay", overlay) as mount:
            check(f"removed, then {how}: what is listed", sorted(os.listdir(mount.folder)), before)
            check(f"removed, then {how}: changes", said_by(MOUNT_GIT, "changes", mount.folder), (0, []))
            check(f"removed, then {how}: the next end", (mount.end("SIGTERM"), mount.said()), (0, []))


# ---- stores


class Stores:
    """How often each file of an overlay was stored: at the end of its journal, or by a rename to its number."""

    LIBC = ctypes.CDLL(None, use_errno=True)
    MOVED_TO = 0x80
    HEAD = struct.Struct("iIII")

    def __init__(self, folder: pathlib.Path) -> None:
        self.journal, self.read = folder / JOURNAL, 0
        self.descriptor = self.LIBC.inotify_init1(os.O_NONBLOCK | os.O_CLOEXEC)
        if self.LIBC.inotify_add_watch(self.descriptor, os.fsencode(folder), self.MOVED_TO) < 0:
            raise OSError(ctypes.get_errno(), "it can't be watched", str(folder))

    def counted(self) -> collections.Counter[bytes]:
        """Those since the last call."""
        names: collections.Counter[bytes] = collections.Counter()
        with contextlib.suppress(BlockingIOError):
            while told := os.read(self.descriptor, 1 << 16):
                while told:
                    *_, length = self.HEAD.unpack_from(told)
                    names[told[self.HEAD.size:][:length].rstrip(b"\0")] += 1
                    told = told[self.HEAD.size + length:]
        noted = self.journal.read_bytes()[self.read:] if self.journal.exists() else b""
        for sort, number, body in records(noted):
            names[b"%d" % number] += sort in (STORED, BODY, PART)
            self.read += RECORD_BYTES + len(body)
        return names

    def most(self) -> int:
        return max(self.counted().values(), default=0)


def check_stores(folder: pathlib.Path, repository: pathlib.Path) -> None:
    """A file that is written from its beginning to its end is stored at most 2 times, and once more for each 128 MiB,
    also if parts of it are written again; and what was closed or synchronised is in the overlay, so that a kill loses
    none of it."""
    overlay = folder / "overlay"
    data = random.Random(1).randbytes(100 << 20)
    with MountGit(repository, "HEAD", folder / "mounted", "--overlay", overlay) as mount:
        stores = Stores(overlay)
        with open(mount.folder / "large", "wb", buffering=0) as file:
            for place in range(0, len(data), 100_000):
                file.write(data[place:place + 100_000])
        check("stores: of 100 MB", stores.most() <= 2, True)
        files = [opened(mount.folder / f"small {number}", os.O_CREAT | os.O_WRONLY) for number in range(4)]
        with contextlib.ExitStack() as stack:
            descriptors = [stack.enter_context(file) for file in files]
            stores.counted()
            for part in range(1_000):
                for number, descriptor in enumerate(descriptors):
                    os.write(descriptor, b"%d %d\n" % (number, part))
            for number, descriptor in enumerate(descriptors):
                for part in range(100, 110):
                    os.pwrite(descriptor, b"%d %d!" % (number, part), sum(len(f"{number} {n}\n") for n in range(part)))
            check("stores: none while it is written", stores.most(), 0)
            os.fsync(descriptors[0])
            check("stores: once it is synchronised", stores.most(), 1)
        check("stores: once it is closed", stores.most(), 1)
        mount.kill()
    with MountGit(repository, "HEAD", folder / "mounted", "--overlay", overlay) as mount:
        check("stores: what was closed", (mount.folder / "large").read_bytes() == data, True)
        for number in range(4):
            lines = (mount.folder / f"small {number}").read_text().splitlines()
            parts = [f"{number} {part}" for part in range(1_000)]
            parts[100:111] = ["!".join([*parts[100:110], parts[110]])]
            check(f"stores: what was closed, {number}", lines, parts)
        check("stores: the end", (mount.end("SIGTERM"), mount.said()), (0, []))


# ---- commits


def check_commits(folder: pathlib.Path, repository: pathlib.Path) -> None:
    """`mount-git changes` of a folder, and `commit` of one that nobody uses; while somebody does it is refused."""
    with MountGit(repository, "HEAD", folder / "mounted", "--overlay", folder / "overlay") as mount:
        (mount.folder / "made").write_text("made")
        (mount.folder / "run.sh").unlink()
        number = (mount.folder / "made").stat().st_ino
        branch = git(repository, "symbolic-ref", "HEAD")
        before = git(repository, "rev-parse", branch)
        with open(mount.folder / "made", "r+b", buffering=0) as file, open(mount.folder / "plain.txt", "rb"):
            # What is removed while it is open stands at a name that nobody sees.
            (mount.folder / "plain.txt").unlink()
            told = ["A\tmade", "D\tplain.txt", "D\trun.sh"]
            check("changes in use", said_by(MOUNT_GIT, "changes", mount.folder), (0, told))
            status, lines = said_by(MOUNT_GIT, "commit", mount.folder, "-m", "one")
            check("commit in use", (status, [f"{mount.folder} is in use" in line for line in lines]), (1, [True]))
            check("commit in use: the file goes on", (file.write(b"MADE"), os.pread(file.fileno(), 9, 0)), (4, b"MADE"))
        check("commit in use: nothing is moved", git(repository, "rev-parse", branch), before)
        check("changes", said_by(MOUNT_GIT, "changes", mount.folder), (0, told))
        status, lines = said_by(MOUNT_GIT, "commit", mount.folder, "-m", "one")
        made = git(repository, "rev-parse", branch)
        check("commit", (status, lines), (0, [f"{made} {branch}"]))
        check("commit: on the one before", git(repository, "rev-parse", f"{made}^"), before)
        check("commit: what it has", git(repository, "diff", "--name-status", before, made), "\n".join(told))
        check("commit: the number stays", (mount.folder / "made").stat().st_ino, number)
        (mount.folder / "made").write_text("again")
        check("commit: the second", said_by(MOUNT_GIT, "commit", mount.folder, "-m", "two")[0], 0)
        check("commit: what the second has", git(repository, "show", f"{branch}:made"), "again")
        git(repository, "update-ref", branch, before)
        check("commit: the end, with nothing said", (mount.end("SIGTERM"), mount.said()), (0, []))
    check("commit: nothing is mounted", mount.is_mounted(), False)


def check_status_in_use(folder: pathlib.Path, repository: pathlib.Path) -> None:
    """`git status` by `mount-git git`, and by its environment, of a folder in use: by who asks, who stands in it,
    and by who writes a file in it, whose bytes wait."""
    with MountGit(repository, "HEAD", folder / "mounted", "--overlay", folder / "overlay") as mount:
        (mount.folder / "made").write_text("made")
        (mount.folder / "run.sh").unlink()
        (mount.folder / "plain.txt").write_text("changed")
        wanted = b" M plain.txt\n D run.sh\n?? made\n"
        by_git = 'eval "$("$0" git --environment "$1")" && git status --porcelain'
        ways: list[list[str | pathlib.Path]] = [[MOUNT_GIT, "git", mount.folder, "status", "--porcelain"],
                                                ["sh", "-c", by_git, MOUNT_GIT, mount.folder]]
        with open(mount.folder / "made", "r+b", buffering=0) as file:
            file.write(b"MADE")
            for at, words in itertools.product([mount.folder, folder], ways):
                done = subprocess.run(words, capture_output=True, timeout=PATIENCE, cwd=at)
                check(f"status by {words[0]} in {at.name}", (done.returncode, done.stdout, done.stderr),
                      (0, wanted, b""))
        check("status: the end, with nothing said", (mount.end("SIGTERM"), mount.said()), (0, []))


CHANGES_UNDER_WAY = 40


def told_places(folder: pathlib.Path) -> set[str]:
    """The names in the folder that `mount-git changes` lists to be new."""
    status, lines = said_by(MOUNT_GIT, "changes", folder)
    check("changes under way: the status", status, 0)
    return {line.removeprefix("A\t") for line in lines if line.startswith("A\t")}


def check_changes_under_way(folder: pathlib.Path, repository: pathlib.Path) -> None:
    """While a file is moved to and fro, each `changes` lists it at one of its places, and never at both or neither; and
    the calls that wait meanwhile succeed."""
    places = [("here", "file"), ("there", "other")]
    for threads in (1, 4):
        with MountGit(repository, "HEAD", folder / "mounted", "--threads", threads) as mount:
            for name, _ in places:
                (mount.folder / name).mkdir()
            first, second = (mount.folder / name / inner for name, inner in places)
            first.write_bytes(b"moved")
            ended = threading.Event()

            def move() -> int:
                moves = 0
                while not ended.is_set():
                    first.rename(second)
                    second.rename(first)
                    moves += 1
                return moves

            with ThreadPoolExecutor(1) as pool:
                moving = pool.submit(move)
                told = [told_places(mount.folder) for _ in range(CHANGES_UNDER_WAY)]
                ended.set()
                check(f"changes under way, {threads}: it was moved", moving.result() > CHANGES_UNDER_WAY, True)
            wanted = [{"here/", "there/", "/".join(place)} for place in places]
            check(f"changes under way, {threads}: at one place", [row for row in told if row not in wanted], [])
            check(f"changes under way, {threads}: the end", (mount.end("SIGTERM"), mount.said()), (0, []))
