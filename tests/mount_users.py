"""Users of a mounted folder: one who isn't root, many at once, some beside a commit, and those of a full overlay."""

import contextlib
import functools
import os
import pathlib
import random
import resource
import shutil
import signal
import subprocess
import tempfile
import threading
import time
from collections.abc import Callable, Iterator
from concurrent.futures import ThreadPoolExecutor

from checks import PATIENCE, check, git, make_repository, skip
from helpers.disks import small_disk
from helpers.running import most_memory_of
from mount_differences import tried
from mount_folder import MountGit, children, said_by
from mount_kernel import mountd_of
from mount_uses import BYTES_OF_A_PLACE, BYTES_OF_A_TIME
from programs import MOUNT_GIT, MOUNTD

USERS = 8
# Of a turn of each user.
CALLS = 8

# ---- one who isn't root

NOBODY = 65_534
# In a shell of that user's, in the mounted folder.
USES = [
    ("a look", "cat plain.txt && stat -c '%A %u' run.sh", f"plain\n-rwxr-xr-x {NOBODY}\n"),
    ("changes", "mkdir made && echo one > made/file && mv made moved && cat moved/file && rm -r many && ls -d m*",
     "one\nmoved\n"),
    ("space", "df --output=target . | tail -n 1 | xargs basename", "shown\n"),
]


class Nobody:
    """Runs of programs by a user who isn't root, in whose folder all lies."""

    def __init__(self, folder: pathlib.Path) -> None:
        self.folder = folder
        # Where root's own programs lie nobody else may look.
        self.environment = {"PATH": "/usr/local/bin:/usr/bin:/bin", "HOME": str(folder), "LC_ALL": "C",
                            "TMPDIR": str(folder)}

    def run(self, *words: object) -> tuple[int, str]:
        done = subprocess.run([str(word) for word in words], user=NOBODY, group=NOBODY, extra_groups=[],
                              cwd=self.folder, env=self.environment, stdin=subprocess.DEVNULL, stdout=subprocess.PIPE,
                              stderr=subprocess.STDOUT, timeout=PATIENCE)
        return done.returncode, done.stdout.decode(errors="replace")

    def start(self, *words: object) -> subprocess.Popen[str]:
        return subprocess.Popen([str(word) for word in words], user=NOBODY, group=NOBODY, extra_groups=[],
                                cwd=self.folder, env=self.environment, stdin=subprocess.DEVNULL,
                                stdout=subprocess.PIPE, stderr=subprocess.STDOUT, text=True, start_new_session=True)


@contextlib.contextmanager
def nobody() -> Iterator[Nobody | str]:
    """That user with a repository, or why there is none."""
    with tempfile.TemporaryDirectory(prefix="nobody.") as name:
        user = Nobody(pathlib.Path(name))
        make_repository(user.folder)
        for path in [user.folder, *user.folder.rglob("*")]:
            os.chown(path, NOBODY, NOBODY, follow_symlinks=False)
        if shutil.which("fusermount3") is None:
            yield "fusermount3, of Debian's fuse3, isn't there"
        elif user.run("test", "-w", "/dev/fuse")[0] != 0:
            yield "others than root may not open /dev/fuse"
        elif user.run("sh", "-c", '"$0" --help && "$1" --version', MOUNT_GIT, MOUNTD)[0] != 0:
            yield f"others than root may not run {MOUNT_GIT} and {MOUNTD}"
        else:
            try:
                yield user
            finally:
                # What was killed and isn't mounted anew.
                subprocess.run(["umount", "-l", user.folder / "shown"], capture_output=True)


def check_plain_user(folder: pathlib.Path) -> None:
    """Who isn't root mounts by fusermount3, uses the folder, commits, and ends it in each way. (If nobody here is root,
    all other tests are of such a user.)"""
    if os.geteuid() != 0:
        return
    with nobody() as user:
        if isinstance(user, str):
            skip("a user who isn't root", user)
        else:
            check_uses(user)


def check_uses(user: Nobody) -> None:
    shown, overlay = user.folder / "shown", user.folder / "overlay"
    words = [MOUNT_GIT, "--mountd", MOUNTD, "--overlay", overlay, user.folder / "outer", "HEAD", shown]
    ends: list[tuple[str, Callable[[subprocess.Popen[str]], object], int]] = [
        ("SIGTERM", lambda run: run.terminate(), 0),
        ("fusermount3 -u", lambda run: user.run("fusermount3", "-u", shown), 0),
        ("a kill of all", kill_all, -signal.SIGKILL),
    ]
    for number, (how, end, status) in enumerate(ends):
        run = user.start(*words)
        with ended(run, shown):
            check(f"plain user: mounted, {number}", told_by(run), f"mounted {shown}")
            if number == 0:
                for name, command, wanted in USES:
                    check(f"plain user: {name}", user.run("sh", "-euc", f"cd '{shown}' && {command}"), (0, wanted))
                check("plain user: root isn't let in", tried(os.listdir, shown), "EACCES")
                told = "D\tmany/\nA\tmoved/\nA\tmoved/file\n"
                check("plain user: changes", user.run(MOUNT_GIT, "changes", shown), (0, told))
                for setting in ("user.name", "user.email"):
                    user.run("git", "-C", user.folder / "outer", "config", setting, "nobody@example.org")
                made = user.run(MOUNT_GIT, "commit", shown, "-m", "m", "--branch", "made")
                check("plain user: commit", (made[0], made[1].endswith(" refs/heads/made\n")), (0, True))
            else:
                check(f"plain user: it is there, {number}", user.run("cat", shown / "moved/file"), (0, "one\n"))
            end(run)
            check(f"plain user: {how}", run.wait(PATIENCE), status)
    run = user.start(*words)
    with ended(run, shown):
        line = f"mount-git: {shown} was left by a mount that was killed, and is unmounted"
        check("plain user: mounted after a kill", [told_by(run), told_by(run)], [line, f"mounted {shown}"])
        check("plain user: what is there", user.run("cat", shown / "moved/file"), (0, "one\n"))
        run.terminate()
        check("plain user: the last end", run.wait(PATIENCE), 0)


def kill_all(run: subprocess.Popen[str]) -> None:
    for process in [run.pid, *children(run.pid)]:
        with contextlib.suppress(ProcessLookupError):
            os.kill(process, signal.SIGKILL)


def told_by(run: subprocess.Popen[str]) -> str:
    assert run.stdout is not None
    return run.stdout.readline().strip()


@contextlib.contextmanager
def ended(run: subprocess.Popen[str], shown: pathlib.Path) -> Iterator[None]:
    """Leaves nothing that runs, whatever happened, and nothing mounted, unless it ended in the block."""
    try:
        yield
    finally:
        if run.poll() is None:
            subprocess.run(["umount", "-l", shown], capture_output=True)
            kill_all(run)
        run.communicate()


# ---- many at once


def use(home: pathlib.Path, turns: range) -> list[str]:
    """Makes, changes, moves and reads a file in a folder, turn by turn. What is read and wasn't written just before."""
    odd = []
    for turn in turns:
        path, moved, content = home / str(turn), home / "moved", f"{turn}"
        path.write_text(content)
        path.rename(moved)
        odd += [read for _ in range(CALLS - 3) if (read := moved.read_text()) != content]
    return odd


def check_users(folder: pathlib.Path, repository: pathlib.Path, calls: int) -> None:
    """Users at once read what they wrote. One mountd serves them, in no more memory than the first third of it took,
    but for the time of each file that is made, and its place in the journal."""
    turns = calls // (USERS * CALLS)
    with MountGit(repository, "HEAD", folder / "mounted", "--overlay", folder / "overlay") as mount:
        homes = [mount.folder / f"home {number}" for number in range(USERS)]
        for home in homes:
            home.mkdir()
        before, memory = mountd_of(mount), []
        with ThreadPoolExecutor(USERS) as users:
            for part in (range(turns // 3), range(turns // 3, turns)):
                odd = users.map(functools.partial(use, turns=part), homes)
                check(f"users: what each reads in {part}", list(odd), [[]] * USERS)
                memory.append(most_memory_of(before[-1]))
        print(f"users of a folder, {calls:,} calls: {memory[0]:,} bytes, and at the end {memory[1]:,}")
        of_files = (BYTES_OF_A_TIME + BYTES_OF_A_PLACE) * USERS * (turns - turns // 3)
        check("users: no more memory, within 5 %", 0 < memory[1] <= memory[0] * 1.05 + of_files, True)
        check("users: one mountd", mountd_of(mount), before)
        check("users: each has one file", [os.listdir(home) for home in homes], [["moved"]] * USERS)
        check("users: the end, with nothing said", (mount.end("SIGTERM"), mount.said()), (0, []))


# ---- beside a commit

COMMITS = 4
# Who comes just between an unmount and the next mount finds the folder below, or a mount that isn't answered any more.
BETWEEN = {"ENOENT", "ENOTCONN", "ECONNABORTED", "ENODEV"}


def check_commits_under_way(folder: pathlib.Path, repository: pathlib.Path) -> None:
    """Users work on beside commits: they wait, or find that the folder isn't there for a moment, and none of what they
    closed is lost."""
    with MountGit(repository, "HEAD", folder / "mounted", "--overlay", folder / "overlay") as mount:
        branch, before = git(repository, "symbolic-ref", "HEAD"), git(repository, "rev-parse", "HEAD")
        is_over = threading.Event()
        with ThreadPoolExecutor(3) as users:
            told = [users.submit(write_on, mount.folder / f"dir/{number}", is_over) for number in range(3)]
            for number in range(COMMITS):
                check(f"under way: commit {number}", committed(mount.folder), 0)
            is_over.set()
            odd = [user.result(PATIENCE) for user in told]
        check("under way: what users found", odd, [[]] * 3)
        check("under way: the commits", git(repository, "rev-parse", f"{branch}~{COMMITS}"), before)
        git(repository, "update-ref", branch, before)
        check("under way: the end, with nothing said", (mount.end("SIGTERM"), mount.said()), (0, []))
    check("under way: nothing came into the folder below", list(mount.folder.iterdir()), [])


def committed(folder: pathlib.Path) -> int:
    """The status of a commit, which is tried again while the folder is in use."""
    end = time.monotonic() + PATIENCE
    while True:
        status, lines = said_by(MOUNT_GIT, "commit", folder, "-m", "under way")
        if status == 0 or not any("is in use" in line for line in lines) or time.monotonic() > end:
            return status
        time.sleep(0.01)


def write_on(path: pathlib.Path, is_over: threading.Event) -> list[str]:
    """Writes a file again and again, and reads it; what else it finds."""
    odd, number = [], 0
    while not is_over.is_set():
        number += 1
        text = f"{number}"
        while (found := tried(path.write_text, text)) in BETWEEN:
            pass
        if found != len(text):
            odd.append(f"writing {text}: {found}")
        while (found := tried(path.read_text)) in BETWEEN:
            pass
        if found != text:
            odd.append(f"reading {text}: {found}")
        # So that now and then nobody uses the folder.
        time.sleep(0.02)
    return odd


# ---- a full overlay

DISK = 4 << 20
PIECE = 300_000
# What the journal takes: 50 of the first or more fill the disk, and the second what is then left before its reserve.
NOTED, SMALL = 50_000, 2_000
# More small files than the journal, and what its reserve makes of it, has room for.
MOST_CHANGES = 200
# Small files that take more than the reserve, as numbered files, and less than the large one beside them.
CUT_BESIDE = 40
LINE, LINES = b"a line of a log, as long as most of them are\n", 100
LIMIT = 4 << 20


def check_full_overlay(folder: pathlib.Path, repository: pathlib.Path) -> None:
    """If the overlay's disk is full, a close and a change are ENOSPC, as in a plain directory on it; what was closed
    before is there, and with room all is done."""
    data = random.Random(1).randbytes(PIECE)
    with small_disk(folder / "small", DISK) as disk:
        if disk is None:
            skip("a full overlay", "no small disk may be mounted")
            return
        other = disk / "of another program"
        other.write_bytes(data)
        with MountGit(repository, "HEAD", folder / "mounted", "--overlay", disk / "overlay") as mount:
            told, stored = filled(mount.folder, data)
            check("full: it is", (told, 0 < len(stored) < DISK // PIECE), ("ENOSPC", True))
            check("full: what was closed", {path.read_bytes() == data for path in stored}, {True})
            with filled_up(disk / "the rest"):
                made = [mount.folder / f"made {number}" for number in range(MOST_CHANGES)]
                told = {tried(path.write_bytes, data[:SMALL]) for path in made}
                check("full: changes, once the journal finds no room either", told - {SMALL}, {"ENOSPC"})
                check("full: a look at the commit", (mount.folder / "plain.txt").read_text(), "plain\n")
            # What couldn't be stored has no bytes, if there was room for its name.
            refused = mount.folder / f"large {len(stored)}"
            check("full: what couldn't be stored", tried(refused.read_bytes) in (b"", "ENOENT"), True)
            other.unlink()
            refused.unlink(missing_ok=True)
            stored.pop(0).unlink()
            check("full: with room", tried((mount.folder / "small").write_bytes, b"small"), 5)
            check("full: the end, with nothing said", (mount.end("SIGTERM"), mount.said()), (0, []))
        with MountGit(repository, "HEAD", folder / "mounted", "--overlay", disk / "overlay") as mount:
            check("full: mounted again", sorted(mount.folder.glob("large *")), sorted(stored))
            check("full: what is there", {path.read_bytes() == data for path in stored}, {True})
            check("full: what came after it", (mount.folder / "small").read_bytes(), b"small")
            check("full: the second end", (mount.end("SIGTERM"), mount.said()), (0, []))


def check_full_journal(folder: pathlib.Path, repository: pathlib.Path) -> None:
    """If small changes have filled the overlay's disk each removal goes, though nobody makes room elsewhere; and
    once most is removed there is room again."""
    data = random.Random(2).randbytes(NOTED)
    with small_disk(folder / "small", DISK) as disk:
        if disk is None:
            skip("a full journal", "no small disk may be mounted")
            return
        (disk / "of another program").write_bytes(bytes(DISK // 4))
        with MountGit(repository, "HEAD", folder / "mounted", "--overlay", disk / "overlay") as mount:
            below, more = mount.folder / "below", mount.folder / "more"
            below.mkdir()
            more.mkdir()
            told, stored = filled(below, data)
            check(f"full journal: it is, with {len(stored)} files", (told, len(stored) > 40), ("ENOSPC", True))
            with filled_up(disk / "the rest"):
                told, small = filled(more, data[:SMALL])
                check(f"full journal: for {len(small)} small ones too", told, "ENOSPC")
                check_removals(mount.folder, stored, small)
                check("full journal: with room", tried((mount.folder / "small").write_bytes, data), len(data))
            check("full journal: the end, with nothing said", (mount.end("SIGTERM"), mount.said()), (0, []))
        with MountGit(repository, "HEAD", folder / "mounted", "--overlay", disk / "overlay") as mount:
            gone = [path for path in (mount.folder / "moved", mount.folder / "plain.txt", below, more) if path.exists()]
            check("full journal: mounted again", (gone, (mount.folder / "small").read_bytes() == data), ([], True))
            check("full journal: the second end", (mount.end("SIGTERM"), mount.said()), (0, []))


def append(path: pathlib.Path, data: bytes) -> int:
    with path.open("ab") as file:
        return file.write(data)


def check_cut_on_full_disk(folder: pathlib.Path, repository: pathlib.Path) -> None:
    """If the overlay's disk is full a large file can be emptied, and its room is used then, though what was noted
    besides takes more than the reserve."""
    data = random.Random(3).randbytes(PIECE)
    with small_disk(folder / "small", DISK) as disk:
        if disk is None:
            skip("a file that is emptied on a full disk", "no small disk may be mounted")
            return
        with MountGit(repository, "HEAD", folder / "mounted", "--overlay", disk / "overlay") as mount:
            large, small = mount.folder / "large", [mount.folder / f"small {number}" for number in range(CUT_BESIDE)]
            for path, stored in (large, data), *((path, data[:SMALL]) for path in small):
                path.write_bytes(stored)
            with filled_up(disk / "the rest"):
                filled(mount.folder, data[:SMALL])
                check("emptied: it isn't cut by a byte", tried(lambda: os.truncate(large, PIECE - 1)), "ENOSPC")
                check("emptied: the file", (tried(large.write_bytes, b""), large.read_bytes()), (0, b""))
                check("emptied: it grows again", {tried(append, large, LINE) for _ in range(LINES)}, {len(LINE)})
                check("emptied: a removal", tried(small.pop().unlink), None)
                check("emptied: with room", tried((mount.folder / "new").write_bytes, data[:NOTED]), NOTED)
                check("emptied: the end", (mount.end("SIGTERM"), mount.said()), (0, []))
        with MountGit(repository, "HEAD", folder / "mounted", "--overlay", disk / "overlay") as mount:
            there = {path.read_bytes() for path in small}
            check("emptied: what is there", (there, large.read_bytes()), ({data[:SMALL]}, LINE * LINES))
            check("emptied: what came after it", (mount.folder / "new").read_bytes() == data[:NOTED], True)
            check("emptied: the second end", (mount.end("SIGTERM"), mount.said()), (0, []))


def check_killed_on_full_disk(folder: pathlib.Path, repository: pathlib.Path) -> None:
    """After a kill on a full disk what was changed last is there, though nobody made room."""
    with small_disk(folder / "small", DISK) as disk:
        if disk is None:
            skip("a kill on a full disk", "no small disk may be mounted")
            return
        with MountGit(repository, "HEAD", folder / "mounted", "--overlay", disk / "overlay") as mount:
            small = [mount.folder / f"small {number}" for number in range(5)]
            for path in small:
                path.write_bytes(b"small")
            with filled_up(disk / "the rest"):
                check("killed on a full disk: a removal", tried(small[0].unlink), None)
                os.kill(mountd_of(mount)[-1], signal.SIGKILL)
                check("killed on a full disk: the end", mount.status(), 1)
                with MountGit(repository, "HEAD", folder / "mounted", "--overlay", disk / "overlay") as again:
                    there = [path.read_bytes() if path.exists() else None for path in small]
                    check("killed on a full disk: what is there", there, [None] + [b"small"] * 4)
                    check("killed on a full disk: the second end", (again.end("SIGTERM"), again.said()), (0, []))


def check_removals(folder: pathlib.Path, stored: list[pathlib.Path], small: list[pathlib.Path]) -> None:
    """What goes in a mount whose overlay's disk has no room at all: a rename, and each removal. What makes a name is
    refused, once the journal has no more than its reserve."""
    made = [folder / f"made {number}" for number in range(SMALL // 50)]
    told = [tried(path.mkdir) for path in made]
    check("full journal: new directories", (told[-1], set(told) <= {None, "ENOSPC"}), ("ENOSPC", True))
    check("full journal: those that were made", {tried(path.rmdir) for path in made if path.exists()} <= {None}, True)
    moved, data = folder / "moved", stored[0].read_bytes()
    check("full journal: a rename", tried(stored[0].rename, moved), moved)
    check("full journal: what was renamed", moved.read_bytes() == data, True)
    check("full journal: what the commit has", tried((folder / "plain.txt").unlink), None)
    gone = {tried(path.unlink) for path in (moved, *stored[1:], *small)}
    for path in small[-1].parent.iterdir():
        gone.add(tried(path.unlink))
    for path in stored[-1].parent.iterdir():
        gone.add(tried(path.unlink))
    check("full journal: removals", gone, {None})
    check("full journal: directories", {tried(paths[-1].parent.rmdir) for paths in (stored, small)}, {None})


@contextlib.contextmanager
def filled_up(path: pathlib.Path) -> Iterator[None]:
    """A file that takes all the room of its disk."""
    with open(path, "wb", buffering=0) as file, contextlib.suppress(OSError):
        while True:
            file.write(bytes(1 << 12))
    try:
        yield
    finally:
        path.unlink()


def check_longest_file(folder: pathlib.Path, repository: pathlib.Path) -> None:
    """Over the limit of mountd's user on a file's size a close is EFBIG, as in a plain directory; what is shorter is
    stored, and the other with a higher limit."""
    data = random.Random(2).randbytes(2 * LIMIT)
    with MountGit(repository, "HEAD", folder / "mounted", "--overlay", folder / "overlay") as mount:
        mountd, = mountd_of(mount)
        _, hard = resource.prlimit(mountd, resource.RLIMIT_FSIZE)
        resource.prlimit(mountd, resource.RLIMIT_FSIZE, (LIMIT, hard))
        large, small = mount.folder / "large", mount.folder / "small"
        check("limited: over it", tried(large.write_bytes, data), "EFBIG")
        check("limited: within it", tried(small.write_bytes, data[:LIMIT // 2]), LIMIT // 2)
        resource.prlimit(mountd, resource.RLIMIT_FSIZE, (hard, hard))
        check("limited: with none", tried(large.write_bytes, data), len(data))
        check("limited: what is there", (large.read_bytes() == data, small.stat().st_size), (True, LIMIT // 2))
        check("limited: the end, with nothing said", (mount.end("SIGTERM"), mount.said()), (0, []))


def filled(folder: pathlib.Path, data: bytes) -> tuple[object, list[pathlib.Path]]:
    """Writes files until one is refused: how that is, and those that were closed."""
    stored: list[pathlib.Path] = []
    while len(stored) < DISK // len(data) + 1:
        path = folder / f"large {len(stored)}"
        told = tried(path.write_bytes, data)
        if told != len(data):
            return told, stored
        stored.append(path)
    return None, stored
