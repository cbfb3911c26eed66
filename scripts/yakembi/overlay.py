"""An overlay's directory, as a mount of a Git commit finds and leaves it: whose it is, and on which tree it stands.

The files whose names are numbers are mountd's, and so are `lock` and `journal`. The file `mount-git` beside them is
ours: who holds its lock has the overlay, also while mountd is closed and opened again, and its line names the tree, the
time of what comes from it, and on which commit the next one of the folder's is put. Since its lock is held no other
file takes its place. Each line is as long as the one before it, in one sector of a disk, and is written over that at
once: whatever is killed or fails, the old line or the new one is read.

The file `trees`, which is ours too, names each tree on which the overlay ever stood, a line each, once it was
dematerialised: something in it may still come from each. An overlay of before that was kept has none.
"""

import contextlib
import errno
import fcntl
import os
import pathlib
import re
import time
from typing import NamedTuple

from yakembi.git import Refusal

NOTE = "mount-git"
NOTE_LINE = re.compile(rb"([0-9a-f]{40}) ([0-9]+)(?: ([0-9a-f]{40}))?\n")
TREES = "trees"
TREE_LINE = re.compile(r"[0-9a-f]{40}\n")
# Zeros before the seconds make each line as long as one of two ids and 2^64.
NOTE_BYTES = 103
NUMBERED = re.compile("0|[1-9][0-9]*")
# Of a killed run: changes that aren't in numbered files yet.
JOURNAL = "journal"
# mountd's, which it holds open.
LOCK = "lock"
# By one of these, or a numbered file, a folder is known as an overlay.
KNOWN_BY = {NOTE, JOURNAL, LOCK}
# What is in a disk's top before anything is.
LOST_AND_FOUND = "lost+found"

# Of mountd's files: a header and a body, which in file 0 begins with the tree's id.
HEADER = 64
FILE_HEADS = b"OVFL\0\0\0\1", b"OVFL\0\0\0\2"
STATE = "0"
ID = 20


# Who asks whether a mount has an overlay has its lock for a moment.
TRIES, SECONDS_BETWEEN = 10, 0.01


class InUse(Refusal):
    """Another run has the overlay."""


def refuse_moved_from(path: str) -> None:
    """A Refusal, if a folder that lay at this path was moved or removed while a `mountd fuse` has it, which finds
    its files by the path: two would write into one folder."""
    for process in pathlib.Path("/proc").glob("[0-9]*"):
        # One that ended, or is another user's, has none of ours.
        with contextlib.suppress(OSError, ValueError, IndexError):
            words = (process / "cmdline").read_bytes().split(b"\0")
            if words[1] == b"fuse" and words[words.index(b"--overlay") + 1] == os.fsencode(path):
                locks = {os.readlink(file) for file in (process / "fd").iterdir()}
                if os.path.join(path, LOCK) not in locks:
                    raise Refusal(f"a mount that goes on (process {process.name}) has its overlay at {path}, which was "
                                  "moved or removed meanwhile: end that mount first, or use another path")


class Noted(NamedTuple):
    """The tree that an overlay stands on, the seconds of what comes from it (the commit's time, or that of the last
    `dematerialise`), and the commit, if one is known: the mounted one, or the last that was made of what the overlay
    shows."""

    tree: str
    seconds: int
    commit: str | None = None


def line_of(noted: Noted) -> bytes:
    """The note's line, of NOTE_BYTES bytes."""
    end = f" {noted.commit}\n" if noted.commit else "\n"
    digits = NOTE_BYTES - len(noted.tree) - 1 - len(end)
    return f"{noted.tree} {noted.seconds:0{digits}}{end}".encode()


def is_held(path: str | os.PathLike[str]) -> bool:
    """Whether a mount has the overlay at that path."""
    with contextlib.suppress(FileNotFoundError), open(os.path.join(path, NOTE), "rb") as note:
        try:
            fcntl.flock(note, fcntl.LOCK_SH | fcntl.LOCK_NB)
        except OSError:
            return True
    return False


def make_folder(path: str | os.PathLike[str]) -> None:
    """Makes it if it isn't there. What is there and is no folder, as a link that leads nowhere, is reported as such."""
    try:
        os.makedirs(path, exist_ok=True)
    except FileExistsError as problem:
        raise NotADirectoryError(errno.ENOTDIR, os.strerror(errno.ENOTDIR), problem.filename) from None


def check_ours(path: str | os.PathLike[str]) -> None:
    """A Refusal, if the folder has something, and nothing of an overlay, as a working directory of somebody's."""
    names = set(os.listdir(path)) - {LOST_AND_FOUND}
    if names and names.isdisjoint(KNOWN_BY) and not any(map(NUMBERED.fullmatch, names)):
        raise Refusal(f"{os.fspath(path)} is no overlay, and isn't empty")
    note = os.path.join(path, NOTE)
    # As the command's own file has that name, which would be written over.
    if os.path.isfile(note) and os.path.getsize(note) > NOTE_BYTES:
        raise Refusal(f"{os.fspath(path)} is no overlay: its file {NOTE} is no note of one")


def sync_names(folder: str | os.PathLike[str]) -> None:
    """Waits until the disk has the names in the folder."""
    descriptor = os.open(folder, os.O_RDONLY | os.O_DIRECTORY | os.O_CLOEXEC)
    try:
        os.fsync(descriptor)
    finally:
        os.close(descriptor)


class OverlayFolder:
    """The folder, made if it isn't there, and held until `close`."""

    def __init__(self, path: str | os.PathLike[str]) -> None:
        make_folder(path)
        check_ours(path)
        self.path = os.path.abspath(path)
        note = os.path.join(self.path, NOTE)
        with contextlib.ExitStack() as opened:
            self.place = os.open(self.path, os.O_PATH | os.O_DIRECTORY | os.O_CLOEXEC)
            opened.callback(os.close, self.place)
            self.note = os.open(note, os.O_RDWR | os.O_CREAT | os.O_CLOEXEC, 0o666)
            opened.callback(os.close, self.note)
            try:
                self.hold()
            except OSError as problem:
                raise OSError(problem.errno, problem.strerror, note) from None
            opened.pop_all()

    def hold(self) -> None:
        """Takes the note's lock. `InUse`, if another run has it; an OSError, if the system gives none."""
        for _ in range(TRIES):
            with contextlib.suppress(BlockingIOError):
                fcntl.flock(self.note, fcntl.LOCK_EX | fcntl.LOCK_NB)
                return
            time.sleep(SECONDS_BETWEEN)
        raise InUse(f"the overlay {self.path} is in use by another run of mount-git")

    def close(self) -> None:
        os.close(self.note)
        os.close(self.place)

    def held_path(self) -> str:
        """A path of it that is there as long as this process holds it."""
        return f"/proc/{os.getpid()}/fd/{self.place}"

    def is_fresh(self) -> bool:
        return not any(name == JOURNAL or NUMBERED.fullmatch(name) for name in os.listdir(self.path))

    def lengths(self) -> dict[str, int]:
        """How long each numbered file is, but the state, which each run writes anew."""
        names = [name for name in os.listdir(self.path) if NUMBERED.fullmatch(name) and name != STATE]
        return {name: os.stat(os.path.join(self.path, name)).st_size for name in names}

    def noted(self) -> Noted | None:
        """What we wrote down; None if we didn't."""
        line = NOTE_LINE.match(os.pread(self.note, NOTE_BYTES, 0))
        return Noted(line[1].decode(), int(line[2]), line[3].decode() if line[3] else None) if line else None

    def write_note(self, noted: Noted) -> None:
        """Writes it down, and waits until the disk has it. An OSError if that fails: then what was there is still
        there, or this is."""
        if noted == self.noted():
            return
        try:
            self.write_over(line_of(noted))
            sync_names(self.path)
        except OSError as problem:
            raise OSError(problem.errno, problem.strerror, os.path.join(self.path, NOTE)) from None

    def write_over(self, line: bytes) -> None:
        if os.fstat(self.note).st_size < len(line):
            # Of an older version, or none: longer by zeros before its bytes are others.
            os.ftruncate(self.note, len(line))
            os.fsync(self.note)
        if os.pwrite(self.note, line, 0) != len(line):
            raise OSError(errno.EIO, "it isn't written whole")
        os.fsync(self.note)

    def stood_on(self) -> set[str]:
        """The trees on which it ever stood, as far as that is known. What a disk lost of the file says nothing."""
        lines = self.file(TREES).decode(errors="replace").splitlines(keepends=True)
        return {line.strip() for line in lines if TREE_LINE.fullmatch(line)}

    def keep_stood_on(self, trees: set[str]) -> None:
        """It knows these too from now on, and the disk has that: nothing comes from one that it doesn't know."""
        known = self.stood_on()
        if trees <= known:
            return
        file = os.path.join(self.path, TREES)
        with open(f"{file}.new", "w") as new:
            new.write("".join(f"{tree}\n" for tree in sorted(known | trees)))
            new.flush()
            os.fsync(new.fileno())
        os.replace(f"{file}.new", file)
        sync_names(self.path)

    def forget_stood_on(self) -> None:
        """Nothing comes from any tree yet."""
        with contextlib.suppress(FileNotFoundError):
            os.unlink(os.path.join(self.path, TREES))

    def lacked(self, tree: str) -> Refusal:
        """That a repository lacks the tree that it stands on."""
        return Refusal(f"the overlay {self.path} stands on the tree {tree}, which the repository lacks")

    def state_root(self) -> str | None:
        """The tree that file 0 names, which a clean close leaves; None if there is none."""
        data = self.file(STATE)
        return data[HEADER : HEADER + ID].hex() if len(data) > HEADER + ID and data.startswith(FILE_HEADS) else None

    def file(self, name: str | int) -> bytes:
        """A file's bytes; none if it can't be read, since it is mountd that says what is wrong with an overlay."""
        try:
            with open(os.path.join(self.path, str(name)), "rb") as file:
                return file.read()
        except OSError:
            return b""
