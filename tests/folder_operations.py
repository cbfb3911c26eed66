"""Random operations on files and folders, each made in two places, and the whole tree that a place shows.

A place is a folder that is used by calls of the system (`Folder`), or by messages of the kernel without one
(`message_folder.MessageFolder`). Both have the same operations: a path is a tuple of names, and the outcome of an
operation is what it gives, or the name of an error number.
"""

import contextlib
import errno
import os
import pathlib
import random
import resource
import stat
from collections.abc import Iterator
from typing import Any, Protocol

from checks import check
from random_requests import RandomRequests
from yakembi.tree_model import LONGEST_DATA, LONGEST_FILE, Nodes, Path, Values, WholeTree

LONGEST_NAME = 255
LONGEST_PATH = 4_095
KINDS = {stat.S_IFREG: "file", stat.S_IFDIR: "dir", stat.S_IFLNK: "link"}
LOOK = os.O_PATH | os.O_DIRECTORY | os.O_NOFOLLOW
MODES = {False: 0o644, True: 0o755}
# The kind, the mode, the size and the owner of a node.
Attributes = tuple[str, int, int | None, tuple[int, int]]


class Place(Protocol):
    """What shows all of a place; it has the other operations too."""

    def getattr(self, path: Path) -> Attributes: ...
    def readdir(self, path: Path) -> list[bytes]: ...
    def read(self, path: Path, offset: int, length: int) -> bytes: ...
    def readlink(self, path: Path) -> bytes: ...


def outcome(place: Place, word: str, *fields: Any) -> Any:
    try:
        return getattr(place, word)(*fields)
    except OSError as refusal:
        return errno.errorcode[refusal.errno]


def attributes(mode: int, size: int, owner: tuple[int, int]) -> Attributes:
    """What is compared of a node's: the sizes and the times of folders are a file system's own."""
    kind = KINDS[stat.S_IFMT(mode)]
    return kind, stat.S_IMODE(mode), None if kind == "dir" else size, owner


class Folder:
    """A folder by calls of the system. Names are looked up one by one from its top, and no link is followed."""

    def __init__(self, top: pathlib.Path) -> None:
        self.top = top

    @contextlib.contextmanager
    def above(self, path: Path) -> Iterator[int]:
        """The open folder in which the path's last name stands."""
        if sum(len(name) + 1 for name in path) > LONGEST_PATH:
            raise OSError(errno.ENAMETOOLONG, "as where a path is handed over whole")
        at = os.open(self.top, LOOK)
        try:
            for name in path[:-1]:
                at, left = os.open(name, LOOK, dir_fd=at), at
                os.close(left)
            yield at
        finally:
            os.close(at)

    @contextlib.contextmanager
    def opened(self, path: Path, flags: int) -> Iterator[int]:
        with self.above(path) as at:
            file = os.open(last(path), flags | os.O_NOFOLLOW, MODES[False], dir_fd=at)
        try:
            yield file
        finally:
            os.close(file)

    def getattr(self, path: Path) -> Attributes:
        with self.above(path) as at:
            found = os.stat(last(path), dir_fd=at, follow_symlinks=False)
        return attributes(found.st_mode, found.st_size, (found.st_uid, found.st_gid))

    def readdir(self, path: Path) -> list[bytes]:
        with self.opened(path, os.O_DIRECTORY | os.O_RDONLY) as folder:
            return sorted(map(os.fsencode, os.listdir(folder)))

    def read(self, path: Path, offset: int, length: int) -> bytes:
        with self.opened(path, os.O_RDONLY) as file:
            return os.pread(file, length, offset)

    def write(self, path: Path, offset: int, data: bytes) -> int:
        with self.opened(path, os.O_WRONLY) as file:
            return os.pwrite(file, data, offset)

    def truncate(self, path: Path, size: int) -> None:
        with self.opened(path, os.O_WRONLY) as file:
            os.ftruncate(file, size)

    def create(self, path: Path) -> None:
        with self.opened(path, os.O_CREAT | os.O_EXCL | os.O_WRONLY):
            pass

    def chmod(self, path: Path, executable: bool) -> None:
        with self.opened(path, os.O_RDONLY) as file:
            os.fchmod(file, MODES[executable])

    def mkdir(self, path: Path) -> None:
        with self.above(path) as at:
            os.mkdir(last(path), MODES[True], dir_fd=at)

    def symlink(self, path: Path, target: bytes) -> None:
        with contextlib.suppress(FileExistsError):
            os.symlink(target, "/")  # Linux refuses a bad target before it looks up the path
        with self.above(path) as at:
            os.symlink(target, last(path), dir_fd=at)

    def readlink(self, path: Path) -> bytes:
        with self.above(path) as at:
            return os.readlink(last(path), dir_fd=at)

    def unlink(self, path: Path) -> None:
        with self.above(path) as at:
            os.unlink(last(path), dir_fd=at)

    def rmdir(self, path: Path) -> None:
        with self.above(path) as at:
            os.rmdir(last(path), dir_fd=at)

    def rename(self, source: Path, target: Path) -> None:
        with self.above(source) as source_at, self.above(target) as target_at:
            os.rename(last(source), last(target), src_dir_fd=source_at, dst_dir_fd=target_at)


def last(path: Path) -> bytes:
    """A path's last name; the folder itself for its top."""
    return path[-1] if path else b"."


def shown(place: Place, path: Path = ()) -> Nodes:
    """All that a place shows, as a dictionary from paths to nodes like those of `tree_model`."""
    kind, mode, size, _ = place.getattr(path)
    if kind == "file":
        return {path: ("file", bool(mode & 0o100), place.read(path, 0, size) if size else b"")}
    if kind == "link":
        return {path: ("link", place.readlink(path))}
    nodes: Nodes = {path: ("dir", True)}
    for name in place.readdir(path):
        nodes.update(shown(place, path + (name,)))
    return nodes


# ---- random operations


class Operations(RandomRequests):
    """Random operations, in the words of the places, most of them about what is there."""

    NAMES_OF_WORDS = {"kind": "getattr", "stat": "getattr", "list": "readdir", "setexec": "chmod"}

    def next(self) -> tuple[tuple[str, Values], tuple[str, Values]]:
        """An operation, and the request of the mount that it comes to."""
        word, fields = self.one()
        if word == "rmdir" and fields == ((),):
            return self.next()
        called = fields[:1] if word == "list" else fields
        return (self.NAMES_OF_WORDS.get(word, word), called), (word, fields)

    def file(self) -> Path:
        """A path for reading and writing: half of them are files."""
        files = [path for path, node in self.tree.nodes.items() if node[0] == "file"]
        return self.random.choice(files) if files and self.random.random() < 0.5 else self.path()

    def size(self, longest: int) -> int:
        return self.random.choice([0, 1, self.random.randrange(64), self.random.randrange(9_000), longest])

    def offset(self) -> int:
        """Where a file may end, or so far out that no file reaches it."""
        near = [0, 1, self.random.randrange(3_000), self.random.randrange(80_000)]
        return self.random.choice([*near, LONGEST_FILE, 2**62])

    def read(self) -> Values:
        return self.file(), self.offset(), self.size(150_000)

    def write(self) -> Values:
        return self.file(), self.offset(), self.data()

    def truncate(self) -> Values:
        return self.file(), self.size(LONGEST_FILE + 1)

    def setexec(self) -> Values:
        """A folder stays one that can be entered."""
        path = self.file()
        return path, self.tree.nodes.get(path, ("",))[0] == "dir" or self.random.random() < 0.5

    def data(self, longest: int = 150_000) -> bytes:
        if self.random.random() < 0.02:
            return self.random.randbytes(longest)
        return self.random.randbytes(self.random.choice([0, 1, 3, 60, 700, 5_000]))

    def symlink(self) -> Values:
        """A target may be any bytes but NUL; one that names something leads on, and none leads out of the folder."""
        long = self.random.choice([b"t" * 1_000, b"t" * (LONGEST_PATH + 1), b""])
        return self.path(), self.random.choice([b"/".join(self.there()), self.name(), b"no where\n", b"\xff", long])


@contextlib.contextmanager
def short_files() -> Iterator[None]:
    """Files as long as the mount's at most, by the system's own limit, in the place of its EFBIG."""
    soft, hard = resource.getrlimit(resource.RLIMIT_FSIZE)
    resource.setrlimit(resource.RLIMIT_FSIZE, (LONGEST_FILE, hard))
    try:
        yield
    finally:
        resource.setrlimit(resource.RLIMIT_FSIZE, (soft, hard))


OPERATIONS = 10_000
WHOLE_EVERY = 2_500
MOST_NODES = 200
NAMES = [b"plain.txt", b"run.sh", b"dir", b"many", b"d0", b"sub", b"link", b"a", b"b", b"a-", b"new\nline", b"\xff",
         b"%41", b"-r", b"*", b"with space", b"n" * LONGEST_NAME, b"m" * (LONGEST_NAME + 1)]


def note(tree: WholeTree, word: str, fields: Values) -> None:
    """Does on the dictionary what succeeded, a long write in pieces as long as the mount's requests."""
    if word != "write":
        tree.reply(word, *fields)
        return
    path, offset, data = fields
    for start in range(0, len(data), LONGEST_DATA):
        tree.write(path, offset + start, data[start : start + LONGEST_DATA])


def compare(name: str, generator: random.Random, asked: Place, plain: Place) -> None:
    """Makes random operations in both places, and compares each outcome, and at times all that the places show."""
    tree = WholeTree(shown(plain))
    check(f"{name}: at first", shown(asked), tree.nodes)
    operations = Operations(generator, tree, NAMES, MOST_NODES)
    with short_files():
        for number in range(OPERATIONS):
            (word, fields), (request, values) = operations.next()
            wanted, got = outcome(plain, word, *fields), outcome(asked, word, *fields)
            check(f"{name}: operation {number}, {word} {fields!r:.200}", got, wanted)
            if not isinstance(wanted, str):
                note(tree, request, values)
            if number % WHOLE_EVERY == WHOLE_EVERY - 1:
                check(f"{name}: after operation {number}", shown(asked), shown(plain))
    check(f"{name}: what the plain folder shows", shown(plain), tree.nodes)
