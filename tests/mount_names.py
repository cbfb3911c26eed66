"""Calls of the system on names of all kinds, after pjdfstest's subjects, in a mounted folder and in a plain one.

Each case is a call and the path that it is given, among the same few names in both folders. What it gives, or the name
of its error's number, and what it leaves are the plain directory's, but where `mount_differences` has it otherwise.
"""

import contextlib
import itertools
import os
import pathlib
import shutil
import stat
from collections.abc import Callable, Iterator
from functools import partial
from typing import Any, NamedTuple

from checks import check
from folder_operations import KINDS, Folder, shown
from mount_differences import Differences, by_c, opened, tried

AT_FDCWD = -100
RENAME_NOREPLACE, RENAME_EXCHANGE = 1, 2
# What a path has at most is 4,095 bytes.
STEPS = 2_045
# A link that leads to a link, and so on: this many the system follows, and one more.
MOST_LINKS = 40
CHAIN = "../../chain "
NAMES = ["file", "empty", "full", "to file", "to full", "dangling", "loop", "none"]
PATHS = [
    *NAMES, *[f"{name}/" for name in NAMES],
    "file/below", "none/below", "loop/below", "dangling/below", "to file/below", "to full/inner", "full/inner/below",
    "full/inner", "full/new", "none/new", ".", "..", "./", "../", "empty/.", "empty/..", "full/.", "full/..", "file/.",
    "none/..", "to full/..", "", "n" * 255, "n" * 256, "n" * 256 + "/below", "full/" + "n" * 255,
    "./" * STEPS + "/file", "./" * STEPS + "/ file", f"{CHAIN}40", f"{CHAIN}41",
]
# What is moved, and over what. Each of the first to each of both.
MOVED = [*NAMES, "full/inner", "empty/", "file/", "."]
OVER = ["other", "new", "new/", "full/new", "empty/new", "other full", "full/inner", "empty/."]


def furnish(top: pathlib.Path) -> None:
    """Makes what the paths name, two folders down, so that what is above may be named too."""
    here = top / "here"
    os.makedirs(here)
    for name in ("empty", "full", "other full"):
        (here / name).mkdir()
    for name in ("file", "other", "full/inner", "other full/inner"):
        (here / name).write_text(name)
    for name, target in [("to file", "file"), ("to full", "full"), ("dangling", "no where"), ("loop", "loop")]:
        (here / name).symlink_to(target)


def furnish_chain(top: pathlib.Path) -> None:
    """This many links, of which each leads to the one before, in the place of those that were there."""
    (top / "chain 0").write_text("chain")
    for number in range(1, MOST_LINKS + 2):
        (top / f"chain {number}").unlink(missing_ok=True)
        (top / f"chain {number}").symlink_to(f"chain {number - 1}")


# ---- calls with one path


def kind_of(found: os.stat_result) -> tuple[str, int]:
    kind = KINDS[stat.S_IFMT(found.st_mode)]
    return kind, 0 if kind == "dir" else found.st_size


def use(path: str, flags: int) -> object:
    """Opens it, and reads or writes a few bytes as the flags let it."""
    with opened(path, flags) as file:
        is_read = flags & os.O_ACCMODE == os.O_RDONLY
        return tried(os.read, file, 9) if is_read else tried(os.write, file, b"written")


def look_through(path: str) -> object:
    with opened(path, os.O_PATH) as file:
        return kind_of(os.fstat(file))


def made_without_name(path: str) -> object:
    with opened(path, os.O_TMPFILE | os.O_RDWR) as file:
        return os.write(file, b"without a name")


def move(path: str, other: str, flags: int) -> object:
    return by_c("renameat2", AT_FDCWD, os.fsencode(path), AT_FDCWD, os.fsencode(other), flags)


def enter(path: str) -> list[str]:
    with contextlib.chdir(path):
        return sorted(os.listdir())


def set_mode(path: str) -> None:
    """One that leaves a folder usable."""
    os.chmod(path, 0o711 if os.path.isdir(path) else 0o644)


LOOKS: dict[str, Callable[[str], object]] = {
    "stat": lambda path: kind_of(os.stat(path)),
    "lstat": lambda path: kind_of(os.lstat(path)),
    "access": lambda path: [os.access(path, mode) for mode in (os.F_OK, os.R_OK, os.W_OK)],
    "open to read": lambda path: use(path, os.O_RDONLY),
    "open O_PATH": look_through,
    "open O_DIRECTORY": lambda path: use(path, os.O_RDONLY | os.O_DIRECTORY),
    "open O_NOFOLLOW": lambda path: use(path, os.O_RDONLY | os.O_NOFOLLOW),
    "readlink": os.readlink,
    "readdir": lambda path: sorted(os.listdir(path)),
    "chdir": enter,
    "statvfs": lambda path: os.statvfs(path).f_namemax,
    "getxattr": lambda path: os.getxattr(path, "user.none"),
    "listxattr": os.listxattr,
}
CHANGES: dict[str, Callable[[str], object]] = {
    "open to write": lambda path: use(path, os.O_WRONLY),
    "open O_TRUNC": lambda path: use(path, os.O_RDWR | os.O_TRUNC),
    "open O_CREAT": lambda path: use(path, os.O_RDWR | os.O_CREAT),
    "open O_CREAT O_EXCL": lambda path: use(path, os.O_RDWR | os.O_CREAT | os.O_EXCL),
    "open O_CREAT O_TRUNC": lambda path: use(path, os.O_WRONLY | os.O_CREAT | os.O_TRUNC),
    "open O_CREAT O_DIRECTORY": lambda path: use(path, os.O_RDONLY | os.O_CREAT | os.O_DIRECTORY),
    "open O_CREAT O_NOFOLLOW": lambda path: use(path, os.O_WRONLY | os.O_CREAT | os.O_NOFOLLOW),
    "open O_TMPFILE": made_without_name,
    "mkdir": os.mkdir,
    "rmdir": os.rmdir,
    "unlink": os.unlink,
    "symlink": lambda path: os.symlink("file", path),
    "truncate to less": lambda path: os.truncate(path, 2),
    "truncate to more": lambda path: os.truncate(path, 9_000),
    "chmod +x": lambda path: os.chmod(path, 0o755),
    "chmod": set_mode,
    "chown to the same": lambda path: os.chown(path, os.getuid(), os.getgid()),
    "lchown to the same": lambda path: os.lchown(path, os.getuid(), os.getgid()),
    "utimes": lambda path: os.utime(path, (1, 2)),
    "utimes of a link": lambda path: os.utime(path, (1, 2), follow_symlinks=False),
    "mknod of a file": lambda path: os.mknod(path, stat.S_IFREG | 0o644),
    "mkfifo": os.mkfifo,
    "link to a new name": lambda path: os.link(path, "new", follow_symlinks=False),
    "link of a file": lambda path: os.link("file", path),
    "rename to a new name": lambda path: os.rename(path, "new"),
    "rename to a name below": lambda path: os.rename(path, "empty/new"),
    "rename of a file": lambda path: os.rename("other", path),
    "rename of a directory": lambda path: os.rename("empty", path),
    "rename RENAME_NOREPLACE": lambda path: move("file", path, RENAME_NOREPLACE),
    "rename RENAME_EXCHANGE": lambda path: move("file", path, RENAME_EXCHANGE),
    "setxattr": lambda path: os.setxattr(path, "user.name", b"value"),
}


# ---- the cases


class NamedCall(NamedTuple):
    """A call that is made where the names are, and whether it may change anything there."""

    name: str
    call: Callable[[], object]
    may_change: bool


def of_one_path(calls: dict[str, Callable[[str], object]], may_change: bool) -> Iterator[NamedCall]:
    for (name, call), path in itertools.product(calls.items(), PATHS):
        yield NamedCall(f"{name}: {short(path)}", partial(call, path), may_change)


def moves() -> Iterator[NamedCall]:
    for path, other in itertools.product(MOVED, [*MOVED, *OVER]):
        yield NamedCall(f"rename: {short(path)} to {short(other)}", partial(os.rename, path, other), True)


def short(path: str) -> str:
    return repr(path) if len(path) < 40 else f"{path[:10]!r}.. of {len(path)} bytes"


class BothPlaces:
    """The mounted folder and the plain one, in which the same names are made anew once they were changed."""

    def __init__(self, tops: list[pathlib.Path], differences: Differences) -> None:
        self.tops = tops
        self.differences = differences
        self.number = 0
        self.since: list[str] = []
        for top in tops:
            furnish_chain(top)
        self.furnish()

    def furnish(self) -> None:
        self.number += 1
        self.places = [top / str(self.number) for top in self.tops]
        for place in self.places:
            furnish(place)
        self.since.clear()

    def check(self, case: NamedCall) -> None:
        got, wanted = [self.result(place, case.call) for place in self.places]
        is_listed = self.differences.check(f"names: {case.name}", got, wanted)
        self.since.append(case.name)
        if case.may_change and not isinstance(wanted, str):
            if is_listed:
                for place in self.places:
                    shutil.rmtree(place)
            else:
                self.check_left()
            if CHAIN in case.name:
                for top in self.tops:
                    furnish_chain(top)
            self.furnish()

    def result(self, place: pathlib.Path, call: Callable[[], Any]) -> Any:
        with contextlib.chdir(place / "here"):
            return tried(call)

    def check_left(self) -> None:
        """What the calls left since the names were made."""
        name = f"names: what is left after {self.since[-1]}, or one of the {len(self.since) - 1} before"
        check(name, *[shown(Folder(place)) for place in self.places])


def check_names(tops: list[pathlib.Path], differences: Differences) -> None:
    """All cases, in folders of which the first is the mounted one."""
    places = BothPlaces(tops, differences)
    for case in itertools.chain(of_one_path(LOOKS, False), of_one_path(CHANGES, True), moves()):
        places.check(case)
    places.check_left()
