"""What a call of the system gives, and where a mounted folder gives otherwise than a plain one, as docs/MOUNT-GIT.md
tells in a table."""

import contextlib
import ctypes
import errno
import os
import pathlib
import re
from collections.abc import Callable, Iterator, Sequence
from typing import Any, NamedTuple

from checks import check
from programs import TOP

LIBC = ctypes.CDLL(None, use_errno=True)
PAGE = TOP / "docs" / "MOUNT-GIT.md"
# Whatever the plain directory gives.
ANYTHING = object()
# Any error in the plain directory's place.
A_SUCCESS = object()


# ---- calls


def tried(call: Callable[..., Any], *values: Any, **named: Any) -> Any:
    """What the call gives, or the name of its error's number."""
    try:
        return call(*values, **named)
    except OSError as problem:
        return errno.errorcode[problem.errno or 0]


@contextlib.contextmanager
def opened(path: str | pathlib.Path, flags: int, mode: int = 0o644) -> Iterator[int]:
    file = os.open(path, flags, mode)
    try:
        yield file
    finally:
        os.close(file)


def by_c(name: str, *values: Any) -> int:
    """A call of the C library that Python hasn't."""
    done = int(getattr(LIBC, name)(*values))
    if done < 0:
        raise OSError(ctypes.get_errno(), os.strerror(ctypes.get_errno()))
    return done


# ---- differences


class Difference(NamedTuple):
    """A row of the page's table by its first cell, the cases' names as a pattern, what the plain folder gives in them,
    and what the mounted one gives."""

    title: str
    cases: str
    plain: Any
    mounted: Any

    def is_about(self, name: str, plain: Any) -> bool:
        is_error = isinstance(plain, str) and plain in errno.errorcode.values()
        is_plain = self.plain is ANYTHING or plain == self.plain or (self.plain is A_SUCCESS and not is_error)
        return is_plain and re.fullmatch(self.cases, name) is not None


class Differences:
    """The rows, of which each has to come up, and stands in the page."""

    def __init__(self, rows: Sequence[Difference]) -> None:
        self.rows = rows
        self.met: set[Difference] = set()

    def check(self, name: str, got: Any, wanted: Any) -> bool:
        """Checks what a case gave; whether a difference is listed for it, and it came up."""
        listed = [row for row in self.rows if got != wanted and row.is_about(name, wanted)]
        self.met.update(listed)
        check(name, got, listed[0].mounted if listed else wanted)
        return bool(listed)

    def check_rows(self, is_about_names: bool) -> None:
        """Those about names, whose cases' names begin so, or the others."""
        cells = {line.split(" | ")[0].removeprefix("| ") for line in PAGE.read_text().splitlines()}
        for row in self.rows:
            if row.cases.startswith("names: ") == is_about_names:
                check(f"a difference that is listed comes up: {row.title}, {row.cases}", row in self.met, True)
                check(f"docs/MOUNT-GIT.md has a row: {row.title}", row.title in cells, True)


REMOVED_FOLDER = "a directory that was removed, or moved over, while it is open or stood in"
FOUND_FILE = "a file that is removed or replaced after somebody found its name, and before that one opens it"
LISTED_FOLDER = "a directory of more than 1,000 names, each of which is changed to a later one while it is listed"
LINKS = "how many names a directory, or a removed file, has (`st_nlink`)"
FOLDER_SIZE = "the size of a directory (`st_size`, `st_blocks`)"
MODES = "modes"
OWNERS = "owners"
MORE_NAMES = "hard links"
SPECIAL = "pipes, sockets and devices"
ATTRIBUTES = "extended attributes"
ROOM = "`fallocate`, but for what `posix_fallocate` does"
NAMELESS = "files without a name (`O_TMPFILE`)"
FLAGS = "flags of `renameat2`"
HIDDEN = "names at the top that begin with four bytes 255"
LONG_PATHS = "paths, counted from the top of the mount"
LARGE = "large files"
DIFFERENCES = [
    Difference(REMOVED_FOLDER, "removed folder: .*|moved folder: .* that it was moved over", ANYTHING, "ESTALE"),
    Difference(REMOVED_FOLDER, "removed where one stands: (stat|listing)( of what was above)?", ANYTHING, "ESTALE"),
    Difference(FOUND_FILE, "removed before open: (removed|replaced) before it is opened: .*", ANYTHING, "ESTALE"),
    Difference(LISTED_FOLDER, "names that move on: the end of 1100", True, False),
    Difference(LINKS, "(removed|replaced) while open: links( of the replaced)?", 0, 1),
    Difference(LINKS, "counted: links of (a folder of two folders|an empty folder)", ANYTHING, 1),
    Difference(FOLDER_SIZE, "counted: a folder has a size", True, False),
    Difference(MODES, "permissions: (chmod (600|444)|made with 600)", ANYTHING, "0o100644"),
    Difference(MODES, "permissions: (chmod (4755|1777)|made with 711)", ANYTHING, "0o100755"),
    Difference(MODES, "permissions: a folder.*", ANYTHING, "0o40755"),
    Difference(OWNERS, "permissions: chown to another( group)?", None, "EPERM"),
    Difference(MORE_NAMES, "refused kinds: hard link", None, "EPERM"),
    Difference(SPECIAL, "refused kinds: (pipe|pipe by mknod|socket|device)", None, "EPERM"),
    Difference(HIDDEN, "hidden names: .* of such a name", None, "EPERM"),
    Difference(HIDDEN, "hidden names: a move to such a name", None, "EPERM"),
    Difference(HIDDEN, "hidden names: .* is told", True, False),
    Difference(ATTRIBUTES, "refused kinds: .* attributes?", ANYTHING, "ENOTSUP"),
    Difference(ROOM, "kept room: fallocate of .*", 0, "ENOTSUP"),
    Difference(LONG_PATHS, "deep: .*deeper", None, "ENAMETOOLONG"),
    Difference(LARGE, "large: (truncate to more than there may be|write behind what there may be)", ANYTHING, "EFBIG"),
    Difference(ATTRIBUTES, "names: (get|list|set)xattr: .*", ANYTHING, "ENOTSUP"),
    Difference(NAMELESS, "names: open O_TMPFILE: .*", A_SUCCESS, "ENOTSUP"),
    Difference(SPECIAL, "names: mkfifo: .*", None, "EPERM"),
    Difference(MORE_NAMES, "names: link .*", None, "EPERM"),
    Difference(FLAGS, "names: rename RENAME_EXCHANGE: .*", 0, "EINVAL"),
]
