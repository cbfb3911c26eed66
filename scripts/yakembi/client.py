"""The line protocol of `mountd`, as a program speaks it that uses a mount.

    from yakembi import client

    with client.connect(4711) as session:        # the port that `mountd serve` printed, or its socket's path
        session.write(b"/src/new.txt", 0, b"text")
        for name, kind in session.entries(b"/src"):
            print(name, kind)

`start` does the same over a child's pipes, as `start(["mountd", "stdio", "--root", ..])`. `record` keeps what a session
sends and hears in files, for `scripts/check-session`.

A path is bytes: `/`, or a `/` before each name, and a name is any bytes without `/` and NUL but `.` and `..`, 255 at
most. What the mount refuses is an `OSError` with Linux's number, so that a path that isn't there is a
`FileNotFoundError`. What can't be spelled (EINVAL) or is too long (ENAMETOOLONG) is refused here, and never sent. A
`Fault` says that the mount couldn't answer, and that nothing changed. `SessionEnded` says that the other side went away
or told what is no reply: then nobody knows whether a change that was asked for was made, and the session is of no more
use.
"""

import abc
import errno
import functools
import os
import re
import subprocess
import time
from collections.abc import Callable, Iterator, Sequence
from typing import Any, BinaryIO, NamedTuple, Self, cast
from urllib.parse import unquote_to_bytes

from yakembi.addresses import Address, connected

LONGEST_NAME = 255
MOST_NAMES = 256
LONGEST_PATH = 4_095
LONGEST_TARGET = 4_095
LONGEST_DATA = 65_536
LONGEST_FILE = 1 << 30
MOST_ENTRIES = 1_000
GREATEST_NUMBER = (1 << 64) - 1
# The longest reply, of 65,536 bytes in hexadecimal digits, is received whole.
BUFFER = 1 << 18
# How many paths are kept with their texts, since a file is read in pages.
KEPT_PATHS = 1_024
# How a refusal is spelled.
REFUSED = re.compile(rb"err ([0-9]{1,4}) [A-Z0-9]+")

# What stands at a path: a plain file, an executable one, a link, a directory.
FILE, EXEC, LINK, DIR = "file", "exec", "link", "dir"

# The names of a path, from the top down; what stands in a reply after its first word.
Names = Sequence[bytes]
Fields = list[bytes]


class Stat(NamedTuple):
    """What stands at a path. It keeps its number for as long as it is there, wherever it is moved, and nothing else is
    given that number; it is in the overlay's files, so that the next mount gives it too."""

    kind: str
    size: int
    number: int


class Page(NamedTuple):
    """Rows of a name and its kind, and whether more come after them."""

    entries: list[tuple[bytes, str]]
    more: bool


class Fault(Exception):
    """What the mount couldn't do, in its own words: `fetch ID CAUSE`, `memory`, `overlay`, `numbers`, `history N`."""

    def __init__(self, words: list[str]) -> None:
        super().__init__(" ".join(words))
        self.words = words


class SessionEnded(Exception):
    """The session is over, though its user hadn't closed it."""


def refusal(number: int) -> OSError:
    return OSError(number, os.strerror(number))


# ---- fields of a line

ESCAPED = re.compile(rb"[^A-Za-z0-9._]")


def name_text(name: bytes) -> bytes:
    return ESCAPED.sub(lambda byte: b"%%%02X" % ord(byte.group()), name)


def path_text(names: Names) -> bytes:
    """The text of a path, which is given as its names."""
    return b"".join(b"/" + name_text(name) for name in names) or b"/"


def data_text(data: bytes) -> bytes:
    return data.hex().encode() or b"-"


def checked_name(name: bytes) -> bytes:
    """The name, or the refusal that the mount would give."""
    if name in (b"", b".", b"..") or b"/" in name or b"\0" in name:
        raise refusal(errno.EINVAL)
    if len(name) > LONGEST_NAME:
        raise refusal(errno.ENAMETOOLONG)
    return name


def names_of(path: bytes) -> tuple[bytes, ...]:
    """The names of a path, or its refusal."""
    if path == b"/":
        return ()
    if not path.startswith(b"/"):
        raise refusal(errno.EINVAL)
    names = tuple(checked_name(name) for name in path[1:].split(b"/"))
    if len(names) > MOST_NAMES or len(path) > LONGEST_PATH:
        raise refusal(errno.ENAMETOOLONG)
    return names


@functools.lru_cache(KEPT_PATHS)
def path_field(path: bytes) -> bytes:
    return path_text(names_of(path))


def number_field(number: int) -> bytes:
    if not 0 <= number <= GREATEST_NUMBER:
        raise refusal(errno.EINVAL)
    return b"%d" % number


# ---- requests


class Requests(abc.ABC):
    """The fourteen requests, over an `ask` that sends the fields of one line.

    The reply to it begins with the word `head`; `ask` gives the fields after that, or raises what else was told.
    """

    @abc.abstractmethod
    def ask(self, head: bytes, *fields: bytes) -> Fields: ...

    def kind(self, path: bytes) -> str:
        """FILE, EXEC, LINK or DIR."""
        return self.ask(b"kind", b"kind", path_field(path))[0].decode()

    def stat(self, path: bytes) -> Stat:
        """The kind; the length of a file or of a link's target, 0 for a directory; and the inode number."""
        kind, size, number = self.ask(b"stat", b"stat", path_field(path))
        return Stat(kind.decode(), int(size), int(number))

    def data(self, *fields: bytes) -> bytes:
        return bytes.fromhex(b"".join(self.ask(b"data", *fields)[1:]).decode())

    def read(self, path: bytes, offset: int, length: int) -> bytes:
        """At most `length` bytes from the offset on, in requests of at most LONGEST_DATA bytes."""
        content = bytearray()
        while True:
            wanted = min(length - len(content), LONGEST_DATA)
            piece = self.data(b"read", path_field(path), number_field(offset + len(content)), number_field(wanted))
            content += piece
            if len(content) == length or len(piece) < wanted:
                return bytes(content)

    def readlink(self, path: bytes) -> bytes:
        return self.data(b"readlink", path_field(path))

    def list(self, path: bytes, after: bytes | None = None, limit: int = MOST_ENTRIES) -> Page:
        """A page of a directory, in byte order."""
        last = b"-" if after is None else name_text(checked_name(after))
        fields = self.ask(b"entries", b"list", path_field(path), last, number_field(limit))
        rows = [(unquote_to_bytes(name), kind.decode()) for kind, name in zip(fields[1:-1:2], fields[2:-1:2])]
        return Page(rows, fields[-1] == b"more")

    def entries(self, path: bytes) -> Iterator[tuple[bytes, str]]:
        """All rows of a directory, a page after another."""
        after: bytes | None = None
        more = True
        while more:
            rows, more = self.list(path, after)
            yield from rows
            after = rows[-1][0] if rows else None

    def write(self, path: bytes, offset: int, data: bytes) -> int:
        """Writes at the offset, in requests of at most LONGEST_DATA bytes; those before one that is refused stay."""
        written = 0
        while True:
            piece = data[written : written + LONGEST_DATA]
            fields = path_field(path), number_field(offset + written), data_text(piece)
            written += int(self.ask(b"count", b"write", *fields)[0])
            if written >= len(data):
                return written

    def change(self, *fields: bytes) -> None:
        self.ask(b"ok", *fields)

    def truncate(self, path: bytes, size: int) -> None:
        self.change(b"truncate", path_field(path), number_field(size))

    def create(self, path: bytes) -> None:
        self.change(b"create", path_field(path))

    def setexec(self, path: bytes, executable: bool) -> None:
        self.change(b"setexec", path_field(path), b"1" if executable else b"0")

    def mkdir(self, path: bytes) -> None:
        self.change(b"mkdir", path_field(path))

    def symlink(self, path: bytes, target: bytes) -> None:
        """Makes a link at the path, whose target is 1 to LONGEST_TARGET bytes."""
        field = path_field(path)
        if len(target) > LONGEST_TARGET:
            raise refusal(errno.ENAMETOOLONG)
        self.change(b"symlink", field, data_text(target))

    def unlink(self, path: bytes) -> None:
        self.change(b"unlink", path_field(path))

    def rmdir(self, path: bytes) -> None:
        self.change(b"rmdir", path_field(path))

    def rename(self, source: bytes, target: bytes) -> None:
        self.change(b"rename", path_field(source), path_field(target))


# ---- sessions


class Record:
    """What a session sends and hears, in a folder: NAME.sent and NAME.got, as `tee` would write them, and NAME.times.

    The times have a line for each request: when it was sent and when its reply was heard, in nanoseconds of the clock
    that all programs of a machine share. A request that was never answered has the first alone.
    """

    def __init__(self, folder: str | os.PathLike[str], name: str) -> None:
        os.makedirs(folder, exist_ok=True)
        paths = (os.path.join(folder, f"{name}.{end}") for end in ("sent", "got", "times"))
        self.files = [open(path, "wb", buffering=0) for path in paths]
        self.lines, self.replies, self.times = self.files

    def sent(self, line: bytes) -> None:
        self.times.write(b"%d" % time.monotonic_ns())
        self.lines.write(line)

    def heard(self, reply: bytes) -> None:
        heard = time.monotonic_ns()
        self.replies.write(reply)
        self.times.write(b" %d\n" % heard)

    def close(self) -> None:
        for file in self.files:
            file.close()


class Session(Requests):
    """One session, for one user at a time."""

    def __init__(self, reader: BinaryIO, writer: BinaryIO, end: Callable[[], int | None],
                 child: subprocess.Popen[bytes] | None = None) -> None:
        self.reader = reader
        self.writer = writer
        self.end = end
        # What answers, if it is one of ours.
        self.child = child
        self.usable = True
        self.kept: Record | None = None

    def record(self, folder: str | os.PathLike[str], name: str) -> None:
        """Keeps what is sent and heard from now on in files NAME of the folder."""
        self.kept = Record(folder, name)

    def __enter__(self) -> Self:
        return self

    def __exit__(self, *_: object) -> None:
        self.close()

    def ask(self, head: bytes, *fields: bytes) -> Fields:
        reply = self.exchange(b" ".join(fields) + b"\n")
        if refused := REFUSED.fullmatch(reply):
            raise refusal(int(refused[1]))
        word, *rest = reply.split(b" ")
        if word == b"fault":
            raise Fault([part.decode(errors="replace") for part in rest])
        if word != head:
            self.usable = False
            raise SessionEnded(f"{reply!r:.60} was told, which is no reply to {fields[0].decode()}")
        return rest

    def exchange(self, line: bytes) -> bytes:
        """Sends a line, and gives its reply. Whatever stops it in between, an interrupt too, ends the session."""
        if not self.usable:
            raise SessionEnded("the session had ended before")
        self.usable = False
        try:
            if self.kept:
                self.kept.sent(line)
            self.writer.write(line)
            self.writer.flush()
            reply = self.reader.readline()
        except OSError as problem:
            raise SessionEnded(f"the session ended: {problem.strerror or problem}") from None
        if not reply.endswith(b"\n"):
            raise SessionEnded("the session ended before its reply")
        if self.kept:
            self.kept.heard(reply)
        self.usable = True
        return reply[:-1]

    def close(self) -> int | None:
        """Ends the session; the status of a child that served it."""
        self.usable = False
        for stream in (self.writer, self.reader):
            try:
                stream.close()
            except OSError:
                pass
        if self.kept:
            self.kept.close()
        return self.end()


def connect(address: Address) -> Session:
    """A session with the `mountd serve` that listens at this port, or at the socket of this path."""
    connection = connected(address)
    reader, writer = connection.makefile("rb", BUFFER), connection.makefile("wb")
    return Session(cast(BinaryIO, reader), cast(BinaryIO, writer), connection.close)


def start(words: Sequence[str], **more: Any) -> Session:
    """A session with a child, as `mountd stdio`; `more` goes to `subprocess.Popen`. `close` waits for its end."""
    child = subprocess.Popen(words, stdin=subprocess.PIPE, stdout=subprocess.PIPE, **more)
    assert child.stdout is not None and child.stdin is not None
    return Session(cast(BinaryIO, child.stdout), cast(BinaryIO, child.stdin), child.wait, child)
