"""A folder that `mountd fuse` shows, by messages of the kernel that a socket hands over one by one: no FUSE is wanted.

Each answer is compared with that of `message_model`, byte for byte.
"""

import contextlib
import os
import pathlib
import random
import select
import socket
import struct
import subprocess
import time
from collections.abc import Sequence
from typing import Any, Self

from checks import PATIENCE, check, doing, git, status_of
from message_model import (ANSWER, FORGOTTEN, HEADER, HIDDEN, LAYOUTS, OPENED, ROOT, SHAPES, WORDS, WRITTEN,
                           FolderModel, answered, framed, hidden_name, read_message, spelled, wants_answer)
from overlays import CLOSED, Commit, Place, check_closed, make_commit
from programs import MOUNTD, SAMPLE_OBJECTS, SAMPLE_ROOT
from yakembi.overlay_files import Shown
from yakembi.tree_model import LONGEST_DATA, LONGEST_FILE, Nodes, Numbers, Path, Refused, Unknown, WholeTree

OWNER = os.getuid(), os.getgid()
# Where random files may end, so that none takes a second to store, and where they may not.
LONGEST_CONTENT = 1 << 18
DEAR = range(LONGEST_CONTENT + 1, LONGEST_FILE + 1)
LONGEST_WRITE = 150_000
# The words by which the sample is shown.
SHOW_SAMPLE = [MOUNTD, "fuse", "--root", SAMPLE_ROOT, "--objects", SAMPLE_OBJECTS]
# A message, and what a kernel offers at the start.
STARTS = spelled("init", 1, 0, 7, 31, 131_072, 0xFFFFFFFF)


class Ended(Exception):
    """No answer came."""


class Kernel:
    """A run of `mountd fuse`, whose messages this process sends and whose answers it takes."""

    def __init__(self, words: Sequence[object]) -> None:
        self.ours, theirs = socket.socketpair(socket.AF_UNIX, socket.SOCK_SEQPACKET)
        self.ours.settimeout(PATIENCE)
        with theirs:
            self.process = subprocess.Popen([str(word) for word in words], stdin=theirs.fileno(),
                                            stdout=theirs.fileno(), stderr=subprocess.PIPE)

    def __enter__(self) -> Self:
        return self

    def __exit__(self, *_: object) -> None:
        self.ours.close()
        self.process.kill()
        self.process.communicate()

    def send(self, message: bytes) -> None:
        self.ours.send(message)

    def receive(self) -> bytes:
        try:
            answer = self.ours.recv(1 << 20)
        except TimeoutError:
            raise Ended(f"no answer in {PATIENCE} s: {doing(self.process.pid)}") from None
        if not answer:
            raise Ended(f"mountd ended with status {status_of(self.process)}")
        return answer

    def asked(self, message: bytes) -> bytes:
        self.send(message)
        return self.receive()

    def end(self) -> tuple[int | str, bytes]:
        """What an unmount makes of it: no more messages come. The status, and what it said."""
        with contextlib.suppress(OSError):
            self.ours.shutdown(socket.SHUT_WR)
        status = status_of(self.process)
        assert self.process.stderr is not None
        return status, self.process.stderr.read()


def showing(place: Place, *more: object) -> Kernel:
    return Kernel([MOUNTD, "fuse", "--root", place.root, "--objects", place.objects, "--overlay", place.overlay, *more])


def show_sample() -> Kernel:
    return Kernel(SHOW_SAMPLE)


# ---- messages that are none, a row each


def cut_short(length: int) -> bytes:
    """A look-up whose header has its length, of which only this many bytes come."""
    return spelled("lookup", 9, ROOT, b"test.txt")[:length]


def with_length(message: bytes, length: int) -> bytes:
    return struct.pack("<I", length) + message[4:]


LOOKUP = spelled("lookup", 9, ROOT, b"test.txt")
WRITE = spelled("write", 9, ROOT, 0, 0, 3, 0, 0, 0, 0, b"abc")
BATCH = spelled("batch_forget", 9, 0, 1, 0, FORGOTTEN.pack(2, 1))

# Bytes that are no message at all, which nobody can be answered.
UNFRAMED = [
    ("one byte", b"\x28"),
    ("a length alone", b"\x28\0\0\0"),
    ("a header without its last byte", spelled("statfs", 9, ROOT)[:-1]),
    ("a look-up without its last byte", cut_short(len(LOOKUP) - 1)),
    ("a look-up's header alone", cut_short(HEADER.size)),
    ("a byte behind its end", LOOKUP + b"\0"),
    ("two messages at once", LOOKUP + LOOKUP),
    ("100,000 bytes behind its end", LOOKUP + bytes(100_000)),
    ("a length of 0", with_length(LOOKUP, 0)),
    ("a length one too short", with_length(LOOKUP, len(LOOKUP) - 1)),
    ("a length one too long", with_length(LOOKUP, len(LOOKUP) + 1)),
    ("the longest length", with_length(LOOKUP, (1 << 32) - 1)),
    ("zeros", bytes(HEADER.size)),
]

# Operations that aren't known, by their numbers in the kernel's header.
UNKNOWN = [("none", 0), ("none, 7", 7), ("setxattr", 21), ("getxattr", 22), ("listxattr", 23), ("removexattr", 24),
           ("getlk", 31), ("setlk", 32), ("bmap", 37), ("ioctl", 39), ("poll", 40), ("notify_reply", 41),
           ("lseek", 46), ("copy_file_range", 47), ("none, 999", 999), ("CUSE's start", 4_096),
           ("the last number", (1 << 32) - 1)]

MALFORMED = [
    ("a name without an end", framed(1, 9, ROOT, b"test.txt")),
    ("no name", framed(1, 9, ROOT, b"")),
    ("two names for one", framed(1, 9, ROOT, b"test.txt\0other\0")),
    ("a byte behind a name", framed(1, 9, ROOT, b"test.txt\0x")),
    ("one name for two", framed(SHAPES["rename"].number, 9, ROOT, struct.pack("<Q", ROOT) + b"a\0")),
    ("a link without a target", framed(SHAPES["symlink"].number, 9, ROOT, b"a\0")),
    ("fewer bytes to write than it says", with_length(WRITE[:-1], len(WRITE) - 1)),
    ("more bytes to write than it says", with_length(WRITE + b"d", len(WRITE) + 1)),
    ("a batch that lacks a row", with_length(BATCH[:-16], len(BATCH) - 16)),
    ("a batch whose rows count to 2^32", BATCH[: HEADER.size] + struct.pack("<I", 1 << 28) + BATCH[HEADER.size + 4 :]),
    *[(f"{word} without the last byte of its struct", framed(SHAPES[word].number, 9, ROOT, bytes(layout.size - 1)))
      for word, layout in LAYOUTS.items() if layout.size],
]

BAD_NAMES = [("no byte", b"", "EINVAL"), ("the folder itself", b".", "EINVAL"), ("the folder above", b"..", "EINVAL"),
             ("a slash", b"a/b", "EINVAL"), ("256 bytes", b"n" * 256, "ENAMETOOLONG")]

# Requests that go to a node.
OF_NODES: list[tuple[str, tuple[Any, ...]]] = [
    ("getattr", (0, 0, 0)), ("setattr", (0,) * 16), ("readlink", ()), ("open", (0, 0)), ("opendir", (0, 0)),
    ("read", (0, 0, 9, 0, 0, 0, 0)), ("fallocate", (0, 0, 9, 0, 0)),
]
# .. to a name in it.
OF_NAMES: list[tuple[str, tuple[Any, ...]]] = [
    ("lookup", (b"a",)), ("mknod", (0o100644, 0, 0, 0, b"a")), ("mkdir", (0o755, 0, b"a")), ("unlink", (b"a",)),
    ("rmdir", (b"a",)), ("symlink", (b"a", b"b")), ("create", (0, 0o644, 0, 0, b"a")), ("rename", (ROOT, b"a", b"b")),
    ("rename2", (ROOT, 1, 0, b"a", b"b")),
]
READDIR = ("readdir", (0, 0, 99, 0, 0, 0, 0))
LAST_NUMBER = (1 << 64) - 1
NODES = [0, 2, 99, LAST_NUMBER]
# What is written waits, and isn't looked for until it is stored: so these are refused once something was written.
AFTER_A_WRITE: list[tuple[str, tuple[Any, ...]]] = [
    ("flush", (0, 0, 0, 0)), ("fsync", (0, 0, 0)), ("getattr", (0, 0, 0)), ("write", (0, 9, 1, 0, 0, 0, 0, b"x")),
    ("fallocate", (0, 0, 9, 0, 0)),
]


def check_rows(folder: pathlib.Path) -> None:
    """What is no message is passed over, each other one is answered by its rule, and all continues as before."""
    with show_sample() as kernel:
        kernel.asked(STARTS)
        found = kernel.asked(LOOKUP)
        check("rows: what is there", (len(found), found[:ANSWER.size]), (144, answered(9, None, bytes(128))[:16]))
        forget = spelled("forget", 8, number_in(found), 1)
        for name, message in UNFRAMED:
            kernel.send(message)
            check(f"no message: {name}", kernel.asked(LOOKUP), found)
            kernel.send(forget)
        for name, number in UNKNOWN:
            check(f"unknown operation: {name}", kernel.asked(framed(number, 9, ROOT, b"x\0")), answered(9, "ENOSYS"))
        for name, message in MALFORMED:
            check(f"malformed: {name}", kernel.asked(message), answered(9, "EINVAL"))
        for name, text, error in BAD_NAMES:
            check(f"a name: {name}", kernel.asked(spelled("lookup", 9, ROOT, text)), answered(9, error))
            check(f"a name to make: {name}", kernel.asked(spelled("mkdir", 9, ROOT, 0, 0, text)), answered(9, error))
        for node in NODES:
            unknown = node + (node == number_in(found))
            for word, fields in OF_NODES:
                check(f"unknown node {node}: {word}", kernel.asked(spelled(word, 9, unknown, *fields)),
                      answered(9, "ESTALE"))
            check_absent(f"unknown node {node}", kernel, unknown)
            check(f"unknown node {node}: write", kernel.asked(writing(unknown, b"x")),
                  answered(5, None, WRITTEN.pack(1, 0)))
            for word, fields in AFTER_A_WRITE:
                check(f"unknown node {node}: {word} after a write",
                      kernel.asked(spelled(word, 9, unknown, *fields)), answered(9, "ESTALE"))
        check("rows: as before", kernel.asked(LOOKUP), found)
        # What was written to nodes that aren't known is lost.
        check("rows: the end", kernel.end(), (4, b"mountd: store ESTALE\n"))


def check_absent(name: str, kernel: Kernel, node: int) -> None:
    """Of a node that lies nowhere no name is there, nothing is moved to it, and its listing is at its end."""
    for word, fields in OF_NAMES:
        check(f"{name}: {word}", kernel.asked(spelled(word, 9, node, *fields)), answered(9, "ENOENT"))
    for word, fields in (("rename", (node, b"test.txt", b"b")), ("rename2", (node, 1, 0, b"test.txt", b"b"))):
        check(f"{name}: {word} to it", kernel.asked(spelled(word, 9, ROOT, *fields)), answered(9, "ENOENT"))
    check(f"{name}: its listing", kernel.asked(spelled(READDIR[0], 9, node, *READDIR[1])), answered(9, None))


def check_removed(folder: pathlib.Path) -> None:
    """A directory that was removed while it is open: no name is there, and it lists nothing; what is asked of itself is
    refused. One that stands beside it stays as it was."""
    with show_sample() as kernel:
        kernel.asked(STARTS)
        node, other = [number_in(kernel.asked(spelled("mkdir", 9, ROOT, 0o755, 0, name)))
                       for name in (b"gone", b"other")]
        opened = OPENED.unpack(kernel.asked(spelled("opendir", 9, node, 0, 0))[ANSWER.size:])
        check("removed: by its name", kernel.asked(spelled("rmdir", 9, ROOT, b"gone")), answered(9, None))
        check_absent("removed", kernel, node)
        again = spelled("readdir", 9, node, opened[0], 0, 4_096, 0, 0, 0, 0)
        check("removed: the listing of one that is open", kernel.asked(again), answered(9, None))
        for word, fields in OF_NODES[:2]:
            check(f"removed: {word}", kernel.asked(spelled(word, 9, node, *fields)), answered(9, "ESTALE"))
        into = spelled("rename", 9, ROOT, node, b"other", b"b")
        check("removed: another is moved to it", kernel.asked(into), answered(9, "ENOENT"))
        found = kernel.asked(spelled("lookup", 9, ROOT, b"other"))
        check("removed: the other is there", number_in(found), other)
        check("removed: the end", kernel.end(), (0, b""))


def number_in(entry: bytes) -> int:
    """The node that an answer tells of."""
    return int.from_bytes(entry[ANSWER.size : ANSWER.size + 8], "little")


def check_ends(folder: pathlib.Path) -> None:
    """Each way in which no more messages come, and what is done if none can be received or sent."""
    with show_sample() as kernel:
        check("ends: before the first message", kernel.end(), (0, b""))
    with show_sample() as kernel:
        kernel.asked(STARTS)
        kernel.send(b"")
        check("ends: an empty message", (status_of(kernel.process), kernel.end()), (0, (0, b"")))
    words = [str(word) for word in SHOW_SAMPLE]
    unreadable = os.open(folder, os.O_RDONLY)
    done = subprocess.run(words, stdin=unreadable, capture_output=True, timeout=PATIENCE)
    os.close(unreadable)
    check("ends: messages that can't be received", (done.returncode, done.stderr), (4, b"mountd: session Receive\n"))
    ours, theirs = socket.socketpair(socket.AF_UNIX, socket.SOCK_SEQPACKET)
    with ours, theirs, open("/dev/full", "wb") as full:
        process = subprocess.Popen(words, stdin=theirs.fileno(), stdout=full, stderr=subprocess.PIPE)
        theirs.close()
        for message in (STARTS, LOOKUP, LOOKUP):
            ours.send(message)
        ours.shutdown(socket.SHUT_WR)
        check("ends: answers that nobody takes", (status_of(process), process.communicate()[1]), (0, b""))


# ---- random messages


NAMES = [b"a", b"b", b"c", b"d", b"e", b"file", b"dir", b"link", b"lost", b"large", b"run", b"\xff", b"n" * 255,
         b"new\nline"]
BAD = [b"", b".", b"..", b"a/b", b"m" * 256, HIDDEN, hidden_name(7)]
MOST_NODES = 60
LOOKING = ["lookup", "lookup", "lookup", "getattr", "readlink", "read", "read", "readdir", "readdir", "statfs", "open",
           "open", "opendir", "access", "readdirplus", "link"]
CHANGING = ["setattr", "setattr", "fallocate", "write", "write", "write", "mknod", "mkdir", "symlink", "create",
            "create"]
REMOVING = ["unlink", "rmdir", "rename", "rename", "rename", "rename2"]
CLOSING = ["forget", "batch_forget", "release", "release", "releasedir", "flush", "fsync", "fsyncdir", "interrupt"]
RARE = ["init", "destroy"]


# A node, and the members of a struct with what stands after it.
Asked = tuple[int, tuple[Any, ...]]


class RandomMessages:
    """Messages of all operations, most of them about what is there, and bytes that one of them was changed to."""

    def __init__(self, generator: random.Random, model: FolderModel) -> None:
        self.random = generator
        self.model = model
        self.unique = 1

    def next(self) -> bytes:
        """One that no answer takes long for."""
        while True:
            message = self.one()
            if self.random.random() < 0.2:
                message = self.changed(message)
            if message and not is_dear(message):
                return message

    def writing(self) -> bytes:
        """One that writes."""
        while True:
            node, fields = self.write("write")
            message = spelled("write", 3, node, *fields)
            if not is_dear(message):
                return message

    def storing(self) -> bytes:
        """One upon whose answer what was written is stored."""
        word = self.random.choice(["flush", "fsync", "release"])
        return spelled(word, 3, self.waiting(), *self.plain(word)[1])

    def one(self) -> bytes:
        chance = self.random.random()
        crowded = len(self.model.tree.nodes) >= MOST_NODES
        words = (LOOKING if chance < 0.4 else REMOVING if chance < (0.7 if crowded else 0.5) else
                 CHANGING if chance < 0.8 else CLOSING if chance < 0.997 else RARE)
        word = self.random.choice(words)
        self.unique += 2
        asked: Asked = getattr(self, word, self.plain)(word)
        node, fields = asked
        return spelled(word, self.unique, node, *fields)

    # ---- what is named

    def node(self) -> int:
        """One that is known, and mostly one that stands somewhere; at times one that isn't known."""
        chance = self.random.random()
        nodes: list[int] = ([*range(9), LAST_NUMBER] if chance < 0.03 else [ROOT, *self.model.places] if chance < 0.1
                            else [ROOT, *self.model.nodes.values()])
        return self.random.choice(nodes)

    def node_at(self, kind: str) -> int:
        """Mostly one of this kind."""
        for _ in range(6):
            node = self.node()
            with contextlib.suppress(Refused):
                if self.model.tree.node(self.model.path(node))[0] == kind:
                    return node
        return self.node()

    def directory(self) -> int:
        return self.node_at("dir") if self.random.random() < 0.8 else ROOT

    def file(self) -> int:
        return self.node_at("file")

    def name(self) -> bytes:
        return self.random.choice(BAD if self.random.random() < 0.03 else NAMES)

    def named(self, node: int, kinds: Sequence[str] = ("file", "link", "dir")) -> bytes:
        """A name in the directory, mostly one that is there and of one of these kinds."""
        names: list[bytes] = []
        if self.random.random() < 0.8:
            # What is no directory lists nothing.
            with contextlib.suppress(Refused, Unknown):
                path = self.model.path(node)
                names = [name for name in self.model.tree.children(path)
                         if self.model.tree.nodes[path + (name,)][0] in kinds]
        return self.random.choice(names) if names else self.name()

    def offset(self) -> int:
        return self.random.choice([0, 1, self.random.randrange(900), 4_095, LONGEST_FILE, (1 << 64) - LONGEST_DATA - 2])

    def size(self) -> int:
        return self.random.choice([0, 1, self.random.randrange(900), 4_096, LONGEST_DATA, LONGEST_DATA + 1])

    def data(self) -> bytes:
        """As many as this socket takes at once, if they are many: a kernel's have up to 1 MiB."""
        rare = self.random.random() < 0.01
        size = self.random.choice([self.size(), LONGEST_WRITE]) if rare else self.random.choice([0, 1, 3, 60, 700])
        return self.random.randbytes(size)

    def mode(self) -> int:
        kind = self.random.choice([0o100000, 0o100000, 0o100000, 0, 0o40000, 0o10000, 0o120000])
        return kind | self.random.choice([0o644, 0o755, 0o100, 0])

    # ---- the members of structs, and what stands after them

    def plain(self, word: str) -> Asked:
        """Members that nobody looks at."""
        count = len(LAYOUTS[word].unpack(bytes(LAYOUTS[word].size)))
        return self.node(), (*(self.random.choice([0, 1, 7]) for _ in range(count)),
                             *(self.name() for _ in range(SHAPES[word].names)))

    def lookup(self, _: str) -> Asked:
        node = self.directory()
        return node, (self.named(node),)

    def unlink(self, _: str) -> Asked:
        node = self.directory()
        return node, (self.named(node, ("file", "link")),)

    def rmdir(self, _: str) -> Asked:
        node = self.directory()
        return node, (self.named(node, ("dir",)),)

    def getattr(self, _: str) -> Asked:
        return self.node(), (0, 0, 0)

    def readlink(self, _: str) -> Asked:
        return self.node_at("link"), ()

    def open(self, _: str) -> Asked:
        return self.file(), (self.random.choice([0, 1, 2]), 0)

    def opendir(self, _: str) -> Asked:
        return self.directory(), (0, 0)

    def setattr(self, _: str) -> Asked:
        valid = self.random.choice([1, 8, 9, 0, 32, 256, 2, 4, 6, 0xFFFF])
        size = self.random.choice([0, 1, self.random.randrange(900), 70_000, LONGEST_FILE + 1, LAST_NUMBER])
        times = [self.random.randrange(1 << 32) for _ in range(3)]
        parts = [self.random.randrange(10**9) for _ in range(3)]
        owner = [self.random.choice([mine, mine, mine, 7]) for mine in OWNER]
        node = self.file() if self.random.random() < 0.8 else self.node()
        return node, (valid, 0, 0, size, 0, *times, *parts, self.mode(), 0, *owner, 0)

    def mknod(self, _: str) -> Asked:
        node = self.directory()
        return node, (self.mode(), 0, 0o22, 0, self.named(node) if self.random.random() < 0.2 else self.name())

    def mkdir(self, _: str) -> Asked:
        return self.directory(), (0o755, 0o22, self.name())

    def symlink(self, _: str) -> Asked:
        target = self.random.choice([b"a", b"no/where", b"", b"t" * 4_095, b"t" * 4_096])
        return self.directory(), (self.name(), target)

    def create(self, _: str) -> Asked:
        node = self.directory()
        flags = self.random.choice([0, 0o200, 2, 0o1000])
        return node, (flags, self.mode(), 0o22, 0, self.named(node) if self.random.random() < 0.4 else self.name())

    def rename(self, _: str) -> Asked:
        node, directory = self.directory(), self.directory()
        return node, (directory, self.named(node), self.named(directory))

    def rename2(self, word: str) -> Asked:
        node, (directory, *names) = self.rename(word)
        return node, (directory, self.random.choice([0, 0, 1, 1, 2, 4, 3]), 0, *names)

    def read(self, _: str) -> Asked:
        """Of those of a file for which something waits half begin in it, or shortly before or after it."""
        node = self.waiting() if self.random.random() < 0.3 else self.file()
        offset, held = self.offset(), self.model.waits.get(node)
        if held and self.random.random() < 0.5:
            offset = max(0, self.random.randint(held.start - 50, held.end() + 50))
        return node, (0, offset, self.size(), 0, 0, 0, 0)

    def write(self, _: str) -> Asked:
        """Of those to a file for which something waits half begin in it or continue after it."""
        node, data = self.waiting() if self.random.random() < 0.3 else self.file(), self.data()
        offset, held = self.offset(), self.model.waits.get(node)
        if held and self.random.random() < 0.5:
            offset = self.random.choice([held.end(), held.end(), self.random.randint(held.start, held.end())])
        return node, (0, offset, len(data), 0, 0, 0, 0, data)

    def fallocate(self, _: str) -> Asked:
        node = self.file() if self.random.random() < 0.9 else self.node()
        ends = [0, 1, self.random.randrange(900), 70_000, LONGEST_FILE, LAST_NUMBER]
        return node, (0, self.random.choice([0, self.offset()]), self.random.choice(ends),
                      self.random.choice([0, 0, 0, 1, 3, 16]), 0)

    def waiting(self) -> int:
        """A node for which something waits, if there is one."""
        return self.random.choice(list(self.model.waits) or [self.file()])

    def flush(self, word: str) -> Asked:
        node, fields = self.plain(word)
        return self.waiting() if self.random.random() < 0.5 else node, fields

    fsync = flush

    def handle(self) -> int:
        known = list(self.model.pages) or [0]
        return self.random.choice(known) if self.random.random() < 0.95 else self.random.randrange(99)

    def readdir(self, _: str) -> Asked:
        """From the beginning, after a dot or both, from where the last listing has been, or from where none was."""
        handle = self.handle()
        page = self.model.pages.get(handle)
        told = range(page.offset, page.offset + len(page.names) + 2) if page else range(2)
        offsets = [0, self.random.randrange(1, 3), self.random.choice(told), self.random.choice(told), 1 << 62]
        offset = self.random.choice(offsets)
        return self.directory(), (handle, offset, self.random.choice([0, 30, 60, 120, 4_096, 65_536]), 0, 0, 0, 0)

    readdirplus = readdir

    def releasedir(self, _: str) -> Asked:
        return self.node(), (self.handle(), 0, 0, 0)

    def release(self, _: str) -> Asked:
        opens = list(self.model.opens) or [ROOT]
        return self.random.choice(opens) if self.random.random() < 0.9 else self.node(), (0, 0, 0, 0)

    def forget(self, _: str) -> Asked:
        node = self.node()
        return node, (self.random.choice([0, 1, 1, self.model.counts.get(node, 0), LAST_NUMBER]),)

    def batch_forget(self, _: str) -> Asked:
        rows = [FORGOTTEN.pack(self.node(), self.random.choice([0, 1, 2])) for _ in range(self.random.randrange(4))]
        return 0, (len(rows), 0, b"".join(rows))

    def init(self, _: str) -> Asked:
        return 0, (self.random.choice([7, 7, 6, 8]), self.random.choice([31, 12, 11, 45]), 4_096,
                   self.random.getrandbits(32))

    # ---- bytes that are changed

    def changed(self, message: bytes) -> bytes:
        ways = [self.flipped, self.cut, self.grown, self.of_another_operation, self.replaced, self.of_a_length]
        way = self.random.choice(ways)
        return way(bytearray(message))

    def flipped(self, message: bytearray) -> bytes:
        for _ in range(self.random.choice([1, 1, 2, 9])):
            message[self.random.randrange(len(message))] ^= 1 << self.random.randrange(8)
        return bytes(message)

    def cut(self, message: bytearray) -> bytes:
        """Its length is told as it is by now, or as it was."""
        cut = bytes(message[: self.random.randrange(1, len(message) + 1)])
        return self.of_a_length(bytearray(cut)) if self.random.random() < 0.7 else cut

    def grown(self, message: bytearray) -> bytes:
        return self.of_a_length(message + self.random.choice([bytes(self.random.randrange(30)), b"a\0", b"\0\0"]))

    def of_another_operation(self, message: bytearray) -> bytes:
        number = self.random.choice([*WORDS, self.random.randrange(60)])
        return bytes(message[:4] + struct.pack("<I", number) + message[8:])

    def replaced(self, message: bytearray) -> bytes:
        start = self.random.randrange(len(message))
        end = min(len(message), start + self.random.choice([1, 4, 8]))
        message[start:end] = self.random.choice([bytes(8), b"\xff" * 8, self.random.randbytes(8)])[: end - start]
        return bytes(message)

    def of_a_length(self, message: bytearray) -> bytes:
        wrong = self.random.random() < 0.05
        return with_length(bytes(message), self.random.getrandbits(32) if wrong else len(message))


def is_dear(data: bytes) -> bool:
    """Whether a message may make a file of this many bytes that each store of it takes long."""
    message = read_message(data)
    if message is None or message.fields is None:
        return False
    if message.word in ("write", "fallocate"):
        return message.fields[1] + message.fields[2] in DEAR
    return message.word == "setattr" and message.fields[3] in DEAR


class Differs(Exception):
    """An answer isn't that of the model, or there is one too many or too few."""


class Judged:
    """A folder that is shown, each of whose answers is the model's."""

    def __init__(self, kernel: Kernel, model: FolderModel) -> None:
        self.kernel = kernel
        self.model = model

    def ask(self, message: bytes) -> bytes:
        """The answer; none, if there is to be none, which the next one tells."""
        self.kernel.send(message)
        told = self.kernel.receive() if wants_answer(message) else b""
        wanted = self.model.answer(message, told) or b""
        if told != wanted:
            raise Differs(f"{read_message(message)!r:.300}: got {told!r:.500}, wanted {wanted!r:.500}")
        return told

    def look(self) -> None:
        """Asks for all that there is, so that it is compared: each directory's rows, each content, and what is open."""
        for node in list(self.model.opens):
            self.ask(reading(node, 0, LONGEST_DATA))
        self.look_into(ROOT)

    def look_into(self, node: int) -> None:
        handle = number_in(self.ask(spelled("opendir", 5, node, 0, 0)))
        self.ask(spelled("readdir", 5, node, handle, 0, 1 << 20, 0, 0, 0, 0))
        names = list(self.model.pages[handle].names) if handle in self.model.pages else []
        self.ask(spelled("releasedir", 5, node, handle, 0, 0, 0))
        for name in names:
            self.look_at(node, name)

    def look_at(self, directory: int, name: bytes) -> None:
        told = self.ask(spelled("lookup", 5, directory, name))
        node = number_in(told)
        if len(told) == ANSWER.size:
            return
        kind = self.model.tree.nodes[self.model.path(node)][0]
        if kind == "dir":
            self.look_into(node)
        elif kind == "link":
            self.ask(spelled("readlink", 5, node))
        else:
            for start in range(0, LONGEST_CONTENT + 1, LONGEST_DATA):
                if len(self.ask(reading(node, start, LONGEST_DATA))) == ANSWER.size:
                    break
        self.ask(spelled("forget", 5, node, 1))


# How many messages a life has.
LIFE = 2_500
LOST_BYTES = b"lost\n"
FILES = {"file": b"first\n", "dir/a": b"1", "dir/d/e": b"2\n", "lost": LOST_BYTES, "dir/lost": LOST_BYTES,
         "large": b"large\n" * 12_000, "run": b"#!/bin/sh\n"}


def make_place(folder: pathlib.Path) -> tuple[Place, Commit, FolderModel]:
    """A commit, of which the object of two files is lost, the directory of an overlay, and what is to be shown."""
    commit, objects = make_commit(folder, FILES)
    lost = git(folder / "repository", "rev-parse", "HEAD:lost")
    (objects / lost[:2] / lost[2:]).unlink()
    model = FolderModel(WholeTree(lost_again(commit.nodes)), OWNER)
    return Place(commit.root, objects, folder / "overlay"), commit, model


def found(nodes: Nodes) -> Nodes:
    """The same if what is lost is the commit's."""
    return {path: (*node[:-1], LOST_BYTES) if node[-1] is None else node for path, node in nodes.items()}


def lost_again(nodes: Nodes) -> Nodes:
    return {path: (*node[:-1], None) if node[-1] == LOST_BYTES else node for path, node in nodes.items()}


def check_end(name: str, kernel: Kernel, place: Place, commit: Commit, model: FolderModel, kills: int = 0) -> None:
    """It ends well, or says what couldn't be stored, and the files of the overlay show the tree, with what waited in
    it."""
    ended, lost = kernel.end(), model.end()
    told = lost if lost in ("EIO", "ENOMEM", "ENAMETOOLONG", "ESTALE") else "Refused"
    check(f"{name}: the end", ended, (4, f"mountd: store {told}\n".encode()) if lost else CLOSED)
    check_closed(name, place, commit, WholeTree(found(model.tree.nodes)), kills)


def check_random_messages(folder: pathlib.Path, seed: int, count: int) -> None:
    """Random messages, some of them changed at random, in lives over one overlay, of which each second one is killed.
    Each is answered as the model answers it, or passed over if it is no message, and the overlay shows its tree."""
    place, commit, model = make_place(folder)
    messages = RandomMessages(random.Random(seed), model)
    lives = -(-count // LIFE)
    words: list[str] = []
    for life in range(lives):
        name = f"messages, life {life} of seed {seed}"
        is_killed = life % 2 == 0 and life + 1 < lives
        with showing(place, *words) as kernel:
            model.start()
            ends = ["look", "flush"] if is_killed else ["look"]
            check(name, tried(Judged(kernel, model), messages, min(LIFE, count - LIFE * life), ends), None)
            if not is_killed:
                check_end(name, kernel, place, commit, model, life)
        words = ["--rescan"] if is_killed else []
        if is_killed:
            # Numbers of what wasn't changed may be given anew.
            model.tree.numbers = Numbers()


def tried(judged: Judged, messages: RandomMessages, count: int, ends: Sequence[str]) -> str | None:
    """What goes wrong in a life of this many messages, if anything. In the end all is looked at, or flushed, or more
    is written."""
    number = 0
    try:
        judged.ask(STARTS)
        for number in range(count):
            judged.ask(messages.next())
        for _ in range(6) if "write" in ends else []:
            judged.ask(messages.writing())
        if "look" in ends:
            judged.look()
        for node in list(judged.model.waits) if "flush" in ends else []:
            judged.ask(flushing(node))
    except (Differs, Ended, OSError) as problem:
        return f"message {number}: {problem}"
    return None


# ---- kills


class Recorded(WholeTree):
    """Keeps what it shows after each request that changes it."""

    def __init__(self, nodes: Nodes) -> None:
        super().__init__(nodes)
        self.past: list[Nodes] = []

    def kept(self, reply: bytes) -> bytes:
        self.past.append(dict(self.nodes))
        return reply

    def patch(self, *fields: Any) -> bytes:
        return self.kept(super().patch(*fields))

    def truncate(self, *fields: Any) -> bytes:
        return self.kept(super().truncate(*fields))

    def setexec(self, *fields: Any) -> bytes:
        return self.kept(super().setexec(*fields))

    def make(self, *fields: Any) -> bytes:
        return self.kept(super().make(*fields))

    def take_away(self, *fields: Any) -> bytes:
        return self.kept(super().take_away(*fields))

    def rename(self, source: Path, target: Path) -> bytes:
        """From one directory to another it may stand in neither, between the two stores."""
        without = {path: node for path, node in self.nodes.items() if path[: len(source)] != source}
        reply = super().rename(source, target)
        if source[:-1] != target[:-1]:
            self.past.append(without)
        return self.kept(reply)


def check_kills(folder: pathlib.Path, seed: int, count: int) -> None:
    """It is killed while it answers one of random messages. What was answered is there, but of what was written only
    what was flushed, synchronised or closed since, each if that was answered; of a message that wasn't answered
    none of its changes is, or the first ones are. In every second life much waits, and mostly a message that has it
    stored is killed."""
    place, commit, model = make_place(folder)
    model.tree = tree = Recorded(model.tree.nodes)
    generator = random.Random(seed)
    messages = RandomMessages(generator, model)
    for number in range(count):
        name = f"kill {number} of seed {seed}"
        with showing(place) as kernel:
            model.start()
            waits = number % 2 == 0
            ends = ["write" if waits else "look"]
            check(name, tried(Judged(kernel, model), messages, generator.randrange(40), ends), None)
            message = messages.storing() if waits and generator.random() < 0.7 else messages.next()
            tree.past = []
            before = dict(tree.nodes)
            told = killed_at(kernel, message, 10 ** generator.uniform(-5, -2.5))
            model.answer(message, told)
        check(f"{name}: a rescan", place.run([b"kind /"], "--rescan"), (*CLOSED[:1], b"kind dir\n", b""))
        shown = Shown(commit, place.files()).nodes
        may_be = [dict(tree.nodes)] if told else [before, *tree.past]
        check(f"{name}: {read_message(message)!r:.200}, answered {told[:16]!r}", shown in map(found, may_be), True)
        tree.nodes, tree.numbers = lost_again(shown), Numbers()


def killed_at(kernel: Kernel, message: bytes, seconds: float) -> bytes:
    """The answer, if it came before mountd was killed, this many seconds after the message was sent."""
    kernel.send(message)
    time.sleep(seconds)
    kernel.process.kill()
    kernel.process.wait()
    try:
        return kernel.ours.recv(1 << 20)
    except ConnectionError:
        return b""


# ---- faults


def check_faults(folder: pathlib.Path) -> None:
    """A lost object is EIO for who asks for it alone, and so is what can't be stored. All else is answered."""
    place, commit, model = make_place(folder)
    with showing(place) as kernel:
        judged = Judged(kernel, model)
        judged.ask(STARTS)
        lost = spelled("lookup", 5, ROOT, b"lost")
        check("faults: a lost file", judged.ask(lost), answered(5, "EIO"))
        file = number_in(judged.ask(spelled("lookup", 5, ROOT, b"file")))
        check("faults: the listing has it", b"lost" in listed(judged), True)
        aside = folder / "aside"
        place.overlay.rename(aside)
        changes = [spelled("mkdir", 5, ROOT, 0, 0, b"made"), spelled("unlink", 5, ROOT, b"run"),
                   spelled("rename", 5, ROOT, ROOT, b"run", b"ran")]
        check_refused(kernel, changes)
        judged.look()
        judged.ask(writing(file, b"new"))
        check_refused(kernel, [flushing(file), syncing(file), flushing(file)])
        for message in (spelled("getattr", 5, file, 0, 0, 0), spelled("lookup", 5, ROOT, b"file"), reading(file, 0, 9)):
            check("faults: what waits is seen", len(judged.ask(message)) > ANSWER.size, True)
        check_refused(kernel, [flushing(file)])
        aside.rename(place.overlay)
        check("faults: what waits is stored once that goes well", judged.ask(flushing(file)), answered(5, None))
        for message in (writing(file, b"newer"), spelled("mkdir", 5, ROOT, 0, 0, b"made")):
            check("faults: a store that goes well", len(judged.ask(message)) > ANSWER.size, True)
        judged.look()
        check("faults: still lost", judged.ask(lost), answered(5, "EIO"))
        check_end("faults", kernel, place, commit, model)


def check_refused(kernel: Kernel, messages: Sequence[bytes]) -> None:
    for message in messages:
        word = read_message(message)
        check(f"faults: a store that fails: {word and word.word}", kernel.asked(message), answered(5, "EIO"))


def writing(node: int, data: bytes) -> bytes:
    return spelled("write", 5, node, 0, 0, len(data), 0, 0, 0, 0, data)


def reading(node: int, offset: int, size: int) -> bytes:
    return spelled("read", 5, node, 0, offset, size, 0, 0, 0, 0)


def flushing(node: int) -> bytes:
    return spelled("flush", 5, node, 0, 0, 0, 0)


def syncing(node: int) -> bytes:
    return spelled("fsync", 5, node, 0, 0, 0)


def check_unstored(folder: pathlib.Path) -> None:
    """What can't be stored once no more messages come is told, beside a fault of the session too. The rest is stored,
    and the overlay closed."""
    for name, ended, lines in [("alone", Kernel.end, b""), ("after a fault", lost, b"mountd: session Receive\n")]:
        (folder / name).mkdir()
        place, commit, model = make_place(folder / name)
        # The start, two look-ups and the store of one file are all that is taken.
        with showing(place, "--history", 4) as kernel:
            judged = Judged(kernel, model)
            judged.ask(STARTS)
            stored, unstored = [number_in(judged.ask(spelled("lookup", 5, ROOT, file))) for file in (b"file", b"run")]
            judged.ask(writing(stored, b"new"))
            check(f"unstored, {name}: the write", len(kernel.asked(writing(unstored, b"lost"))) > ANSWER.size, True)
            check(f"unstored, {name}: the end", ended(kernel), (4, lines + b"mountd: store EIO\n"))
        model.end()
        check_closed(f"unstored, {name}", place, commit, WholeTree(found(model.tree.nodes)))


def lost(kernel: Kernel) -> tuple[int | str, bytes]:
    """What the loss of its socket makes of it, in which there is an answer that nobody took: a message that can't be
    received."""
    kernel.send(spelled("statfs", 5, ROOT))
    select.select([kernel.ours], [], [], PATIENCE)
    kernel.ours.close()
    return kernel.end()


def listed(judged: Judged) -> bytes:
    """The rows of the root."""
    handle = number_in(judged.ask(spelled("opendir", 5, ROOT, 0, 0)))
    return judged.ask(spelled("readdir", 5, ROOT, handle, 0, 1 << 16, 0, 0, 0, 0))
