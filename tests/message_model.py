"""What a mounted folder answers the kernel's messages, a second time, over the second table of operations.

The structs are those of Linux's include/uapi/linux/fuse.h (protocol 7.31). `FolderModel.answer` gives the bytes that
answer a message, and follows what it makes of the tree, of the nodes that the kernel was told of, and of what is open.
What `mountd` may choose (a node's number, an inode number, a handle, times) is taken from the answer that was told, if
it may be told. What was written and isn't stored yet is kept beside the tree, which is the mount's, and is seen with
it.
"""

import contextlib
import errno
import itertools
import os
import struct
from typing import Any, NamedTuple

from yakembi.tree_model import LONGEST_FILE, MOST_ENTRIES, Path, Refused, Unknown, WholeTree, known, need

Place = tuple[int, bytes]

LONGEST_NAME, LONGEST_PATH, MOST_NAMES = 255, 4_095, 256
# This many bytes of all files together wait to be stored.
MOST_WAITING = 128 << 20
# .. once one file's bytes wait with others between.
MOST_BRIDGED = 64 << 20
MOST_READ = 65_536
ROOT = 1
HIDDEN = b"\xff" * 4
# For how many seconds the kernel may keep what it is told, but for the attributes of a file for which bytes wait.
KEEP = 60
UNTOLD = 4_294_967_295
# A directory itself, and the one above it, come before its entries.
DOTS = [b".", b".."]

HEADER = struct.Struct("<IIQQIIII")
ANSWER = struct.Struct("<IIQ")
ENTRY = struct.Struct("<QQQQII")
ATTRIBUTES = struct.Struct("<QQQQQQIIIIIIIIII")
VALID = struct.Struct("<QII")
OPENED = struct.Struct("<QII")
WRITTEN = struct.Struct("<II")
SPACE = struct.Struct("<QQQQQIII28x")
STARTED = struct.Struct("<IIIIHHIIH34x")
ROW = struct.Struct("<QQII")
FORGOTTEN = struct.Struct("<QQ")

MODES = {b"file": 0o100644, b"exec": 0o100755, b"link": 0o120777, b"dir": 0o40755}


class Shape(NamedTuple):
    """An operation's number, the members of its struct, and how many names stand after it."""

    number: int
    members: str = ""
    names: int = 0

    def layout(self) -> struct.Struct:
        return struct.Struct("<" + self.members)


READS = "QQIIQII"
SHAPES = {
    "lookup": Shape(1, names=1), "forget": Shape(2, "Q"), "getattr": Shape(3, "IIQ"),
    "setattr": Shape(4, "IIQQQQQQIIIIIIII"), "readlink": Shape(5), "symlink": Shape(6, names=2),
    "mknod": Shape(8, "IIII", 1), "mkdir": Shape(9, "II", 1), "unlink": Shape(10, names=1), "rmdir": Shape(11, names=1),
    "rename": Shape(12, "Q", 2), "link": Shape(13, "Q", 1), "open": Shape(14, "II"), "read": Shape(15, READS),
    "write": Shape(16, READS), "statfs": Shape(17), "release": Shape(18, "QIIQ"), "fsync": Shape(20, "QII"),
    "flush": Shape(25, "QIIQ"), "init": Shape(26, "IIII"), "opendir": Shape(27, "II"), "readdir": Shape(28, READS),
    "releasedir": Shape(29, "QIIQ"), "fsyncdir": Shape(30, "QII"), "access": Shape(34, "II"),
    "create": Shape(35, "IIII", 1), "interrupt": Shape(36, "Q"), "destroy": Shape(38), "batch_forget": Shape(42, "II"),
    "fallocate": Shape(43, "QQQII"), "readdirplus": Shape(44, READS), "rename2": Shape(45, "QII", 2),
}
LAYOUTS = {word: shape.layout() for word, shape in SHAPES.items()}
WORDS = {shape.number: word for word, shape in SHAPES.items()}
# What is never answered.
SILENT = ("forget", "batch_forget", "interrupt")
# What names a place of its node, and what names a second one.
NAMING = ("lookup", "symlink", "mknod", "mkdir", "unlink", "rmdir", "rename", "rename2", "create")


# ---- messages


class Message(NamedTuple):
    """A message whose header says its length: what it asks for, unless nobody knows its operation, and the members of
    its struct with what stands after it, unless it is malformed."""

    unique: int
    node: int
    word: str | None
    fields: tuple[Any, ...] | None

    def wants_answer(self) -> bool:
        return self.fields is None or self.word not in SILENT


def spelled(word: str, unique: int, node: int, *fields: Any) -> bytes:
    """The bytes of a message. What stands after the struct's members are names, or bytes."""
    layout = LAYOUTS[word]
    count = len(layout.unpack(bytes(layout.size)))
    behind = b"".join(name + b"\0" * (SHAPES[word].names > 0) for name in fields[count:])
    return framed(SHAPES[word].number, unique, node, layout.pack(*fields[:count]) + behind)


def framed(number: int, unique: int, node: int, body: bytes) -> bytes:
    return HEADER.pack(HEADER.size + len(body), number, unique, node, 0, 0, 1, 0) + body


def read_message(data: bytes) -> Message | None:
    """None, if the bytes are no message at all."""
    if len(data) < HEADER.size or struct.unpack_from("<I", data)[0] != len(data):
        return None
    _, number, unique, node, *_ = HEADER.unpack_from(data)
    word = WORDS.get(number)
    return Message(unique, node, word, fields_of(word, data[HEADER.size:]) if word else None)


def fields_of(word: str, body: bytes) -> tuple[Any, ...] | None:
    layout = LAYOUTS[word]
    if len(body) < layout.size:
        return None
    members, rest = layout.unpack_from(body), body[layout.size:]
    if SHAPES[word].names:
        *names, end = rest.split(b"\0")
        return (*members, *names) if len(names) == SHAPES[word].names and end == b"" else None
    if word in ("write", "batch_forget"):
        length = members[2] if word == "write" else FORGOTTEN.size * members[0]
        return (*members, rest) if len(rest) == length else None
    return members


def wants_answer(data: bytes) -> bool:
    message = read_message(data)
    return message is not None and message.wants_answer()


def answered(unique: int, error: str | None, body: bytes = b"") -> bytes:
    """The bytes of an answer: an error's name, or a body."""
    number = getattr(errno, error) if error else 0
    return ANSWER.pack(ANSWER.size + len(body), -number % (1 << 32), unique) + body


# ---- the folder


class Page(NamedTuple):
    """What an open directory listed last: after how many others, the dots too, after which name, which names, with
    the word of its kind, and whether others come after them."""

    offset: int
    after: bytes | None
    names: dict[bytes, bytes]
    has_more: bool

    def kept(self, offset: int) -> dict[bytes, bytes] | None:
        """Those from an offset on, of which nothing is asked; at its end none, if it had no more. None where it has to
        be listed on, and at its beginning always."""
        gone = offset - self.offset
        if offset <= len(DOTS) or not 0 <= gone <= len(self.names) or (gone == len(self.names) and self.has_more):
            return None
        return dict(itertools.islice(self.names.items(), gone, None))


class Extent(NamedTuple):
    """Bytes of a file that wait to be stored, from an offset on."""

    start: int
    data: bytes

    def end(self) -> int:
        return self.start + len(self.data)

    def joined(self, offset: int, data: bytes) -> "Extent":
        """With bytes that begin in it or where it ends."""
        at = offset - self.start
        return Extent(self.start, self.data[:at] + data + self.data[at + len(data):])

    def seen_length(self, size: int) -> int:
        """How long its file is seen, which has this many bytes without it."""
        return max(size, self.end()) if self.data and self.end() <= LONGEST_FILE else size

    def seen_part(self, offset: int, size: int, part: bytes) -> bytes:
        """What is seen of this many bytes of its file, which are these without it, with zeros in a gap."""
        at, data = max(0, self.start - offset), self.data[max(0, offset - self.start):]
        if not data:
            return part[:size]
        return (part[:at].ljust(min(at, size), b"\0") + data + part[at + len(data):])[:size]


class FolderModel:
    def __init__(self, tree: WholeTree, owner: tuple[int, int]) -> None:
        self.tree = tree
        self.owner = owner
        self.given = {ROOT}
        self.start()

    def start(self) -> None:
        """As a new session knows them: no node but the root, nothing open, and nothing that waits."""
        self.places: dict[int, Place | None] = {}
        self.nodes: dict[Place, int] = {}
        self.counts: dict[int, int] = {}
        self.opens: dict[int, int] = {}
        self.pages: dict[int, Page] = {}
        self.waits: dict[int, Extent] = {}
        self.given = {ROOT}

    def end(self) -> str | None:
        """What is made of a session's end: all that waits is stored, or dropped if that is refused. The first
        error."""
        errors = [error for node in sorted(self.waits) if (error := self.empty(node))]
        return errors[0] if errors else None

    def answer(self, data: bytes, told: bytes) -> bytes | None:
        """The answer to a message, if that one was told; None, if there is to be none."""
        message = read_message(data)
        if message is None:
            return None
        error, body = None, b""
        try:
            body = self.body(message, told[ANSWER.size:])
        except Refused as refusal:
            error = refusal.args[0]
        except Unknown:
            error = "EIO"
        return answered(message.unique, error, body) if message.wants_answer() else None

    def body(self, message: Message, told: bytes) -> bytes:
        need(message.word is not None, "ENOSYS")
        need(message.fields is not None, "EINVAL")
        assert message.word is not None and message.fields is not None
        self.told = told
        if any(map(is_veiled, named_by(message))):
            raise Refused("ENOENT" if message.word == "lookup" else "EPERM")
        found: bytes | None = getattr(self, message.word)(message.node, *message.fields)
        return found or b""

    # ---- what waits to be stored

    def may_wait(self, node: int, offset: int, data: bytes) -> bool:
        """Bytes wait if they begin in what waits for their node, or at its end, and if there is room for them."""
        held = self.waits.get(node, Extent(offset, b""))
        room = MOST_WAITING - sum(len(extent.data) for extent in self.waits.values())
        return held.start <= offset <= held.end() and offset + len(data) <= LONGEST_FILE and len(data) <= room

    def bridge(self, node: int, offset: int, data: bytes) -> bool:
        """Bytes that begin elsewhere wait with what the file has between, if that is read and there is room for it."""
        held = self.waits.get(node)
        if held is None or held.start <= offset <= held.end() or not held.data or not data:
            return False
        start, end = (offset, held.start) if offset < held.start else (held.end(), offset)
        room = MOST_BRIDGED - sum(len(extent.data) for extent in self.waits.values())
        if held.end() > LONGEST_FILE or offset + len(data) > LONGEST_FILE or end - start + len(data) > room:
            return False
        try:
            path = self.path(node)
            between = b"".join(data_in(self.tree.read(path, at, min(MOST_READ, end - at)))
                               for at in range(start, end, MOST_READ)).ljust(end - start, b"\0")
        except (Refused, Unknown):
            return False
        whole = Extent(offset, between + held.data) if offset < held.start else Extent(held.start, held.data + between)
        self.waits[node] = whole.joined(offset, data)
        return True

    def settle(self, node: int) -> None:
        """What waits for a node is stored. If that is refused, it waits still."""
        if node in self.waits:
            self.tree.patch(self.path(node), *self.waits[node])
            del self.waits[node]

    def empty(self, node: int) -> str | None:
        """.. if that is refused, it is dropped: then the error."""
        error = None
        try:
            self.settle(node)
        except Refused as refusal:
            error = refusal.args[0]
        except Unknown:
            error = "EIO"
        self.waits.pop(node, None)
        return error

    def seen(self, node: int) -> Extent:
        """What waits for a node, which whoever looks sees; it isn't stored for that."""
        return self.waits.get(node, Extent(0, b""))

    # ---- where nodes lie

    def path(self, node: int) -> Path:
        names: list[bytes] = []
        while node != ROOT:
            place = self.places.get(node)
            need(place is not None, "ESTALE")
            assert place is not None
            node = place[0]
            names.append(place[1])
        return as_path(tuple(reversed(names)))

    def child(self, node: int, name: bytes) -> Path:
        """The path of a name in a directory. In one that was removed there is none."""
        try:
            path = self.path(node)
        except Refused as refusal:
            raise Refused("ENOENT" if refusal.args[0] == "ESTALE" else refusal.args[0]) from None
        need(is_name(name), "EINVAL")
        need(len(name) <= LONGEST_NAME, "ENAMETOOLONG")
        return as_path(path + (name,))

    def leave(self, place: Place) -> None:
        """What stood there stands nowhere."""
        node = self.nodes.pop(place, None)
        if node is not None:
            self.places[node] = None

    def move(self, node: int, name: bytes, directory: int, new: bytes) -> None:
        source, target = self.child(node, name), self.child(directory, new)
        self.tree.rename(source, target)
        if (node, name) != (directory, new):
            self.leave((directory, new))
            moved = self.nodes.pop((node, name), None)
            if moved is not None:
                self.places[moved] = directory, new
                self.nodes[directory, new] = moved

    def held(self, place: Place) -> int | None:
        """The node that stands there and is open."""
        node = self.nodes.get(place)
        return node if node in self.opens else None

    def hide(self, held: int, directory: int, name: bytes) -> None:
        self.move(directory, name, ROOT, hidden_name(held))

    # ---- what is told of a node

    def number_told(self, at: int) -> int:
        return int.from_bytes(self.told[at : at + 8], "little")

    def attributes(self, path: Path, at: int, node: int | None) -> bytes:
        """A node's, if those were told from that byte on; of one that is told of first, if no number is named."""
        _, kind, length, inode = self.tree.stat(path, self.number_told(at)).split()
        size = self.seen(self.fresh() if node is None else node).seen_length(int(length))
        told = self.told[at : at + ATTRIBUTES.size].ljust(ATTRIBUTES.size, b"\0")
        times = ATTRIBUTES.unpack(told)[3:9]
        may_be = times[:2] == (times[0], times[0]) and times[3] == times[4] and max(times[3:]) < 10**9
        return ATTRIBUTES.pack(int(inode), size, -(-size // 512), *(times if may_be else [0] * 6), MODES[kind], 1,
                               *self.owner, 0, 65_536, 0)

    def kept_for(self, node: int) -> int:
        """For how many seconds a node's attributes may be kept: not at all while something waits for it."""
        return 0 if node in self.waits else KEEP

    def fresh(self) -> int:
        """The number of a node that is told of first."""
        told = self.number_told(0)
        return told if told > ROOT and told not in self.given else max(self.given) + 1

    def entry(self, place: Place) -> bytes:
        """What is told of what stands there, which is told of once more."""
        node = self.nodes.get(place)
        attributes = self.attributes(self.child(*place), ENTRY.size, node)
        if node is None:
            node = self.fresh()
            self.given.add(node)
            self.places[node], self.nodes[place], self.counts[node] = place, node, 0
        self.counts[node] += 1
        return ENTRY.pack(node, 0, KEEP, self.kept_for(node), 0, 0) + attributes

    # ---- messages about nodes

    def lookup(self, node: int, name: bytes) -> bytes:
        path = self.child(node, name)
        try:
            self.tree.present(path)
        except Refused as refusal:
            if refusal.args[0] != "ENOENT":
                raise
            return ENTRY.pack(0, 0, KEEP, 0, 0, 0) + bytes(ATTRIBUTES.size)
        return self.entry((node, name))

    def forget(self, node: int, times: int) -> None:
        if node not in self.counts:
            return
        self.counts[node] -= times
        if self.counts[node] <= 0:
            del self.counts[node]
            place = self.places.pop(node)
            if place is not None:
                del self.nodes[place]

    def batch_forget(self, node: int, count: int, _: int, batch: bytes) -> None:
        for row in FORGOTTEN.iter_unpack(batch):
            self.forget(*row)

    def interrupt(self, node: int, unique: int) -> None:
        """Nothing waits."""

    def getattr(self, node: int, *_: int) -> bytes:
        return VALID.pack(self.kept_for(node), 0, 0) + self.attributes(self.path(node), VALID.size, node)

    def setattr(self, node: int, valid: int, _: int, handle: int, size: int, *more: int) -> bytes:
        mode, user, group = more[7], more[9], more[10]
        self.settle(node)
        path = self.path(node)
        need(not valid & 2 or user == self.owner[0], "EPERM")
        need(not valid & 4 or group == self.owner[1], "EPERM")
        if valid & 8:
            self.tree.truncate(path, size)
        if valid & 1 and mode & 0o170000 == 0o100000:
            self.tree.setexec(path, bool(mode & 0o100))
        return self.getattr(node)

    def access(self, node: int, *_: int) -> bytes:
        raise Refused("ENOSYS")

    def statfs(self, node: int) -> bytes:
        return SPACE.pack(1 << 30, 1 << 29, 1 << 29, 1 << 30, 1 << 29, 4_096, 255, 4_096)

    # ---- messages about files and links

    def open(self, node: int, flags: int, *_: int) -> bytes:
        kind = self.tree.present(self.path(node))[0]
        need(kind != "link", "ELOOP")
        need(kind != "dir", "EISDIR")
        return self.opened(node, flags)

    def opened(self, node: int, flags: int) -> bytes:
        """A file that is opened for reading alone is closed without a FLUSH."""
        self.opens[node] = self.opens.get(node, 0) + 1
        return OPENED.pack(0, 34 if flags & os.O_ACCMODE == os.O_RDONLY else 2, 0)

    def read(self, node: int, handle: int, offset: int, size: int, *_: int) -> bytes:
        return self.seen(node).seen_part(offset, size, data_in(self.tree.read(self.path(node), offset, size)))

    def write(self, node: int, handle: int, offset: int, size: int, *more: Any) -> bytes:
        """It waits if it may, at the latest once what waited is stored. Nobody looks for the node until then."""
        data: bytes = more[-1]
        if not self.may_wait(node, offset, data):
            if self.bridge(node, offset, data):
                return WRITTEN.pack(size, 0)
            self.settle(node)
        if self.may_wait(node, offset, data):
            self.waits[node] = self.waits.get(node, Extent(offset, b"")).joined(offset, data)
        else:
            self.tree.patch(self.path(node), offset, data)
        return WRITTEN.pack(size, 0)

    def fallocate(self, node: int, handle: int, offset: int, length: int, mode: int, _: int) -> None:
        """A file that ends before is filled with zeros up to there."""
        self.settle(node)
        path = self.path(node)
        need(mode == 0, "ENOTSUP")
        need(offset + length <= LONGEST_FILE, "EFBIG")
        if int(self.tree.stat(path).split()[2]) < offset + length:
            self.tree.truncate(path, offset + length)

    def release(self, node: int, *_: int) -> None:
        count = self.opens.pop(node, 0)
        if count > 1:
            self.opens[node] = count - 1
        elif count == 1:
            self.empty(node)
            place = self.places.get(node)
            if place is not None and is_veiled(place):
                self.remove(place)

    def flush(self, node: int, *_: int) -> None:
        """All that was written of it is stored."""
        self.settle(node)

    fsync = fsyncdir = flush

    def destroy(self, node: int, *_: int) -> None:
        """All that was answered is stored as the session ends."""

    def readlink(self, node: int) -> bytes:
        return data_in(self.tree.readlink(self.path(node)))

    # ---- messages about directories

    def opendir(self, node: int, *_: int) -> bytes:
        need(self.tree.present(self.path(node))[0] == "dir", "ENOTDIR")
        told = self.number_told(0)
        handle = told if told not in self.pages else max(self.pages) + 1
        self.pages[handle] = Page(0, None, {}, True)
        return OPENED.pack(handle, 0, 0)

    def after(self, handle: int, offset: int) -> bytes | None:
        """The name after which an open directory is read on."""
        if offset <= len(DOTS):
            return None
        need(handle in self.pages, "EINVAL")
        page = self.pages[handle]
        if offset == page.offset:
            return page.after
        need(0 < offset - page.offset <= len(page.names), "EINVAL")
        return list(page.names)[offset - page.offset - 1]

    def readdir(self, node: int, handle: int, offset: int, size: int, *_: int) -> bytes:
        """What the last listing has, or a new one, which becomes the last, of up to this many names."""
        page = self.pages.get(handle)
        names = page.kept(offset) if page else None
        if names is None:
            after = self.after(handle, offset)
            try:
                path = self.path(node)
            except Refused as refusal:
                need(refusal.args[0] == "ESTALE", refusal.args[0])
                return b""
            need(self.tree.present(path)[0] == "dir", "ENOTDIR")
            behind = [name for name in self.tree.children(path) if after is None or name > after]
            names = {name: self.tree.kind_word(self.tree.nodes[path + (name,)]) for name in behind[:MOST_ENTRIES]}
            if page:
                self.pages[handle] = Page(max(offset, len(DOTS)), after, names, len(behind) > MOST_ENTRIES)
        body = b""
        for number, (name, kind) in enumerate([*dict.fromkeys(DOTS[offset:], b"dir").items(), *names.items()],
                                              offset + 1):
            row = row_of(number, name, kind)
            if not is_veiled((node, name)):
                if len(body) + len(row) > size:
                    break
                body += row
        return body

    def readdirplus(self, node: int, *_: int) -> bytes:
        raise Refused("ENOSYS")

    def releasedir(self, node: int, handle: int, *_: int) -> None:
        self.pages.pop(handle, None)

    # ---- messages that make something

    def made(self, place: Place, executable: bool = False) -> bytes:
        if executable:
            self.tree.setexec(self.child(*place), True)
        return self.entry(place)

    def mknod(self, node: int, mode: int, device: int, mask: int, _: int, name: bytes) -> bytes:
        path = self.child(node, name)
        need(mode & 0o170000 in (0, 0o100000), "EPERM")
        self.tree.create(path)
        return self.made((node, name), bool(mode & 0o100))

    def mkdir(self, node: int, mode: int, mask: int, name: bytes) -> bytes:
        self.tree.mkdir(self.child(node, name))
        return self.made((node, name))

    def symlink(self, node: int, name: bytes, target: bytes) -> bytes:
        self.tree.symlink(self.child(node, name), target)
        return self.made((node, name))

    def create(self, node: int, flags: int, mode: int, mask: int, _: int, name: bytes) -> bytes:
        path = self.child(node, name)
        try:
            self.tree.create(path)
        except Refused as refusal:
            if refusal.args[0] != "EEXIST" or flags & 0o200:
                raise
            return self.opened_there((node, name), flags)
        entry = self.made((node, name), bool(mode & 0o100))
        return entry + self.opened(self.nodes[node, name], flags)

    def opened_there(self, place: Place, flags: int) -> bytes:
        """A file that was there. Of a link its target is looked at first, since its length is asked for."""
        kind, *_, content = self.tree.present(self.child(*place))
        if kind == "link":
            known(content)
        need(kind != "link", "ELOOP")
        need(kind != "dir", "EISDIR")
        entry = self.entry(place)
        return entry + self.opened(self.nodes[place], flags)

    def link(self, node: int, *_: Any) -> bytes:
        raise Refused("EPERM")

    # ---- messages that take something away

    def remove(self, place: Place) -> None:
        with contextlib.suppress(Refused, Unknown):
            self.tree.unlink(self.child(*place))
            self.leave(place)

    def unlink(self, node: int, name: bytes) -> None:
        held = self.held((node, name))
        if held is not None:
            self.hide(held, node, name)
            return
        self.tree.unlink(self.child(node, name))
        self.leave((node, name))

    def rmdir(self, node: int, name: bytes) -> None:
        self.tree.rmdir(self.child(node, name))
        self.leave((node, name))

    def rename(self, node: int, directory: int, name: bytes, new: bytes) -> None:
        held = self.held((directory, new))
        if held is None:
            self.move(node, name, directory, new)
            return
        self.hide(held, directory, new)
        try:
            self.move(node, name, directory, new)
        except (Refused, Unknown):
            with contextlib.suppress(Refused, Unknown):
                self.move(ROOT, hidden_name(held), directory, new)
            raise

    def rename2(self, node: int, directory: int, flags: int, _: int, name: bytes, new: bytes) -> None:
        if flags == 0:
            self.rename(node, directory, name, new)
            return
        self.child(node, name)
        target = self.child(directory, new)
        need(flags == 1, "EINVAL")
        try:
            self.tree.present(target)
        except Refused as refusal:
            if refusal.args[0] != "ENOENT":
                raise
            self.move(node, name, directory, new)
            return
        raise Refused("EEXIST")

    # ---- the start

    def init(self, node: int, major: int, minor: int, ahead: int, flags: int) -> bytes:
        """What another run left at hidden names goes. Of what the kernel offers any may be taken."""
        for name in [name for name in self.tree.children(()) if name > HIDDEN][:MOST_ENTRIES]:
            self.remove((ROOT, name))
        need(major == 7 and minor >= 12, "EPROTO")
        told = STARTED.unpack(self.told.ljust(STARTED.size, b"\0")[: STARTED.size])
        taken = told[3] if told[3] & ~flags == 0 else 0
        return STARTED.pack(7, 31, ahead, taken, *told[4:6], max(told[6], 4_096), 1, told[8])


def named_by(message: Message) -> list[Place]:
    """The places that a message names."""
    if message.word not in NAMING or message.fields is None:
        return []
    count = SHAPES[message.word].names
    names = message.fields[-count:]
    if message.word == "symlink":
        names = names[:1]
    directories = [message.node, message.fields[0]]
    return list(zip(directories, names))


def is_veiled(place: Place) -> bool:
    """Whether nobody sees what stands there."""
    node, name = place
    return node == ROOT and name.startswith(HIDDEN) and is_name(name) and len(name) <= LONGEST_NAME


def hidden_name(node: int) -> bytes:
    return HIDDEN + b"%d" % node


def is_name(name: bytes) -> bool:
    return name not in (b"", b".", b"..") and b"/" not in name and b"\0" not in name


def as_path(path: Path) -> Path:
    need(len(path) <= MOST_NAMES and sum(len(name) + 1 for name in path) <= LONGEST_PATH, "ENAMETOOLONG")
    return path


def data_in(reply: bytes) -> bytes:
    """The bytes that the text of a reply spells."""
    return bytes.fromhex(reply.partition(b" ")[2].partition(b" ")[2].decode())


def row_of(offset: int, name: bytes, kind: bytes) -> bytes:
    row = ROW.pack(UNTOLD, offset, len(name), MODES[kind] >> 12) + name
    return row + bytes(-len(row) % 8)
