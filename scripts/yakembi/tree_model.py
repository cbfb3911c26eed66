"""A whole tree as a dictionary from paths to nodes, and what each request answers on it and makes of it.

This is the table of operations a second time, written from a description in words (docs/OPERATIONS.md has one) and not
from the repository's own definition, so that the two can be compared. A path is a tuple of names; a node is a tuple:

    ("file", executable, content)    ("link", content)    ("dir", listed)

A content is bytes, or None if it is lost. `reply` gives the text of the reply, or None if there is none, since
the request looks into a lost content or a directory whose entries are not known, or no inode number is left.
"""

import re
from collections.abc import Mapping, Sequence
from typing import Any

from yakembi.client import name_text

Path = tuple[bytes, ...]
Node = tuple[Any, ...]
Nodes = dict[Path, Node]
# The fields of a request after its word.
Values = tuple[Any, ...]
Names = list[bytes]
Paths = list[Path]

LONGEST_FILE = 1 << 30
LONGEST_DATA = 65_536
LONGEST_TARGET = 4_095
MOST_ENTRIES = 1_000

ROOT_NUMBER, FIRST_NUMBER, END_OF_NUMBERS = 1, 2, 1 << 63

ERROR_NUMBERS = {"ENOENT": 2, "EBUSY": 16, "EEXIST": 17, "ENOTDIR": 20, "EISDIR": 21, "EINVAL": 22, "EFBIG": 27,
                 "ENAMETOOLONG": 36, "ENOTEMPTY": 39}


class Refused(Exception):
    """An error number's name."""


class Unknown(Exception):
    """The request looks into what isn't known."""


def need(condition: object, error: str) -> None:
    if not condition:
        raise Refused(error)


def known(content: bytes | None) -> bytes:
    if content is None:
        raise Unknown
    return content


class Numbers:
    """The inode numbers that were given, by path, and those that are spent, with a way back."""

    def __init__(self, given: Mapping[Path, int] | None = None, following: int = FIRST_NUMBER) -> None:
        """Those that stored files show, by path, and the one that is given next: all below it are spent."""
        self.given: dict[Path, int] = {(): ROOT_NUMBER, **(given or {})}
        self.following = following
        self.spent: set[int] = set()
        # What undoes each step, the last one last: a path's number or none, and one that is spent since, or none.
        self.was: list[tuple[Path, int | None, int | None]] = []

    def is_left(self, number: int) -> bool:
        return max(FIRST_NUMBER, self.following) <= number < END_OF_NUMBERS and number not in self.spent

    def may_tell(self, path: Path, number: int) -> bool:
        """Whether a `stat` of what stands there may give it: the one it has, or any that is left."""
        return self.given[path] == number if path in self.given else self.is_left(number)

    def pick(self, path: Path) -> int:
        """The number that it has, or the least one that is left."""
        if path in self.given:
            return self.given[path]
        number = max(FIRST_NUMBER, self.following)
        while number in self.spent:
            number += 1
        if number >= END_OF_NUMBERS:
            raise Unknown
        return number

    def tell(self, path: Path, number: int) -> None:
        """What stands there has it from now on."""
        if path not in self.given:
            self.put(path, number, number)
            self.spent.add(number)

    def put(self, path: Path, number: int | None, spent: int | None = None) -> None:
        self.was.append((path, self.given.get(path), spent))
        self.set(path, number)

    def set(self, path: Path, number: int | None) -> None:
        if number is None:
            self.given.pop(path, None)
        else:
            self.given[path] = number

    def drop(self, path: Path) -> None:
        """What stood there is gone. Its number stays spent."""
        if path in self.given:
            self.put(path, None)

    def rename(self, source: Path, target: Path) -> None:
        """What stood at and below the one path stands at and below the other, in place of what stood there."""
        if source == target:
            return
        moved = {path: number for path, number in self.given.items() if path[: len(source)] == source}
        for path in [*moved, *(path for path in self.given if path[: len(target)] == target)]:
            self.drop(path)
        for path, number in moved.items():
            self.put(target + path[len(source) :], number)

    def follow(self, word: str, fields: Values, reply: bytes) -> bool:
        """Whether a reply has no number, or one that it may have. They continue by the request and that reply."""
        told = number_told(reply)
        if told is not None and not self.may_tell(fields[0], told):
            return False
        if told is not None:
            self.tell(fields[0], told)
        elif reply == b"ok" and word in ("unlink", "rmdir"):
            self.drop(fields[0])
        elif reply == b"ok" and word == "rename":
            self.rename(*fields)
        return True

    def back_to(self, count: int) -> None:
        """As they were after this many steps."""
        while len(self.was) > count:
            path, number, spent = self.was.pop()
            self.set(path, number)
            if spent is not None:
                self.spent.discard(spent)


class WholeTree:
    def __init__(self, nodes: dict[Path, Node] | None = None, numbers: Numbers | None = None) -> None:
        self.nodes: dict[Path, Node] = nodes if nodes is not None else {(): ("dir", True)}
        self.numbers = numbers if numbers is not None else Numbers()

    # ---- looking

    def walk(self, path: Path) -> None:
        """Goes over the proper fronts of the path, the shortest first."""
        for count in range(len(path)):
            node = self.node(path[:count])
            need(node[0] == "dir", "ENOTDIR")
            if not node[1]:
                raise Unknown

    def present(self, path: Path) -> Node:
        self.walk(path)
        return self.node(path)

    def node(self, path: Path) -> Node:
        need(path in self.nodes, "ENOENT")
        return self.nodes[path]

    def absent(self, path: Path) -> None:
        """For a request that makes something where nothing is."""
        need(path != (), "EEXIST")
        self.walk(path)
        need(path not in self.nodes, "EEXIST")

    def children(self, path: Path) -> Names:
        """The names in a directory whose entries are known, in byte order."""
        if not self.nodes[path][1]:
            raise Unknown
        return sorted(other[-1] for other in self.nodes if other != () and other[:-1] == path)

    def at_and_below(self, path: Path) -> Paths:
        """The paths of the node there and of all that stand below it."""
        return [other for other in self.nodes if other[: len(path)] == path]

    def kind_word(self, node: Node) -> bytes:
        return b"exec" if node[0] == "file" and node[1] else str(node[0]).encode()

    def file_at(self, path: Path) -> Node:
        node = self.present(path)
        need(node[0] != "link", "EINVAL")
        need(node[0] != "dir", "EISDIR")
        return node

    # ---- requests that change nothing

    def kind(self, path: Path) -> bytes:
        return b"kind " + self.kind_word(self.present(path))

    def stat(self, path: Path, told: int | None = None) -> bytes:
        """It gives the number that was given, if that may be so; else the one given, or the least that is left."""
        node = self.present(path)
        size = 0 if node[0] == "dir" else len(known(node[-1]))
        may = told is not None and self.numbers.may_tell(path, told)
        number = told if told is not None and may else self.numbers.pick(path)
        self.numbers.tell(path, number)
        return b"stat %s %d %d" % (self.kind_word(node), size, number)

    def read(self, path: Path, offset: int, length: int) -> bytes:
        need(length <= LONGEST_DATA, "EINVAL")
        node = self.file_at(path)
        return data_reply(known(node[2])[offset : offset + length] if length else b"")

    def readlink(self, path: Path) -> bytes:
        node = self.present(path)
        need(node[0] == "link", "EINVAL")
        return data_reply(known(node[1]))

    def list(self, path: Path, after: bytes | None, limit: int) -> bytes:
        need(1 <= limit <= MOST_ENTRIES, "EINVAL")
        need(self.present(path)[0] == "dir", "ENOTDIR")
        names = [name for name in self.children(path) if after is None or name > after]
        rows = [(self.kind_word(self.nodes[path + (name,)]), name) for name in names[:limit]]
        return entries_reply(rows, len(names) > limit)

    # ---- requests that change one node

    def write(self, path: Path, offset: int, data: bytes) -> bytes:
        return self.puts(LONGEST_DATA, path, offset, data)

    def patch(self, path: Path, offset: int, data: bytes) -> bytes:
        return self.puts(LONGEST_FILE, path, offset, data)

    def puts(self, most: int, path: Path, offset: int, data: bytes) -> bytes:
        """At most this many bytes, put into a file."""
        need(len(data) <= most, "EINVAL")
        _, executable, old = self.file_at(path)
        if not data:
            return b"count 0"
        end = offset + len(data)
        need(end <= LONGEST_FILE, "EFBIG")
        old = known(old)
        new = bytearray(max(len(old), end))
        new[: len(old)] = old
        new[offset:end] = data
        self.nodes[path] = ("file", executable, bytes(new))
        return b"count %d" % len(data)

    def truncate(self, path: Path, size: int) -> bytes:
        _, executable, old = self.file_at(path)
        need(size <= LONGEST_FILE, "EFBIG")
        new = known(old)[:size].ljust(size, b"\0") if size else b""
        self.nodes[path] = ("file", executable, new)
        return b"ok"

    def setexec(self, path: Path, executable: bool) -> bytes:
        content = self.file_at(path)[2]
        self.nodes[path] = ("file", executable, content)
        return b"ok"

    # ---- requests that make something

    def make(self, path: Path, node: Node) -> bytes:
        self.absent(path)
        self.nodes[path] = node
        return b"ok"

    def create(self, path: Path) -> bytes:
        return self.make(path, ("file", False, b""))

    def mkdir(self, path: Path) -> bytes:
        return self.make(path, ("dir", True))

    def symlink(self, path: Path, target: bytes) -> bytes:
        need(target != b"", "ENOENT")
        need(len(target) <= LONGEST_TARGET, "ENAMETOOLONG")
        return self.make(path, ("link", target))

    # ---- requests that take something away

    def take_away(self, path: Path) -> bytes:
        del self.nodes[path]
        self.numbers.drop(path)
        return b"ok"

    def unlink(self, path: Path) -> bytes:
        need(path != (), "EISDIR")
        need(self.present(path)[0] != "dir", "EISDIR")
        return self.take_away(path)

    def rmdir(self, path: Path) -> bytes:
        need(path != (), "EBUSY")
        need(self.present(path)[0] == "dir", "ENOTDIR")
        need(not self.children(path), "ENOTEMPTY")
        return self.take_away(path)

    def rename(self, source: Path, target: Path) -> bytes:
        need(source != () and target != (), "EBUSY")
        node = self.present(source)
        if source == target:
            return b"ok"
        if node[0] == "dir":
            need(target[: len(source)] != source, "EINVAL")
        need(source[: len(target)] != target, "ENOTEMPTY")
        self.walk(target)
        there = self.nodes.get(target)
        if there is not None:
            if node[0] == "dir":
                need(there[0] == "dir", "ENOTDIR")
                need(not self.children(target), "ENOTEMPTY")
            else:
                need(there[0] != "dir", "EISDIR")
            del self.nodes[target]
        for path in self.at_and_below(source):
            node = self.nodes[path]
            del self.nodes[path]
            self.nodes[target + path[len(source) :]] = node
        self.numbers.rename(source, target)
        return b"ok"

    def reply(self, word: str, *fields: Any) -> bytes | None:
        """The text of the reply to a request; None if there is none."""
        try:
            found: bytes = getattr(self, word)(*fields)
            return found
        except Refused as refusal:
            name = refusal.args[0]
            return b"err %d %s" % (ERROR_NUMBERS[name], name.encode())
        except Unknown:
            return None

    def judged(self, told: bytes | None, word: str, *fields: Any) -> bytes | None:
        """The same if the reply was told: a `stat` gives the number of that one, if it may."""
        return self.reply(word, *fields, *([number_told(told)] if word == "stat" and told is not None else []))


def without_number(reply: bytes) -> bytes:
    """The text of a reply, the inode number of a `stat`'s left out."""
    return reply if number_told(reply) is None else reply.rpartition(b" ")[0]


def number_told(reply: bytes) -> int | None:
    """The inode number in a `stat`'s reply; None in any other."""
    found = re.fullmatch(rb"stat (?:file|exec|link|dir) [0-9]+ ([0-9]+)", reply)
    return int(found[1]) if found else None


def data_reply(data: bytes) -> bytes:
    return b"data %d" % len(data) + (b" " + data.hex().encode() if data else b"")


def entries_reply(rows: Sequence[tuple[bytes, bytes]], more: bool) -> bytes:
    body = b"".join(b" %s %s" % (kind, name_text(name)) for kind, name in rows)
    return b"entries %d%s %s" % (len(rows), body, b"more" if more else b"end")
