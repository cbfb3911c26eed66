"""The files of an overlay, read by their description alone, and the whole tree that they show over a commit.

A file is a header of 64 bytes and a body, as docs/FORMATS.md has it, in one of two versions. Nothing here was taken
from the repository's own reader, so that the two can be compared. A file that isn't as described raises `Damaged`.
"""

import hashlib
import pathlib
import re
import struct
from collections.abc import Iterator, Mapping
from typing import NamedTuple, Protocol

from yakembi.tree_model import Node, Nodes, Path

FILE = b"OVFL"
DIRECTORY = b"OVDR"
NUMBERS = b"OVDN"
# The version that is written, and the one before it, which is read.
VERSION, OLD_VERSION = 2, 1
VERSION_AT, LENGTH_AT, DIGEST_AT, UNREAD_AT = 4, 8, 16, 36
HEADER_BYTES = 64
FIRST_NUMBER = 2
END_OF_NUMBERS = 1 << 63

# The file of changes that aren't in the numbered files yet, and its records.
JOURNAL = "journal"
STORED, BODY, PART, PARTS, REMOVED, ELSEWHERE = b"OVJS", b"OVJD", b"OVJP", b"OVJM", b"OVJR", b"OVJE"
RECORD_BYTES, PART_BYTES, COUNT_BYTES, LENGTH_BYTES = 48, 28, 4, 8
BODY_MOST = 4 << 20
# How many bytes stand after the fields of each sort of record at most.
MOST_BEHIND = {STORED: 128 << 10, BODY: BODY_MOST, PART: PART_BYTES + BODY_MOST,
               PARTS: LENGTH_BYTES + 2 * PART_BYTES + BODY_MOST, REMOVED: 0, ELSEWHERE: 0}
# This many records give one body at most: all of it, and then what has changed.
RECORDS_MOST = 256
STATE_NUMBER = 0

# What the kind byte and the origin byte of an entry say.
PLAIN, EXECUTABLE, LINK, FOLDER = range(4)
OBJECT, OWN, EMPTY = range(3)


class Entry(NamedTuple):
    """An entry of a directory's file; the id is that of an object's, if it comes from one."""

    kind: int
    origin: int
    number: int
    object_id: str
    name: bytes


class CommitTree(Protocol):
    """A commit's tree, the contents of its objects, and what stands below each tree, by the paths from there."""

    @property
    def root(self) -> str: ...

    @property
    def contents(self) -> Mapping[str, bytes]: ...

    def below(self, tree_id: str) -> Nodes: ...


class Damaged(Exception):
    """What is wrong, and with which file."""


def sound(condition: object, *what: object) -> None:
    if not condition:
        raise Damaged(*what)


def head_bytes(identifier: bytes, length: int, digest: bytes) -> bytes:
    """The header of a file whose body has that length and that digest."""
    told = VERSION.to_bytes(4, "big") + length.to_bytes(8, "big") + digest
    return identifier + told + bytes(HEADER_BYTES - UNREAD_AT)


def file_bytes(identifier: bytes, body: bytes) -> bytes:
    """The file with that body as it is written."""
    return head_bytes(identifier, len(body), hashlib.sha1(body).digest()) + body


def old_file_bytes(identifier: bytes, body: bytes) -> bytes:
    """The same as version 1 has it, which says nothing of the body."""
    return identifier + OLD_VERSION.to_bytes(4, "big") + bytes(HEADER_BYTES - LENGTH_AT) + body


def entry_bytes(kind: int, origin: int, number: int, name: bytes, object_id: bytes = b"") -> bytes:
    """An entry of a directory's file."""
    return bytes([kind, origin]) + number.to_bytes(8, "big") + object_id + bytes([len(name)]) + name


def directory_body(*entries: bytes) -> bytes:
    return len(entries).to_bytes(4, "big") + b"".join(entries)


def numbers_body(tree_id: str, *entries: bytes) -> bytes:
    return bytes.fromhex(tree_id) + directory_body(*entries)


def state_body(root: str, following: int) -> bytes:
    return bytes.fromhex(root) + following.to_bytes(8, "big")


def state_bytes(root: str, following: int) -> bytes:
    """File 0, as a clean close leaves it."""
    return file_bytes(FILE, state_body(root, following))


def version_of(data: bytes) -> int:
    return int.from_bytes(data[VERSION_AT:LENGTH_AT], "big")


def body_of(identifier: bytes, data: bytes) -> bytes:
    body = data[HEADER_BYTES:]
    sound(len(data) >= HEADER_BYTES and data.startswith(identifier), "a header of", identifier, data[:HEADER_BYTES])
    sound(version_of(data) in (VERSION, OLD_VERSION), "a version", version_of(data))
    if version_of(data) == VERSION:
        sound(int.from_bytes(data[LENGTH_AT:DIGEST_AT], "big") == len(body), "the length of a body", len(body))
        sound(data[DIGEST_AT:UNREAD_AT] == hashlib.sha1(body).digest(), "the digest of a body", body)
    return body


class Fields:
    """The fields of a body, from the front."""

    def __init__(self, body: bytes) -> None:
        self.rest = body

    def take(self, count: int) -> bytes:
        taken, self.rest = self.rest[:count], self.rest[count:]
        sound(len(taken) == count, "a body that ends early")
        return taken

    def number(self, count: int) -> int:
        return int.from_bytes(self.take(count), "big")


def entry_in(fields: Fields) -> Entry:
    kind, origin, number = fields.number(1), fields.number(1), fields.number(8)
    object_id = fields.take(20).hex() if origin == OBJECT else ""
    name = fields.take(fields.number(1))
    sound(kind <= FOLDER and origin <= EMPTY, "kind and origin", kind, origin)
    sound(origin != EMPTY or kind == FOLDER, "nothing as the origin of what is no directory", name)
    sound(FIRST_NUMBER <= number < END_OF_NUMBERS, "a number", number)
    sound(name not in (b"", b".", b"..") and not set(name) & set(b"/\0"), "a name", name)
    return Entry(kind, origin, number, object_id, name)


def rows_of(fields: Fields) -> list[Entry]:
    """The entries that are the rest of a body."""
    entries = [entry_in(fields) for _ in range(fields.number(4))]
    sound(not fields.rest, "something behind the last entry")
    names = [entry.name for entry in entries]
    sound(names == sorted(set(names)), "the order of the names", names)
    return entries


def entries_of(data: bytes) -> list[Entry]:
    """The entries of a directory's file."""
    return rows_of(Fields(body_of(DIRECTORY, data)))


def has_numbers(data: bytes) -> bool:
    """Whether a file is one of a tree object's entries with their numbers."""
    return len(data) >= HEADER_BYTES and data.startswith(NUMBERS)


def numbers_of(data: bytes) -> tuple[str, list[Entry]]:
    """What such a file has: the object's id, and the entries."""
    fields = Fields(body_of(NUMBERS, data))
    tree_id = fields.take(20).hex()
    entries = rows_of(fields)
    sound(all(entry.origin != OWN for entry in entries), "an entry of its own", tree_id)
    return tree_id, entries


def state_of(data: bytes) -> tuple[str, int]:
    """What a clean close leaves in file 0: the commit's tree, and the number that is given next."""
    body = body_of(FILE, data)
    sound(len(body) == 28, "the length of a state", len(body))
    root, following = body[:20].hex(), int.from_bytes(body[20:], "big")
    sound(FIRST_NUMBER <= following <= END_OF_NUMBERS, "the next number", following)
    return root, following


# ---- a folder of files


def stored(folder: pathlib.Path) -> dict[int, bytes]:
    """The files of a directory by their numbers, with its journal over them; other names are passed over.

    A journal beside the state is from before that, and says nothing any more.
    """
    if not folder.exists():
        return {}
    files = {int(path.name): path.read_bytes() for path in folder.iterdir() if re.fullmatch("0|[1-9][0-9]*", path.name)}
    journal = folder / JOURNAL
    if STATE_NUMBER in files or not journal.exists():
        return files
    for number, body in changes(journal.read_bytes()).items():
        if body is None:
            files.pop(number, None)
        else:
            files[number] = body
    return files


def records(journal: bytes) -> Iterator[tuple[bytes, int, bytes]]:
    """The records of a journal up to the first that isn't whole: which each is, its number, what stands after its
    fields. Whether a part fits the body before it isn't looked at."""
    at = 0
    while len(journal) - at >= RECORD_BYTES:
        digest, sort = journal[at : at + 20], journal[at + 20 : at + 24]
        number, _, size = struct.unpack_from(">QQQ", journal, at + 24)
        end = at + RECORD_BYTES + size
        told = journal[at + 20 : end]
        if number == STATE_NUMBER or size > MOST_BEHIND.get(sort, -1) or end > len(journal):
            return
        if hashlib.sha1(told).digest() != digest:
            return
        yield sort, number, journal[at + RECORD_BYTES : end]
        at = end


class Told(NamedTuple):
    """The body of a directory as a journal gives it: where the last of this many records begins, and the body."""

    at: int
    records: int
    body: bytes


def with_part(body: bytes, part: bytes) -> bytes | None:
    """What a part makes of a body; None if it doesn't fit."""
    if len(part) < PART_BYTES or len(body) < COUNT_BYTES:
        return None
    _, front, back = struct.unpack_from(">QQQ", part)
    rows = body[COUNT_BYTES:]
    if front + back > len(rows):
        return None
    return part[24:28] + rows[:front] + part[PART_BYTES:] + rows[len(rows) - back :]


def parts_of(sort: bytes, data: bytes) -> list[bytes]:
    """The parts of a record, each of the body that the one before it makes."""
    if sort == PART:
        return [data]
    behind = data[LENGTH_BYTES:]
    length = int.from_bytes(data[:LENGTH_BYTES], "big")
    return [behind[:length], behind[length:]] if LENGTH_BYTES <= len(data) and length <= len(behind) else [b""]


def with_change(before: Told | None, at: int, sort: bytes, data: bytes) -> Told | None:
    """What a record makes of the body before it; None if it doesn't fit."""
    parts = parts_of(sort, data)
    if before is None or before.records >= RECORDS_MOST or parts[0][:8] != before.at.to_bytes(8, "big"):
        return None
    body: bytes | None = before.body
    for part in parts:
        if body is not None:
            body = with_part(body, part)
    return Told(at, before.records + 1, body) if body is not None and len(body) <= BODY_MOST else None


def changes(journal: bytes) -> dict[int, bytes | None]:
    """What a journal says of each number; None if its file was removed."""
    said: dict[int, bytes | None] = {}
    bodies: dict[int, Told] = {}
    at = 0
    for sort, number, data in records(journal):
        told = Told(at, 1, data) if sort == BODY else None
        if sort in (PART, PARTS) and not (told := with_change(bodies.get(number), at, sort, data)):
            break
        if told:
            bodies[number] = told
            said[number] = file_bytes(DIRECTORY, told.body)
        else:
            bodies.pop(number, None)
            said[number] = data if sort == STORED else None
            if sort == ELSEWHERE:
                del said[number]
        at += RECORD_BYTES + len(data)
    return said


def is_unclean(files: Mapping[int, bytes]) -> bool:
    """Whether a mount opened these files, or made them, and was never closed."""
    return bool(files) and 0 not in files


class Shown:
    """What an overlay's files show over a commit: `nodes`, and the numbers of entries in its files that count, as
    `numbers` and by their paths as `places`."""

    def __init__(self, commit: CommitTree, files: Mapping[int, bytes]) -> None:
        self.commit = commit
        self.files = files
        self.nodes: Nodes = {(): ("dir", True)}
        self.numbers: set[int] = set()
        self.places: dict[Path, int] = {}
        if 1 in files and not has_numbers(files[1]):
            self.directory((), 1)
        else:
            self.nodes.update(commit.below(commit.root))
            self.saved((), 1, commit.root)

    @property
    def next_number(self) -> int:
        """What a rescan gives next: one more than each number and than that of each file."""
        return max([FIRST_NUMBER, *(number + 1 for number in (*self.numbers, *self.files))])

    def file(self, number: int) -> bytes:
        sound(number in self.files, "no file", number)
        return self.files[number]

    def directory(self, path: Path, number: int) -> None:
        for entry in entries_of(self.file(number)):
            self.named(path + (entry.name,), entry.number)
            self.entry(path + (entry.name,), entry)

    def named(self, path: Path, number: int) -> None:
        sound(number not in self.numbers, "a number at two places", number)
        self.numbers.add(number)
        self.places[path] = number

    def saved(self, path: Path, number: int, tree_id: str) -> None:
        """The numbers saved for a directory on that tree object, and for those in it; another object's don't count."""
        if not has_numbers(self.files.get(number, b"")):
            return
        of, entries = numbers_of(self.files[number])
        for entry in entries if of == tree_id else []:
            self.named(path + (entry.name,), entry.number)
            if entry.kind == FOLDER and entry.origin == OBJECT:
                self.saved(path + (entry.name,), entry.number, entry.object_id)

    def entry(self, path: Path, entry: Entry) -> None:
        if entry.kind != FOLDER:
            self.nodes[path] = self.leaf(entry)
            return
        self.nodes[path] = ("dir", True)
        if entry.origin == OWN:
            self.directory(path, entry.number)
        elif entry.origin == OBJECT:
            self.nodes.update({path + below: node for below, node in self.commit.below(entry.object_id).items()})
            self.saved(path, entry.number, entry.object_id)

    def leaf(self, entry: Entry) -> Node:
        own = entry.origin == OWN
        content = body_of(FILE, self.file(entry.number)) if own else self.commit.contents[entry.object_id]
        return ("link", content) if entry.kind == LINK else ("file", entry.kind == EXECUTABLE, content)
