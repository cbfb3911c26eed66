#!/usr/bin/env python3
"""Random operations on open files, many of them through memory, in a folder and beside it in a plain one, after `fsx`.

    tests/mount_files.py FOLDER PLAIN [SEED [OPERATIONS [LOG]]]

Both folders are there and hold the same files, or none. Each operation gives in both the same, or the same error, and
after each 50 all that open files, memory and names show is compared. If something differs the last operations are
told, and the status is 1. LOG is a file to which each operation is written before it is made.

A program of its own, since a page that can't be read or written kills whoever touches it.
"""

import contextlib
import mmap
import os
import pathlib
import random
import sys
from collections.abc import Iterator
from typing import Any

from mount_differences import tried

PAGE = mmap.PAGESIZE
# Files are seldom written or cut after the first, and never after the second.
LONG, LONGEST = 140_000, 2_500_000
# Where pages, pieces of messages and whole messages end.
BORDERS = [PAGE, 2 * PAGE, 65_536, 131_072, 262_144, 1 << 20]
NAMES = ["one", "two", "three", "in/four"]
PLACES, VIEWS = 4, 3
MOST_PIECES = 40
WHOLE_EVERY = 50
TOLD = 25


class View:
    """A file's memory, with a descriptor that shows how long the file is."""

    def __init__(self, file: int, size: int, is_written: bool) -> None:
        self.file = os.dup(file)
        self.is_written = is_written
        self.memory = mmap.mmap(file, size, prot=mmap.PROT_READ | (mmap.PROT_WRITE if is_written else 0))

    def reach(self) -> int:
        """How far it may be touched: to the end of the file's last page."""
        size = os.fstat(self.file).st_size
        return min(len(self.memory), -(-size // PAGE) * PAGE)

    def close(self) -> None:
        if self.is_written:
            self.memory.flush()
        self.memory.close()
        os.close(self.file)


class Files:
    """Files of a folder, of which some are open under the numbers of places, and some are in memory under those of
    views. An operation is a method, which gives what is compared; None if there is nothing to do it on."""

    def __init__(self, top: pathlib.Path) -> None:
        self.top = top
        self.files: dict[int, int] = {}
        self.views: dict[int, View] = {}
        (top / "in").mkdir(exist_ok=True)

    # ---- opened and closed

    def open(self, place: int, name: str, flags: int) -> None:
        self.close(place)
        self.files[place] = os.open(self.top / name, flags, 0o644)

    def reopen(self, place: int, other: int, flags: int) -> None:
        """Opens what another place has anew, be it removed."""
        path = f"/proc/self/fd/{self.files[other]}"
        if place != other:
            self.close(place)
            self.files[place] = os.open(path, flags)

    def duplicate(self, place: int, other: int) -> None:
        if place != other:
            self.close(place)
            self.files[place] = os.dup(self.files[other])

    def close(self, place: int) -> None:
        if place in self.files:
            os.close(self.files.pop(place))

    # ---- by calls

    def write(self, place: int, offset: int, data: bytes) -> int:
        return os.pwrite(self.files[place], data, offset)

    def write_on(self, place: int, data: bytes) -> tuple[int, int]:
        return os.write(self.files[place], data), os.lseek(self.files[place], 0, os.SEEK_CUR)

    def write_pieces(self, place: int, offset: int, data: bytes, piece: int) -> int:
        """As a program does that fills a file bit by bit."""
        return sum(os.pwrite(self.files[place], data[start : start + piece], offset + start)
                   for start in range(0, len(data), piece))

    def read(self, place: int, offset: int, length: int) -> bytes:
        return os.pread(self.files[place], length, offset)

    def read_on(self, place: int, length: int) -> bytes:
        return os.read(self.files[place], length)

    def seek(self, place: int, offset: int, whence: int) -> int:
        return os.lseek(self.files[place], offset, whence)

    def cut(self, place: int, size: int) -> int:
        os.ftruncate(self.files[place], size)
        return os.fstat(self.files[place]).st_size

    def sync(self, place: int, is_whole: bool) -> None:
        (os.fsync if is_whole else os.fdatasync)(self.files[place])

    def size(self, place: int) -> tuple[int, int]:
        found = os.fstat(self.files[place])
        return found.st_size, found.st_mode

    def copy(self, place: int, other: int, offset: int, to: int, length: int) -> int:
        """In the kernel, from one file to another, until nothing comes any more."""
        copied = 0
        while done := os.copy_file_range(self.files[place], self.files[other], length - copied, offset + copied,
                                         to + copied):
            copied += done
        return copied

    def send(self, place: int, other: int, offset: int, length: int) -> int | None:
        """Of a file into itself it isn't said what comes, if the two parts overlap."""
        if os.path.sameopenfile(self.files[place], self.files[other]):
            return None
        sent = 0
        while done := os.sendfile(self.files[other], self.files[place], offset + sent, length - sent):
            sent += done
        return sent

    # ---- by names

    def cut_name(self, name: str, size: int) -> int:
        os.truncate(self.top / name, size)
        return os.stat(self.top / name).st_size

    def put(self, name: str, data: bytes) -> int:
        return (self.top / name).write_bytes(data)

    def save(self, name: str, data: bytes, is_synced: bool) -> None:
        """As an editor does: beside it, and then over it."""
        with open(self.top / "saved", "wb") as file:
            file.write(data)
            file.flush()
            if is_synced:
                os.fsync(file.fileno())
        os.rename(self.top / "saved", self.top / name)

    def rename(self, name: str, other: str) -> None:
        os.rename(self.top / name, self.top / other)

    def unlink(self, name: str) -> None:
        os.unlink(self.top / name)

    def chmod(self, name: str, mode: int) -> None:
        os.chmod(self.top / name, mode)

    # ---- through memory

    def map(self, number: int, place: int, is_written: bool) -> int | None:
        self.unmap(number)
        size = os.fstat(self.files[place]).st_size
        if size == 0:
            return None
        self.views[number] = View(self.files[place], size, is_written)
        return size

    def unmap(self, number: int) -> None:
        if number in self.views:
            self.views.pop(number).close()

    def look(self, number: int, offset: int, length: int) -> bytes | None:
        view = self.views[number]
        reach = view.reach()
        return view.memory[min(offset, reach) : min(offset + length, reach)]

    def change(self, number: int, offset: int, data: bytes, is_synced: bool) -> int | None:
        """Writes what fits into the file; what would lie after its end isn't written."""
        view = self.views[number]
        end = min(offset + len(data), len(view.memory), os.fstat(view.file).st_size)
        if not view.is_written or end <= offset:
            return None
        view.memory[offset:end] = data[: end - offset]
        if is_synced:
            first = offset // PAGE * PAGE
            view.memory.flush(first, end - first)
        return end - offset

    # ---- all of it

    def shown(self) -> Iterator[tuple[str, bytes]]:
        """What each open file, each view and each name shows, under a name for it."""
        for place, file in self.files.items():
            yield f"open file {place}", b"%d " % os.fstat(file).st_size
            with contextlib.suppress(OSError):  # it may be open to write alone
                yield f"open file {place}, read", os.pread(file, 2 * LONGEST, 0)
        for number, view in self.views.items():
            yield f"view {number}", view.memory[: view.reach()]
        for folder in (".", "in"):
            yield f"names in {folder}", " ".join(sorted(os.listdir(self.top / folder))).encode()
        for name in NAMES:
            with contextlib.suppress(FileNotFoundError):
                yield f"the file {name}", (self.top / name).read_bytes()

    def end(self) -> None:
        for number in list(self.views):
            self.unmap(number)
        for place in list(self.files):
            self.close(place)


# ---- which operation is next


class Chosen:
    """Random operations, most of them on what is open, as the plain directory has it."""

    def __init__(self, generator: random.Random, plain: Files) -> None:
        self.random = generator
        self.plain = plain

    def next(self) -> tuple[Any, ...]:
        places, views = sorted(self.plain.files), sorted(self.plain.views)
        kind = self.random.choices(["name", "open", "file", "view"], [12, 10, 55, 23])[0]
        if kind == "name":
            return self.on_name()
        if kind == "open" or not places:
            return self.opening(places)
        if kind == "file" or not views or self.random.random() < 0.1:
            return self.on_file(self.random.choice(places))
        return self.on_view(self.random.choice(views))

    def on_name(self) -> tuple[Any, ...]:
        name, other = self.random.choice(NAMES), self.random.choice(NAMES)
        return self.random.choices([
            ("rename", name, other), ("unlink", name), ("save", name, self.data(), self.random.random() < 0.5),
            ("put", name, self.data()), ("cut_name", name, self.near(LONG // 2)),
            ("chmod", name, self.random.choice([0o644, 0o755])),
        ], [4, 3, 3, 2, 3, 1])[0]

    def opening(self, places: list[int]) -> tuple[Any, ...]:
        place, name = self.random.randrange(PLACES), self.random.choice(NAMES)
        if places and self.random.random() < 0.3:
            other = self.random.choice(places)
            return self.random.choice([("close", place), ("duplicate", place, other),
                                       ("reopen", place, other, self.random.choice([os.O_RDWR, os.O_RDONLY]))])
        made = os.O_CREAT
        flags = self.random.choices([
            os.O_RDWR | made, os.O_RDWR, os.O_RDWR | made | os.O_TRUNC, os.O_RDWR | made | os.O_APPEND, os.O_RDONLY,
            os.O_WRONLY | made, os.O_WRONLY | os.O_APPEND, os.O_RDWR | made | os.O_EXCL, os.O_RDWR | made | os.O_SYNC,
        ], [8, 4, 2, 3, 2, 2, 1, 2, 1])[0]
        return "open", place, name, flags

    def on_file(self, place: int) -> tuple[Any, ...]:
        size = os.fstat(self.plain.files[place]).st_size
        offset, other = self.near(size), self.random.choice(sorted(self.plain.files))
        data, piece = self.data(), self.random.choice([100, 1_000, PAGE, 4_099])
        return self.random.choices([
            ("write", place, offset, data), ("write_on", place, data),
            ("write_pieces", place, offset, data[: MOST_PIECES * piece], piece),
            ("read", place, offset, len(data)), ("read_on", place, len(data)),
            ("seek", place, *self.random.choice([(offset, os.SEEK_SET), (0, os.SEEK_END)])), ("cut", place, offset),
            ("sync", place, self.random.random() < 0.5), ("size", place),
            ("copy", place, other, self.near(size), offset, len(data)), ("send", place, other, offset, len(data)),
            ("map", self.random.randrange(VIEWS), place, self.random.random() < 0.8),
        ], [12, 6, 4, 10, 3, 3, 7, 2, 2, 3, 1, 6])[0]

    def on_view(self, number: int) -> tuple[Any, ...]:
        size = os.fstat(self.plain.views[number].file).st_size
        offset, data = self.near(size) % (size + 1), self.data()
        return self.random.choices([
            ("look", number, offset, len(data)), ("change", number, offset, data, self.random.random() < 0.3),
            ("unmap", number),
        ], [8, 12, 1])[0]

    def near(self, size: int) -> int:
        """An offset: at the start, about the end, within, after, or about a border of pages and messages."""
        reach = LONGEST if size > LONG or self.random.random() < 0.004 else LONG
        inner = self.random.randrange(size + 1)
        border = self.random.choice([border for border in BORDERS if border < reach])
        return min(reach, self.random.choice([
            0, size, max(0, size - 1), size // PAGE * PAGE, inner, inner, inner + self.random.randrange(50_000),
            border * self.random.randrange(1, 3) + self.random.choice([-1, 0, 1])]))

    def data(self) -> bytes:
        length = self.random.choices([0, 1, 9, 500, PAGE - 1, PAGE, PAGE + 1, 5_000, 30_000, 65_536, 65_537, 140_000],
                                     [1, 4, 6, 6, 2, 4, 2, 4, 3, 1, 1, 1])[0]
        return self.random.randbytes(BORDERS[-1] + 1 if self.random.random() < 0.002 else length)


# ---- both folders


def told_of(operation: tuple[Any, ...]) -> str:
    """An operation in a line, with the lengths of long bytes in their place."""
    word, *fields = operation
    return f"{word} " + ", ".join(f"{len(field):,} bytes" if isinstance(field, bytes) and len(field) > 20
                                  else repr(field) for field in fields)


def difference(got: Any, wanted: Any) -> str:
    """How two results differ; of bytes the first place at which they do."""
    if not (isinstance(got, bytes) and isinstance(wanted, bytes)):
        return f"got {got!r:.200}, wanted {wanted!r:.200}"
    first = next((at for at, pair in enumerate(zip(got, wanted)) if pair[0] != pair[1]), min(len(got), len(wanted)))
    return (f"got {len(got):,} bytes, wanted {len(wanted):,}, from {first:,} on {got[first : first + 20].hex()} in the "
            f"place of {wanted[first : first + 20].hex()}")


def differences(folder: Files, plain: Files) -> Iterator[str]:
    for (name, got), (_, wanted) in zip(folder.shown(), plain.shown(), strict=True):
        if got != wanted:
            yield f"{name}: {difference(got, wanted)}"


def run(folder: Files, plain: Files, seed: int, operations: int, log: int | None) -> list[str]:
    """Makes the operations until something differs, which is printed after the last ones."""
    chosen = Chosen(random.Random(seed), plain)
    lines: list[str] = []
    found = [f"at first, {line}" for line in differences(folder, plain)]
    for number in range(operations):
        if found:
            break
        operation = chosen.next()
        lines = [*lines[-TOLD:], f"{number}: {told_of(operation)}"]
        if log is not None:
            os.write(log, lines[-1].encode() + b"\n")
        word, *fields = operation
        wanted = tried(getattr(plain, word), *fields)
        got = tried(getattr(folder, word), *fields)
        if got != wanted:
            found = [f"then {difference(got, wanted)}"]
        elif number % WHOLE_EVERY == WHOLE_EVERY - 1:
            found = [f"then {line}" for line in differences(folder, plain)]
    if not found:
        folder.end()
        plain.end()
        found = [f"once all was closed, {line}" for line in differences(folder, plain)]
    return [*lines, *found] if found else []


def main(words: list[str]) -> int:
    if not 2 <= len(words) <= 5:
        sys.exit(__doc__)
    seed, operations = (int(words[place]) if len(words) > place else default for place, default in [(2, 1), (3, 3_000)])
    log = os.open(words[4], os.O_WRONLY | os.O_CREAT | os.O_TRUNC, 0o644) if len(words) > 4 else None
    folder, plain = (Files(pathlib.Path(word).resolve()) for word in words[:2])
    found = run(folder, plain, seed, operations, log)
    print("\n".join([f"seed {seed}, {operations:,} operations: " + ("different" if found else "the same"), *found]))
    return 1 if found else 0


if __name__ == "__main__":
    sys.exit(main(sys.argv[1:]))
