"""Overlays that `mountd repair` mends: files that are missing, cut, changed, or named twice.

What is taken out and why, and what is left, is worked out from the description of the files alone.
"""

import pathlib
import random
from collections.abc import Callable, Iterator

from checks import check, finished, watched
from helpers.running import Status, pipes
from overlays import RESCAN, Commit, Place, check_session
from programs import MOUNTD, SAMPLE_OBJECTS, SAMPLE_ROOT
from random_requests import field_text
from yakembi.overlay_files import (DIRECTORY, EMPTY, FILE, FOLDER, HEADER_BYTES, NUMBERS, OBJECT, OWN, PLAIN, VERSION,
                                   DIGEST_AT, LENGTH_AT, OLD_VERSION, UNREAD_AT, Damaged, Entry, body_of,
                                   directory_body, entries_of, entry_bytes, file_bytes, has_numbers, numbers_body,
                                   numbers_of, version_of)
from yakembi.tree_model import Path

Files = dict[int, bytes]
# A directory that is to be looked at: its path, its number, where it comes from, and its tree object's id.
Directory = tuple[Path, int, int, str]
# A name, the files of an overlay of the sample commit, the lines that are printed, and what the root lists then.
Row = tuple[str, Files, list[bytes], bytes]
ROUNDS = 150


# ---- what a repair does, by the description of the files


READERS: dict[bytes, Callable[[bytes], object]] = {
    FILE: lambda data: body_of(FILE, data), DIRECTORY: entries_of, NUMBERS: numbers_of}


def refusal(identifier: bytes, data: bytes) -> str | None:
    """What is wrong with a file under that identifier: the first of these in this order."""
    if len(data) < HEADER_BYTES:
        return "too short for a header"
    if not data.startswith(identifier):
        return "another kind of file"
    if version_of(data) not in (VERSION, OLD_VERSION):
        return "an unknown version"
    if version_of(data) == VERSION:
        body = data[HEADER_BYTES:]
        if int.from_bytes(data[LENGTH_AT:DIGEST_AT], "big") != len(body):
            return "the body has another length"
        if data[DIGEST_AT:UNREAD_AT] != file_bytes(identifier, body)[DIGEST_AT:UNREAD_AT]:
            return "the body has another digest"
    try:
        READERS[identifier](data)
    except Damaged:
        return "the body is not in its grammar"
    return None


class Mended:
    """What a repair makes of files over a commit's tree, and the lines that it prints. A directory that was met last
    is looked at first, own ones before those on tree objects."""

    def __init__(self, root: str, files: Files) -> None:
        self.files = dict(files)
        self.lines: list[bytes] = []
        self.met: set[int] = set()
        is_own = 1 in files and not has_numbers(files[1])
        pending: list[Directory] = [((), 1, OWN if is_own else OBJECT, root)]
        saved: list[Directory] = []
        while pending:
            directory = pending.pop()
            if directory[2] == OWN:
                pending += self.mend(directory)
            elif directory[2] == OBJECT:
                saved.append(directory)
        while saved:
            saved += self.numbers(saved.pop())

    def tell(self, what: bytes, path: Path, damage: str) -> None:
        self.lines.append(b"%s %s: %s" % (what, field_text(path), damage.encode()))

    def damage(self, entry: Entry) -> str | None:
        """Why an entry goes, or None."""
        if entry.origin == OWN:
            if entry.number not in self.files:
                return "missing"
            why = refusal(DIRECTORY if entry.kind == FOLDER else FILE, self.files[entry.number])
            if why is not None:
                return f"damaged: {why}"
        return "named twice" if entry.number in self.met else None

    def mend(self, directory: Directory) -> list[Directory]:
        path, number, _, _ = directory
        if refusal(DIRECTORY, self.files[number]) is not None:
            return []
        entries, kept = entries_of(self.files[number]), []
        for entry in entries:
            why = self.damage(entry)
            if why is not None:
                self.tell(b"cut", path + (entry.name,), why)
                continue
            self.met.add(entry.number)
            kept.append(entry)
        if len(kept) < len(entries):
            rows = [entry_bytes(entry.kind, entry.origin, entry.number, entry.name, bytes.fromhex(entry.object_id))
                    for entry in kept]
            self.files[number] = file_bytes(DIRECTORY, directory_body(*rows))
        return directories_among(path, kept)

    def numbers(self, directory: Directory) -> list[Directory]:
        path, number, origin, tree_id = directory
        if origin != OBJECT or not has_numbers(self.files.get(number, b"")):
            return []
        why = refusal(NUMBERS, self.files[number])
        if why is None:
            of, entries = numbers_of(self.files[number])
            if of != tree_id:
                return []
            numbers = [entry.number for entry in entries]
            is_fresh = len(set(numbers)) == len(numbers) and not self.met & set(numbers)
            self.met.update(numbers)
            if is_fresh:
                return directories_among(path, entries)
        self.tell(b"numbers", path, "named twice" if why is None else f"damaged: {why}")
        del self.files[number]
        return []


def directories_among(path: Path, entries: list[Entry]) -> list[Directory]:
    return [(path + (entry.name,), entry.number, entry.origin, entry.object_id)
            for entry in entries if entry.kind == FOLDER]


# ---- runs


def repair(root: str, overlay: pathlib.Path) -> tuple[Status, bytes, bytes]:
    """Status, output and errors of `mountd repair`."""
    done = finished([MOUNTD, "repair", "--root", root, "--overlay", overlay], capture_output=True)
    return done.returncode, done.stdout, done.stderr


def printed(lines: list[bytes]) -> bytes:
    return b"".join(line + b"\n" for line in lines)


def put(place: Place, files: Files) -> None:
    place.overlay.mkdir()
    for number, data in files.items():
        (place.overlay / str(number)).write_bytes(data)


def check_mended(name: str, place: Place, files: Files, refused: Callable[[Files], bytes | None]) -> Files | None:
    """A repair prints what goes, leaves the rest, and says what a rescan then says. The files, if it takes them."""
    put(place, files)
    wanted = Mended(place.root, files)
    fault = refused(wanted.files)
    ending = (0, b"") if fault is None else (3, b"mountd: open %s\n" % fault)
    status, output, errors = repair(place.root, place.overlay)
    check(f"{name}: what is told", output.splitlines(), wanted.lines)
    check(f"{name}: how it ends", (status, errors), ending)
    check(f"{name}: what is left", place.files(), wanted.files)
    check(f"{name}: once more", repair(place.root, place.overlay), (ending[0], b"", ending[1]))
    check(f"{name}: left again", place.files(), wanted.files)
    return wanted.files if fault is None else None


# ---- each kind of damage


def rows_by_hand() -> Iterator[Row]:
    content = file_bytes(FILE, b"version 1\n\0\0!")

    def directory_bytes(*entries: bytes) -> bytes:
        return file_bytes(DIRECTORY, directory_body(*entries))

    root = directory_bytes(entry_bytes(PLAIN, OWN, 2, b"test.txt"))
    commit, nothing = b"entries 1 file test.txt end", b"entries 0 end"
    yield "nothing is wrong", {1: root, 2: content}, [], commit
    yield "a file that is missing", {1: root}, [b"cut /test.txt: missing"], nothing
    yield "a file that is cut", {1: root, 2: content[:63]}, [b"cut /test.txt: damaged: too short for a header"], nothing
    wrong = [b"cut /test.txt: damaged: another kind of file"]
    yield "a directory in a file's place", {1: root, 2: directory_bytes()}, wrong, nothing
    longer = [b"cut /test.txt: damaged: the body has another length"]
    yield "a file with more behind it", {1: root, 2: content + b"\0"}, longer, nothing
    changed = [b"cut /test.txt: damaged: the body has another digest"]
    yield "a file of other bytes", {1: root, 2: content[:-1] + b"?"}, changed, nothing
    above = directory_bytes(entry_bytes(FOLDER, OWN, 2, b"d"))
    below = directory_bytes(entry_bytes(FOLDER, OWN, 2, b"e"))
    yield "a directory in itself", {1: above, 2: below}, [b"cut /d/e: named twice"], b"entries 1 dir d end"
    twice = directory_bytes(entry_bytes(PLAIN, OWN, 2, b"a"), entry_bytes(FOLDER, EMPTY, 2, b"b"))
    yield "a number of two names", {1: twice, 2: content}, [b"cut /b: named twice"], b"entries 1 file a end"
    both = directory_bytes(entry_bytes(PLAIN, OWN, 3, b"\n%"), entry_bytes(FOLDER, OWN, 2, b"d"))
    told = [b"cut /%0A%25: missing", b"cut /d/e: named twice"]
    yield "two, of which one is below", {1: both, 2: below}, told, b"entries 1 dir d end"
    gone = directory_bytes(entry_bytes(FOLDER, OWN, 2, b"d"), entry_bytes(PLAIN, OWN, 3, b"z"))
    lost = [b"cut /d: damaged: another kind of file"]
    yield "a directory that is lost", {1: gone, 2: content, 3: content}, lost, b"entries 1 file z end"
    row = entry_bytes(PLAIN, OBJECT, 7, b"test.txt", bytes.fromhex("83baae61804e65cc73a7201a7252750c76066a30"))
    numbers = numbers_body(SAMPLE_ROOT, row)
    yield "saved numbers", {1: file_bytes(NUMBERS, numbers)}, [], commit
    yield "numbers of another tree", {1: file_bytes(NUMBERS, numbers_body("1" * 40, row))}, [], commit
    cut = [b"numbers /: damaged: the body is not in its grammar"]
    yield "numbers that are cut", {1: file_bytes(NUMBERS, numbers[:-1])}, cut, commit
    torn = [b"numbers /: damaged: the body has another length"]
    yield "numbers that are torn", {1: file_bytes(NUMBERS, numbers)[:-1]}, torn, commit
    again = entry_bytes(PLAIN, OBJECT, 7, b"zest", bytes(20))
    same = [b"numbers /: named twice"]
    yield "a number twice", {1: file_bytes(NUMBERS, numbers_body(SAMPLE_ROOT, row, again))}, same, commit
    yield "a stray", {1: root, 2: content, 77: b"junk"}, [], commit
    yield "a damaged state", {0: b"", 1: root}, [b"cut /test.txt: missing"], nothing


def check_rows(folder: pathlib.Path, refused: Callable[[Files], bytes | None]) -> None:
    """What is worked out by hand is what the description says, and a rescan takes what is left."""
    for name, files, lines, listing in rows_by_hand():
        place = Place(SAMPLE_ROOT, SAMPLE_OBJECTS, folder / name)
        check(f"{name}: by the description", Mended(SAMPLE_ROOT, files).lines, lines)
        check_mended(name, place, files, refused)
        check_session(name, place, [(b"list / - 9", listing)], RESCAN)
        check_session(f"{name}, closed", place, [(b"list / - 9", listing)])


# ---- what isn't mended


def check_refused(folder: pathlib.Path) -> None:
    """A root that can't be read, and a number that leaves none to give: nothing changes."""
    content = file_bytes(FILE, b"")
    root = file_bytes(DIRECTORY, directory_body(entry_bytes(PLAIN, OWN, 2, b"a")))
    rows: dict[str, Files] = {"a root that is cut": {1: root[:63], 2: content}, "a root that is a file": {1: content},
                              "a number of 2^63": {1: root, 2: content, 2**63: b""}}
    for name, files in rows.items():
        place = Place(SAMPLE_ROOT, SAMPLE_OBJECTS, folder / name)
        put(place, files)
        check(name, repair(SAMPLE_ROOT, place.overlay), (3, b"", b"mountd: open Damaged\n"))
        check(f"{name} is left", place.files(), files)
        wanted = Mended(SAMPLE_ROOT, files)
        check(f"{name}: by the description", (wanted.lines, wanted.files), ([], files))


def check_ends(folder: pathlib.Path) -> None:
    """No folder is made, one that is open is refused, and what can't be said is a fault after what was done."""
    check("no folder", repair(SAMPLE_ROOT, folder / "nowhere"), (3, b"", b"mountd: open Device\n"))
    check("none is made", (folder / "nowhere").exists(), False)
    (folder / "empty").mkdir()
    check("a folder without files", repair(SAMPLE_ROOT, folder / "empty"), (0, b"", b""))
    place = Place(SAMPLE_ROOT, SAMPLE_OBJECTS, folder / "open")
    with watched(place.start()) as session:
        to, by = pipes(session)
        to.write(b"mkdir /d\n")
        check("it is served", by.readline(), b"ok\n")
        check("an open overlay", repair(SAMPLE_ROOT, place.overlay), (3, b"", b"mountd: open Locked\n"))
    told = Place(SAMPLE_ROOT, SAMPLE_OBJECTS, folder / "told")
    put(told, {1: file_bytes(DIRECTORY, directory_body(entry_bytes(PLAIN, OWN, 2, b"a")))})
    with open("/dev/full", "wb") as full:
        done = finished([MOUNTD, "repair", "--root", SAMPLE_ROOT, "--overlay", told.overlay], stdout=full, stderr=-1)
    check("no room for a line", (done.returncode, done.stderr), (4, b"mountd: repair Write\n"))
    check("it is done", told.files(), {1: file_bytes(DIRECTORY, directory_body())})


# ---- many at once


def spoilt(generator: random.Random, files: Files, owned: list[int]) -> Files:
    """The files with some of them gone, cut, changed, or with another's bytes, and half of the time no state."""
    bad = dict(files)
    if generator.random() < 0.5:
        bad.pop(0, None)
    for number in generator.sample(owned, generator.randint(1, min(4, len(owned)))):
        data = files[number]
        fate = generator.randrange(5)
        if fate == 0:
            bad.pop(number)
        elif fate == 1:
            bad[number] = data[: generator.randrange(len(data))]
        elif fate == 2:
            bad[number] = files[generator.choice(owned)]
        else:
            at = generator.randrange(len(data))
            bad[number] = data[:at] + bytes([data[at] ^ generator.randrange(1, 256)]) + data[at + 1 :]
    return bad


def check_many(generator: random.Random, commit: Commit, closed: Place, owned: list[int],
               refused: Callable[[Files], bytes | None], rescanned: Callable[[str, Place, Files], None]) -> None:
    """Random damages of several files at once. What is left shows all but what went, and can be tidied and changed."""
    mended = 0
    for number in range(ROUNDS):
        place = Place(commit.root, closed.objects, closed.overlay.parent / f"spoilt {number}")
        files = spoilt(generator, closed.files(), owned)
        left = check_mended(f"damage {number}", place, files, refused)
        if left is not None:
            mended += bool(Mended(commit.root, files).lines)
            rescanned(f"damage {number}", place, left)
    check(f"most were mended ({mended})", mended >= ROUNDS // 2, True)
