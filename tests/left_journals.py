"""Journals that killed programs left beside an overlay's files: cut, damaged, full, or before a later close.

What they hold is read by their description alone, and what it makes of the tree is known from the requests.
"""

import pathlib
import random
import shutil
import signal
import time
from collections.abc import Iterator, Sequence
from typing import NamedTuple

from checks import check, watched
from helpers.running import pipes
from overlays import RESCAN, Commit, Place, as_described, check_closed, check_session, replied, wanted_reply
from random_requests import LOOKS, WORDS, RandomRequests, line_of, whole
from yakembi.overlay_files import JOURNAL, MOST_BEHIND, PART, PARTS, RECORD_BYTES, Shown, records
from yakembi.tree_model import LONGEST_DATA, Nodes, Values, WholeTree, without_number

NAMES = [b"a", b"b", b"c", b"dir", b"many", b"plain.txt", b"new\nline"]
MOST_NODES = 1_000
# A move between two directories stores the one and then the other, so that a cut between them shows neither.
CHANGES = [word for word in WORDS if word not in [*LOOKS, "rename"]]
REQUESTS, CUTS = 120, 60
# A directory whose listing is long enough that what changes in it is noted alone; and files in it that are moved past
# others, to the back and to the front, which changes it in two places.
WIDE_NAMES = [b"%02d" % number + b"w" * 50 for number in range(40)]
WIDE: list[tuple[str, Values]] = [
    ("mkdir", ((b"wide",),)),
    *(("create", ((b"wide", name),)) for name in WIDE_NAMES),
    *(("rename", ((b"wide", name), (b"wide", b"z" + name))) for name in WIDE_NAMES[:6]),
    *(("rename", ((b"wide", name), (b"wide", b"!" + name))) for name in WIDE_NAMES[-6:])]
# A journal with more bytes becomes numbered files at the next change.
FULL = 16 << 20
# What is after the records at least, for those that make room on a full disk.
RESERVE = 64 << 10
# How large a file is that is written again and again, and how many writes then are enough to fill a journal.
LARGE, ENOUGH = LONGEST_DATA + 40_000, 170


class Left(NamedTuple):
    """What a killed program left: its overlay, how long the journal was after each answered request, beginning before
    the first, and what the tree was then."""

    place: Place
    sizes: list[int]
    trees: list[Nodes]


def journal_of(place: Place) -> pathlib.Path:
    return place.overlay / JOURNAL


def size_of(journal: pathlib.Path) -> int:
    """How many bytes its records have, by what they say of themselves. After them are zeros."""
    at = 0
    if journal.exists():
        with open(journal, "rb") as file:
            while (front := file.read(RECORD_BYTES))[20:24] in MOST_BEHIND:
                at += RECORD_BYTES + int.from_bytes(front[40:], "big")
                file.seek(at)
    return at


def left_by(generator: random.Random, place: Place, nodes: Nodes, first: Sequence[tuple[str, Values]] = ()) -> Left:
    """These changes and then random ones, each answered before the next is sent, and then a kill."""
    tree = WholeTree(dict(nodes))
    requests = RandomRequests(generator, tree, NAMES, MOST_NODES)
    left = Left(place, [0], [dict(tree.nodes)])
    with watched(place.start()) as session:
        to, by = pipes(session)
        for number in range(len(first) + REQUESTS):
            word, fields = first[number] if number < len(first) else requests.one(CHANGES)
            wanted = wanted_reply(tree, word, fields)
            to.write(line_of(word, fields) + b"\n")
            reply = by.readline()
            check("a reply before the kill", without_number(reply[:-1]), wanted or b"")
            left.sizes.append(size_of(journal_of(place)))
            left.trees.append(dict(tree.nodes))
        session.send_signal(signal.SIGKILL)
        session.communicate()
    return left


def check_as_cut(name: str, commit: Commit, left: Left, copy: Place, length: int) -> None:
    """A copy of which the journal counts up to that length shows what was answered by then, or one request more: by its
    description, and to the program."""
    done = max(number for number, size in enumerate(left.sizes) if size <= length)
    shown = as_described(name, Shown, commit, copy.files())
    if shown is None:
        return
    check(f"{name}: what the files show", shown.nodes in left.trees[done : done + 2], True)
    tree = WholeTree(shown.nodes)
    check_session(f"{name}: what the program shows", copy, replied(tree, whole(tree)), RESCAN)
    check_closed(name, copy, commit, tree)
    check(f"{name}: no journal afterwards", journal_of(copy).exists(), False)


def copy_of(left: Left, journal: bytes, folder: pathlib.Path) -> Place:
    """A copy of the overlay, with this journal."""
    copy = Place(left.place.root, left.place.objects, folder)
    shutil.rmtree(folder, ignore_errors=True)
    shutil.copytree(left.place.overlay, folder)
    journal_of(copy).write_bytes(journal)
    return copy


def ends_of(journal: bytes) -> Iterator[int]:
    """Where each record ends."""
    at = 0
    for _, _, body in records(journal):
        at += RECORD_BYTES + len(body)
        yield at


def check_cut_journals(folder: pathlib.Path, commit: Commit, objects: pathlib.Path, seed: int,
                       first: Sequence[tuple[str, Values]] = ()) -> None:
    """A journal that is cut, between records and in them, and one of which a byte is another."""
    generator = random.Random(seed)
    left = left_by(generator, Place(commit.root, objects, folder / "left"), commit.nodes, first)
    journal = journal_of(left.place).read_bytes()
    sorts = [sort for sort, _, _ in records(journal)]
    moves = sorts.count(PARTS)
    parts = sorts.count(PART) + moves
    check(f"changes of a body among its records, {parts}", parts >= len(first) // 2, True)
    check(f"changes in two places, {moves}", moves >= sum(word == "rename" for word, _ in first), True)
    ends = [0, *ends_of(journal)]
    reserve = journal[ends[-1]:]
    check("behind the records is the reserve, zeros", (reserve.strip(b"\0"), len(reserve) >= RESERVE), (b"", True))
    check(f"enough records, of {len(ends)}", len(ends) > REQUESTS // 2, True)
    for _ in range(CUTS):
        number = generator.randrange(len(ends) - 1)
        start, end = ends[number], ends[number + 1]
        cut = generator.choice([start, start + 1, start + RECORD_BYTES, end - 1, end, generator.randrange(start, end)])
        copy = copy_of(left, journal[:cut], folder / "copy")
        check_as_cut(f"cut at {cut}, in a record from {start} to {end}", commit, left, copy, cut)
        at = generator.randrange(start, end)
        changed = journal[:at] + bytes([journal[at] ^ generator.randrange(1, 256)]) + journal[at + 1 :]
        copy = copy_of(left, changed, folder / "copy")
        check_as_cut(f"byte {at} as {changed[at]}, in a record from {start} to {end}", commit, left, copy, start)


def check_journal_beside_state(folder: pathlib.Path, commit: Commit, objects: pathlib.Path, seed: int) -> None:
    """A program that knows of no journals opens what a kill left, without what is in the journal, changes and closes
    it. The journal then says nothing."""
    left = left_by(random.Random(seed), Place(commit.root, objects, folder / "left"), commit.nodes)
    journal = journal_of(left.place)
    data = journal.read_bytes()
    journal.unlink()
    tree = WholeTree(dict(commit.nodes))
    changes = [("mkdir", ((b"later",),)), ("create", ((b"later", b"file"),)), ("write", ((b"plain.txt",), 0, b"later"))]
    check_session("a later close", left.place, replied(tree, changes), RESCAN)
    journal.write_bytes(data)
    check_closed("a journal beside a state", left.place, commit, tree)
    check_session("what the program shows", left.place, replied(tree, whole(tree)))
    check("no journal afterwards", journal.exists(), False)


def check_full_journal(folder: pathlib.Path, commit: Commit, objects: pathlib.Path, seed: int, more: int) -> None:
    """One file is written until the journal is full, and this many times more. The next write is killed: it is the one
    that empties the journal, or it comes after that."""
    generator = random.Random(seed)
    place = Place(commit.root, objects, folder)
    tree = WholeTree(dict(commit.nodes))
    with watched(place.start()) as session:
        to, by = pipes(session)

        def send(word: str, *fields: object) -> bytes:
            to.write(line_of(word, fields) + b"\n")
            return (wanted_reply(tree, word, fields) or b"") + b"\n"

        def send_piece() -> bytes:
            at = generator.randrange(LARGE - LONGEST_DATA)
            return send("write", (b"large",), at, generator.randbytes(LONGEST_DATA))

        wanted = send("create", (b"large",))
        check("the file is made", by.readline(), wanted)
        wanted = send("truncate", (b"large",), LARGE)
        check("it is as long as it stays", by.readline(), wanted)
        sizes = [size_of(journal_of(place))]
        while sizes[-1] <= FULL and len(sizes) < ENOUGH:
            wanted = send_piece()
            check(f"write {len(sizes)}", by.readline(), wanted)
            sizes.append(size_of(journal_of(place)))
        check("it is full after so many writes", FULL < sizes[-1] < FULL + 2 * LARGE, True)
        check("it only grew", sizes, sorted(set(sizes)))
        for number in range(more):
            wanted = send_piece()
            check(f"write {number} after it was full", by.readline(), wanted)
            check("it was emptied", size_of(journal_of(place)) < 2 * (number + 1) * LARGE, True)
        trees = [dict(tree.nodes)]
        send_piece()
        trees.append(dict(tree.nodes))
        time.sleep(generator.random() ** 2 * 0.01)
        session.send_signal(signal.SIGKILL)
        session.communicate()
    shown = as_described("full", Shown, commit, place.files())
    check("what the files show", shown is not None and shown.nodes in trees, True)
    if shown is not None:
        tree = WholeTree(shown.nodes)
        check_session("what the program shows", place, replied(tree, whole(tree)), RESCAN)
        check_closed("full", place, commit, tree, kills=1)
