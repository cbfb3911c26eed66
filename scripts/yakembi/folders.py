"""Which blobs lie in one directory, as the trees say that went through a server of objects, or that a clone has."""

import bisect
import collections
import threading
import time
from collections.abc import Collection, Iterable, Iterator

from yakembi.git import FOLDERS, SUBMODULE, Objects, Refusal, entries

# How many names are known at a time; the folder that was learned first is forgotten first.
MOST_NAMES = 1 << 18
# How many bytes of a clone's trees are looked through: those of some 1,500,000 files.
MOST_BYTES = 1 << 26
# Blobs of a folder are asked for one after another if no more seconds lie between two of them.
ONE_AFTER_ANOTHER = 10.0
# How many places may lie between the end of a guess and what is asked for next.
NEAR = 8
# What a blob is taken to have, if none of its folder is known, and what it has at least.
USUAL_BYTES, LEAST_BYTES = 4_096, 64


class Folder:
    """A tree's entries, and what was asked of them."""

    def __init__(self, tree_id: str, body: bytes) -> None:
        self.tree_id = tree_id
        rows = [(mode in FOLDERS, below) for mode, _, below in entries(tree_id, body) if mode != SUBMODULE]
        self.trees = list(dict.fromkeys(below for is_tree, below in rows if is_tree))
        self.blobs = list(dict.fromkeys(below for is_tree, below in rows if not is_tree))
        # Its last entry.
        self.ends_in_tree, self.end = rows[-1] if rows else (False, "")
        # When it was asked for itself, one of its blobs, and its last entry.
        self.listed_at = self.asked_at = self.ended_at = 0.0
        self.last_asked = ""
        # How many of its blobs were asked for one after another.
        self.in_a_row = 0
        self.served, self.bytes = 0, 0
        # Until then nothing of it is guessed, after a guess that brought nothing.
        self.rests_until = 0.0
        # From which of its blobs on nothing was guessed while they are asked for in a row; and from which of its
        # folders on, for the folders in these (True) and for their blobs.
        self.next_blob = 0
        self.next_folder = {True: 0, False: 0}

    def ask(self, blob: str) -> None:
        """Notes that a blob of it is asked for."""
        if not is_now(self.asked_at):
            self.in_a_row, self.next_blob = 1, 0
        elif blob != self.last_asked:
            self.in_a_row += 1
        self.last_asked, self.asked_at = blob, time.monotonic()
        if blob == self.end:
            self.ended_at = self.asked_at

    def look_into(self) -> None:
        """Notes that it is asked for itself."""
        self.listed_at = time.monotonic()

    def serve(self, length: int) -> None:
        """Notes a blob's length."""
        self.served += 1
        self.bytes += length

    def usual_bytes(self) -> int:
        """What its blobs have, by those that were served."""
        return max(self.bytes // self.served, LEAST_BYTES) if self.served else USUAL_BYTES

    def others(self, blob: str) -> list[str]:
        """Its other blobs: those after this one, and then those before it.

        None, if others were guessed while it is read, and it isn't read on from where these end: a guess that isn't
        followed is the last.
        """
        at = self.blobs.index(blob)
        if self.next_blob and not 0 <= at - self.next_blob <= NEAR:
            return []
        return self.blobs[at + 1 :] + self.blobs[:at]

    def guessed(self, blob: str, others: Collection[str]) -> None:
        """Notes which of the others of a blob were guessed."""
        if others:
            at = self.blobs.index(blob)
            self.next_blob = at + 1 + len(set(self.blobs[at + 1 :]).intersection(others))


def is_now(at: float) -> bool:
    """Whether what is asked for follows on what was asked for at that time."""
    return time.monotonic() - at <= ONE_AFTER_ANOTHER


class Folders:
    """The folders that are known, with this many names at most. Its calls come from one thread at a time."""

    def __init__(self, most_names: int = MOST_NAMES) -> None:
        self.most_names = most_names
        self.known: collections.OrderedDict[str, Folder] = collections.OrderedDict()
        # The folder in which a blob or a tree was seen last.
        self.by_blob: dict[str, Folder] = {}
        self.by_tree: dict[str, Folder] = {}
        self.names = 0

    def learn(self, folder: Folder) -> Folder:
        """The folder, or the one of the same tree that is known already; it is known from now on."""
        found = self.known.setdefault(folder.tree_id, folder)
        if found is folder:
            self.names += len(found.blobs) + len(found.trees)
            while self.names > self.most_names and len(self.known) > 1:
                self.forget(self.known.popitem(last=False)[1])
        self.by_blob.update(dict.fromkeys(found.blobs, found))
        self.by_tree.update(dict.fromkeys(found.trees, found))
        return found

    def forget(self, folder: Folder) -> None:
        self.names -= len(folder.blobs) + len(folder.trees)
        for ids, known in [(folder.blobs, self.by_blob), (folder.trees, self.by_tree)]:
            for object_id in ids:
                if known.get(object_id) is folder:
                    del known[object_id]

    def of(self, blob: str) -> Folder | None:
        """The folder of a blob, the last that was learned if it lies in several."""
        return self.by_blob.get(blob)

    def above(self, folder: Folder) -> tuple[Folder, int] | None:
        """The folder in which it lies, and at which place there."""
        found = self.by_tree.get(folder.tree_id)
        return None if found is None else (found, found.trees.index(folder.tree_id))

    def walks(self, folder: Folder, are_trees: bool) -> Iterator[tuple[Folder, int]]:
        """The folders that are gone through from one below to the next, each with the place that was come to.

        So it is where the folder just before that place was gone through to its end, be it by the trees below it or by
        the blobs.
        """
        while found := self.above(folder):
            folder, place = found
            if place > 0 and self.is_ended(folder.trees[place - 1], are_trees):
                yield folder, place

    def is_ended(self, tree_id: str, are_trees: bool) -> bool:
        while (folder := self.known.get(tree_id)) and (not are_trees or is_now(folder.listed_at)):
            if are_trees and not folder.trees:
                return True
            if not are_trees and not folder.ends_in_tree:
                return is_now(folder.ended_at)
            tree_id = folder.trees[-1]
        return False

    def knows_tree(self, object_id: str) -> bool:
        """Whether it is the tree of a folder in one that is known."""
        return object_id in self.by_tree


class Trees:
    """Trees that a clone has, to look a blob's folder up in: as many as have this many bytes. Any thread may use it."""

    def __init__(self, most_bytes: int = MOST_BYTES) -> None:
        self.most_bytes = most_bytes
        self.lock = threading.Lock()
        # The trees one after the other: the id of each, where it begins, and their bytes.
        self.ids: list[str] = []
        self.starts: list[int] = []
        self.bodies = bytearray()

    def read(self, tops: Iterable[str], objects: Objects) -> None:
        """Reads these trees and those below them, as far as they are there; those above first."""
        waiting, known = collections.deque(tops), set(self.ids)
        while waiting and len(self.bodies) < self.most_bytes:
            tree_id = waiting.popleft()
            answer = None if tree_id in known else objects.ask(tree_id)
            known.add(tree_id)
            if answer is not None:
                body = b"".join(objects.pieces(answer[1]))
                if answer[0] == "tree":
                    self.add(tree_id, body)
                    waiting += folders_in(tree_id, body)

    def add(self, tree_id: str, body: bytes) -> None:
        with self.lock:
            self.ids.append(tree_id)
            self.starts.append(len(self.bodies))
            self.bodies += body

    def folder_of(self, blob: str) -> Folder | None:
        """The first folder in which it lies."""
        name, at = bytes.fromhex(blob), -1
        with self.lock:
            while (at := self.bodies.find(name, at + 1)) >= 0:
                number = bisect.bisect_right(self.starts, at) - 1
                end = self.starts[number + 1] if number + 1 < len(self.starts) else len(self.bodies)
                found = folder_or_none(self.ids[number], bytes(self.bodies[self.starts[number] : end]))
                # The same bytes may stand in a name, say.
                if found is not None and blob in found.blobs:
                    return found
        return None


def folder_or_none(tree_id: str, body: bytes) -> Folder | None:
    """A tree's directory; None if it is damaged."""
    try:
        return Folder(tree_id, body)
    except Refusal:
        return None


def folders_in(tree_id: str, body: bytes) -> list[str]:
    """The trees that a tree names; a damaged one names none."""
    found = folder_or_none(tree_id, body)
    return [] if found is None else found.trees
