"""Lives of an overlay over a commit: random requests, and after them what Git makes of what was changed."""

import io
import pathlib
import random
import re
import shutil
import subprocess

from checks import check, finished, git
from helpers.git import blob_id, environment
from overlays import Place, check_session, wanted_reply
from programs import MOUNTD
from protocol import path_text
from random_requests import RandomRequests, line_of
from served_commits import MOST_NODES, ServedCommit
from told_changes import (LINK, Files, Rows, entered, entries_in, in_order, letters_in, letters_of, rows_in,
                          told)
from yakembi.folder_changes import changes_in
from yakembi.overlay_files import DIRECTORY, EMPTY, FOLDER, OBJECT, OWN, Entry
from yakembi.packs import objects_in, write_pack
from yakembi.tree_model import Path, WholeTree

REQUESTS_IN_A_LIFE = 250
# A tree grows by this many nodes at least, before requests only take away and move.
MORE_NODES = 60
# What Git says of a `.gitmodules` or `.gitattributes` that is no file, or has other lines: random requests make such.
RULES = re.compile(rb"(?:error|warning) in (?:tree|blob) [0-9a-f]{40}: git(?:modules|attributes|ignore)[A-Z]")


def snapshot(place: Place, into: pathlib.Path) -> tuple[int | str, bytes, bytes]:
    words = [MOUNTD, "snapshot", "--root", place.root, "--overlay", place.overlay, place.option, place.objects,
             "--into", into]
    done = finished(words, capture_output=True)
    return done.returncode, done.stdout, done.stderr


def take(repository: pathlib.Path, objects: pathlib.Path) -> None:
    """Puts framed objects into a repository."""
    pack = io.BytesIO()
    write_pack(pack, objects_in(objects))
    git(repository, "unpack-objects", "-q", data=pack.getvalue())


def rows_of(tree: WholeTree) -> Rows:
    """The files and the links of a tree."""
    rows = {}
    for names, node in tree.nodes.items():
        if node[0] != "dir":
            mode = LINK if node[0] == "link" else b"100755" if node[1] else b"100644"
            rows[b"/".join(names)] = (mode, blob_id(node[-1]))
    return rows


class WantedSnapshot:
    """What a snapshot has beside files and links: the submodules in it, the lines that name what it leaves out, and the
    commit's trees that it takes to know that."""

    def __init__(self, served: ServedCommit, files: Files) -> None:
        self.served = served
        self.files = files
        self.submodules: Rows = {}
        self.left_out: list[bytes] = []
        self.needed: set[str] = set()
        if files.get(1, b"").startswith(DIRECTORY):
            self.is_written((), 1)
        else:
            self.submodules = served.submodules

    def is_written(self, front: Path, number: int) -> bool:
        """Whether something is written of an own directory, after all that is inside."""
        return any([self.is_entry_written((*front, entry.name), entry) for entry in entries_in(self.files[number])])

    def is_entry_written(self, path: Path, entry: Entry) -> bool:
        if entry.origin == EMPTY:
            return self.is_submodule(path)
        if entry.origin == OBJECT and entry.kind == FOLDER:
            self.take_those_below(path, entry.object_id)
        is_empty = (entry.origin, entry.kind) == (OWN, FOLDER) and not self.is_written(path, entry.number)
        if is_empty:
            self.leave_out(path, b"an empty directory")
        return not is_empty

    def take_those_below(self, path: Path, tree: str) -> None:
        """A tree of the commit has its submodules wherever it is moved to."""
        there = b"".join(name + b"/" for name in self.served.commit.places[tree])
        here = b"".join(name + b"/" for name in path)
        self.submodules |= {here + other[len(there) :]: row for other, row in self.served.submodules.items()
                            if other.startswith(there)}

    def is_submodule(self, path: Path) -> bool:
        """Another one has the commit's id, if the commit has one at its path, by the trees that lead there."""
        for count in range(len(path)):
            front = b"".join(name + b"/" for name in path[:count])
            if front not in self.served.trees:
                break
            self.needed.add(self.served.trees[front])
        row = self.served.submodules.get(b"/".join(path))
        if row:
            self.submodules[b"/".join(path)] = row
        else:
            self.leave_out(path, b"a submodule that the commit has elsewhere")
        return row is not None

    def leave_out(self, path: Path, why: bytes) -> None:
        self.left_out.append(b"mountd: left out %s, %s" % (path_text(path), why))


class Alone:
    """The overlay over a folder that has some of the commit's trees, and no other object."""

    def __init__(self, served: ServedCommit, folder: pathlib.Path, place: Place) -> None:
        folder.mkdir()
        self.served = served
        self.ids: set[str] = set()
        self.place = Place(served.root, folder, place.overlay)

    def with_these(self, ids: set[str]) -> Place:
        for lost in self.ids - ids:
            self.path(lost).unlink()
        for object_id in ids - self.ids:
            content = self.served.contents[object_id]
            self.path(object_id).parent.mkdir(exist_ok=True)
            self.path(object_id).write_bytes(b"tree %d\0" % len(content) + content)
        self.ids = ids
        return self.place

    def lose_one(self, generator: random.Random) -> bool:
        """Removes one of them, if there is one."""
        if not self.ids:
            return False
        lost = generator.choice(sorted(self.ids))
        self.path(lost).unlink()
        self.ids = self.ids - {lost}
        return True

    def path(self, object_id: str) -> pathlib.Path:
        return self.place.objects / object_id[:2] / object_id[2:]


class Lives:
    """An overlay over a commit that is changed by random requests, and the dictionary that they change too."""

    def __init__(self, folder: pathlib.Path, generator: random.Random, served: ServedCommit, place: Place) -> None:
        self.folder = folder
        self.random = generator
        self.served = served
        self.place = place
        self.tree = WholeTree(dict(served.commit.nodes))
        most = max(MOST_NODES, len(self.tree.nodes) + MORE_NODES)
        self.requests = RandomRequests(generator, self.tree, served.names(generator), most)
        self.for_snapshots = Alone(served, folder / "for-snapshots", place)
        self.for_changes = Alone(served, folder / "for-changes", place)
        self.into = folder / "taken"
        # The trees of the snapshots, and what Git lists of the last.
        self.trees: list[str] = []
        self.rows: Rows = {}

    def live(self, name: str) -> None:
        """Requests, after which the overlay is closed: Git has the dictionary's tree, and what was changed."""
        rows = []
        for _ in range(REQUESTS_IN_A_LIFE):
            word, fields = self.requests.one()
            rows.append((line_of(word, fields), wanted_reply(self.tree, word, fields)))
        check_session(name, self.place, rows)
        files = self.place.files()
        self.check_snapshot(name, files)
        self.check_told(name, files)
        check(f"{name}: the files stay", self.place.files() == files, True)

    def check_snapshot(self, name: str, files: Files) -> None:
        """The snapshot is the dictionary's tree, by those of the commit's trees alone that lead to submodules."""
        wanted = WantedSnapshot(self.served, files)
        place = self.for_snapshots.with_these(wanted.needed)
        status, output, errors = snapshot(place, self.into)
        check(f"{name}: a snapshot", status, 0)
        check(f"{name}: what is left out", errors.splitlines(), wanted.left_out)
        if self.for_snapshots.lose_one(self.random):
            status, _, errors = snapshot(place, self.folder / "lost")
            check(f"{name}: its tree is lost", (status, errors.splitlines()[-1]), (4, b"mountd: snapshot Object"))
            shutil.rmtree(self.folder / "lost", ignore_errors=True)
        if self.into.exists():
            take(self.served.repository, self.into)
        if self.random.random() < 0.5:
            # The next one has nothing there yet.
            shutil.rmtree(self.into, ignore_errors=True)
        self.trees.append(output.decode().strip())
        self.rows = rows_in(self.served.repository, self.trees[-1])
        check(f"{name}: the tree", self.rows, rows_of(self.tree) | wanted.submodules)

    def check_told(self, name: str, files: Files) -> None:
        """The changes are those between the commit and the snapshot, by the commit's trees that have to be there."""
        place = self.for_changes.with_these(entered(self.served.trees, files))
        status, lines, errors = told(place)
        check(f"{name}: changes", (status, errors), (0, b""))
        check(f"{name}: their order", in_order(changes_in(iter(lines))), True)
        by_git = letters_in(self.served.repository, self.served.root, self.trees[-1])
        check(f"{name}: what they tell", letters_of(lines, self.served.rows, self.rows), by_git)
        if self.for_changes.lose_one(self.random):
            check(f"{name}: a tree that is lost", told(place)[::2], (4, b"mountd: changes Object\n"))

    def check_objects(self, name: str) -> None:
        """Git finds nothing wrong with any object, and none missing below what was taken."""
        words = ["git", "-C", str(self.served.repository), "fsck", "--full", "--strict", "--no-dangling", *self.trees]
        found = subprocess.run(words, capture_output=True, env=environment())
        lines = found.stderr.splitlines()
        is_refused = any(line.startswith(b"error in ") for line in lines)
        others = [line for line in lines if not RULES.match(line)]
        check(f"{name}: git fsck", (found.returncode, found.stdout, others), (int(is_refused), b"", []))
