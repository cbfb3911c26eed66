"""Overlays that `mountd dematerialise` has stand on another tree, without what is the same there.

What is stored then is worked out from the description of the files and from what Git lists in the tree. What is shown
stays the same, whatever becomes of the run: an object that is lost, a kill, or a loss of power.
"""

import itertools
import os
import pathlib
import random
import shutil
import signal
import subprocess
import unittest
from collections import ChainMap
from collections.abc import Iterator, Mapping

import cases
import tracing
from checks import check, ending_of, finished, git, watched
from commit_lives import snapshot, take
from helpers.git import blob_id
from helpers.running import Ending, pipes
from losing_disk import FDATASYNC, FSYNC, UNLINK, UNLINKAT, Disk, Kept, kept_in
from mount_losses import losses
from old_overlay import old_files, old_nodes
from overlays import RESCAN, Commit, OnRepository, Place, as_described, check_session, known_numbers, replied
from programs import EXAMPLES, GIT_OBJECTS, MOUNTD, SAMPLE_OBJECTS, SAMPLE_ROOT, listening
from random_requests import RandomRequests, whole
from served_commits import MOST_NODES, NAMES, rows_of, trees_in
from told_changes import LINK, Files, entered, letters_in, letters_of, rows_in, told
from tracing import Info, can_watch
from yakembi.overlay_files import (DIRECTORY, EXECUTABLE, FILE, FOLDER, LINK as A_LINK, OBJECT, OWN, PLAIN, Damaged,
                                   Entry, Shown, body_of, directory_body, entries_of, entry_bytes, file_bytes,
                                   has_numbers, state_bytes, state_of)
from yakembi.tree_model import Nodes, Numbers, Path, WholeTree

SEED = cases.number_at(2, default=1)
TURNS, LIVES, REQUESTS_IN_A_LIFE = 6, 3, 120
MODES = {PLAIN: b"100644", EXECUTABLE: b"100755", A_LINK: LINK}
# The calls after which a run is cut off.
STEPS = (FSYNC, FDATASYNC, UNLINK, UNLINKAT)
DONE: Ending = (0, b"", b"")
OF_AN_OBJECT: Ending = (4, b"", b"mountd: dematerialise Object\n")
TOO_DEEP: Ending = (4, b"", b"mountd: dematerialise TooDeep\n")
OTHER_ROOT: Ending = (3, b"", b"mountd: open OtherRoot\n")


def dematerialise(place: Place, to: str, *more: object) -> Ending:
    """How the command ends."""
    done = finished(words(place, to, *(more or (place.option, place.objects))), capture_output=True)
    return done.returncode, done.stdout, done.stderr


def words(place: Place, to: str, *more: object) -> list[str]:
    return [str(word) for word in (MOUNTD, "dematerialise", "--root", place.root, "--tree", to,
                                   "--overlay", place.overlay, *more)]


# ---- what becomes of the files, by their description


class Wanted:
    """The files of a closed overlay that is to stand on a tree of a repository; the numbers of those that are given up,
    and of those that are removed."""

    def __init__(self, repository: pathlib.Path, files: Files, to: str) -> None:
        self.rows = rows_in(repository, to)
        self.trees = trees_in(repository, to)
        self.before, self.files = files, dict(files)
        self.let_go: dict[int, str] = {}
        self.removed: set[int] = set()
        self.is_rooted = files.get(1, b"").startswith(DIRECTORY)
        if self.is_rooted:
            self.directory(b"", 1)
            self.files[0] = state_bytes(to, state_of(files[0])[1])
            self.removed = set(elsewhere(self.files, 1)) & self.files.keys()
        for number in self.removed:
            del self.files[number]

    @property
    def needed(self) -> set[str]:
        """The objects that are asked for."""
        return entered(self.trees, self.before) | set(self.let_go.values())

    def directory(self, front: bytes, number: int) -> None:
        entries = readable_entries(self.files, number)
        rows = [self.row(front + entry.name, entry) for entry in entries]
        if any(entry.number in self.let_go for entry in entries):
            self.files[number] = file_bytes(DIRECTORY, directory_body(*rows))

    def row(self, path: bytes, entry: Entry) -> bytes:
        """The entry's bytes then, once those are known of what is below."""
        same = (entry.kind, entry.origin, entry.number, entry.name, bytes.fromhex(entry.object_id))
        if entry.origin != OWN:
            return entry_bytes(*same)
        if entry.kind == FOLDER:
            if path + b"/" in self.trees:
                self.directory(path + b"/", entry.number)
            return entry_bytes(*same)
        content = self.content(entry.number)
        if content is None or self.rows.get(path) != (MODES[entry.kind], blob_id(content)):
            return entry_bytes(*same)
        self.let_go[entry.number] = blob_id(content)
        return entry_bytes(entry.kind, OBJECT, entry.number, entry.name, bytes.fromhex(blob_id(content)))

    def content(self, number: int) -> bytes | None:
        try:
            return body_of(FILE, self.files[number])
        except (KeyError, Damaged):
            return None


def readable_entries(files: Files, number: int) -> list[Entry]:
    """An own directory's entries; none if it can't be read."""
    try:
        return entries_of(files[number])
    except (KeyError, Damaged):
        return []


def elsewhere(files: Files, number: int) -> Iterator[int]:
    """The numbers of files and links from objects, in an own directory and below it: nobody reads files of theirs."""
    for entry in readable_entries(files, number):
        if entry.kind == FOLDER:
            yield from elsewhere(files, entry.number) if entry.origin == OWN else ()
        elif entry.origin == OBJECT:
            yield entry.number


class Trees:
    """Several trees, of whose objects an overlay may show some: one after another, what it was to stand on."""

    def __init__(self, *commits: Commit) -> None:
        self.commits = list(commits)

    def stand_on(self, commit: Commit) -> None:
        self.commits.append(commit)

    @property
    def root(self) -> str:
        return self.commits[-1].root

    @property
    def contents(self) -> Mapping[str, bytes]:
        return ChainMap(*(commit.contents for commit in self.commits))

    def below(self, tree_id: str) -> Nodes:
        return next(commit for commit in self.commits if tree_id in commit.places).below(tree_id)


# ---- trees to stand on


def tree_of(repository: pathlib.Path, nodes: Nodes) -> str:
    """A tree with these files and links, made by Git."""
    head = b"commit refs/heads/made\ncommitter A <a@example.org> 1700000000 +0000\ndata 0\n"
    git(repository, "fast-import", "--quiet", "--force", data=head + b"".join(rows_of(nodes)))
    return git(repository, "rev-parse", "made^{tree}")


def altered(generator: random.Random, nodes: Nodes) -> Nodes:
    """Some of them have other contents, another mode, or are gone, and files stand in the place of directories."""
    found = dict(nodes)
    for path, node in nodes.items():
        fate = generator.randrange(12)
        if path not in found or path == ():
            continue
        if fate == 0:
            drop(found, path)
        elif fate == 1 and (node[0] == "file" or generator.random() < 0.2):
            drop(found, path)
            found[path] = ("file", False, generator.randbytes(3))
        elif fate == 2 and node[0] == "file":
            found[path] = ("file", not node[1], node[2])
        elif fate == 3 and node[0] == "file" and 0 < len(node[2]) < 100 and b"\0" not in node[2]:
            found[path] = ("link", node[2])
    return found


def drop(nodes: Nodes, path: Path) -> None:
    for other in [other for other in nodes if other[: len(path)] == path]:
        del nodes[other]


def put_objects(repository: pathlib.Path, ids: set[str], folder: pathlib.Path) -> dict[str, pathlib.Path]:
    """The framed objects in a folder, which has no others."""
    found = {}
    for object_id in ids:
        kind = git(repository, "cat-file", "-t", object_id)
        content = git(repository, "cat-file", kind, object_id, text=False)
        found[object_id] = folder / object_id[:2] / object_id[2:]
        found[object_id].parent.mkdir(parents=True, exist_ok=True)
        found[object_id].write_bytes(b"%s %d\0" % (kind.encode(), len(content)) + content)
    return found


def copied(place: Place, overlay: pathlib.Path) -> Place:
    shutil.rmtree(overlay, ignore_errors=True)
    shutil.copytree(place.overlay, overlay)
    return Place(place.root, place.objects, overlay, place.option)


# ---- a run that is cut off


class CutOff(Exception):
    """The program has come far enough."""


class CutDisk(Disk):
    """What is on the disk of a program that is to be cut off once it has so often waited or removed a file."""

    def __init__(self, folder: pathlib.Path, record: pathlib.Path, count: int) -> None:
        super().__init__(folder, record)
        self.count = count

    def done(self, task: int, call: Info, returned: int) -> None:
        super().done(task, call, returned)
        self.count -= call.number in STEPS
        if self.count == 0:
            raise CutOff


def cut_off(place: Place, to: str, record: pathlib.Path, count: int) -> int | None:
    """The status of a run that is killed once it has so often waited for the disk or removed a file; None if it was."""
    shutil.rmtree(record, ignore_errors=True)
    record.mkdir()
    # No new file gets the number of one that is open.
    held = [path.open() for path in place.overlay.iterdir()]
    program = tracing.started(words(place, to, place.option, place.objects))
    try:
        return tracing.watch(CutDisk(place.overlay, record, count), program)
    except CutOff:
        os.kill(program, signal.SIGKILL)
        os.waitpid(program, 0)
        return None
    finally:
        for file in held:
            file.close()


# ---- the tests


class Moves(OnRepository):
    """An overlay over a repository with everything, which is to stand on another tree."""

    place: Place
    trees: Trees

    def setUp(self) -> None:
        super().setUp()
        self.place = Place(self.commit.root, self.repository, self.folder / "changes", "--git")
        self.trees = Trees(self.commit)

    # ---- what an overlay shows, and what it shows as a commit

    def taken(self) -> str:
        """The tree of what the overlay shows, once Git has it."""
        into = self.folder / "taken"
        status, output, _ = snapshot(self.place, into)
        check("a snapshot", status, 0)
        if into.exists():
            take(self.repository, into)
            shutil.rmtree(into)
        return output.decode().strip()

    def changed(self) -> WholeTree:
        """One of each change: what is new, was written, made executable, a link, moved, or removed."""
        tree = WholeTree(dict(self.commit.nodes))
        requests = [("create", ((b"new",),)), ("write", ((b"new",), 0, b"some bytes")),
                    ("write", ((b"dir", b"a"), 1, b"more")), ("setexec", ((b"plain.txt",), True)),
                    ("write", ((b"empty",), 0, b"no more")), ("symlink", ((b"dir", b"link"), b"a")),
                    ("rename", ((b"many",), (b"dir", b"moved"))), ("rename", ((b"large.bin",), (b"larger",))),
                    ("truncate", ((b"page.bin",), 70_000)), ("unlink", ((b"dir0",),)), ("mkdir", ((b"made",),)),
                    ("mkdir", ((b"made", b"below"),)), ("create", ((b"made", b"below", b"file"),)),
                    ("mkdir", ((b"nothing",),)), ("kind", ((b"d0", b"d1", b"d2"),))]
        check_session("changes", self.place, replied(tree, requests))
        return tree

    def check_moved(self, name: str, to: str, tree: WholeTree) -> Wanted:
        """The overlay, which shows that tree of the dictionary, stands on the other then: its files are those that are
        wanted, and what they show is the same, with its numbers."""
        shows = self.taken()
        files = self.place.files()
        before = Shown(self.trees, files)
        numbers = (before.places, state_of(files[0])[1])
        wanted = Wanted(self.repository, files, to)
        if wanted.is_rooted:
            self.trees.stand_on(Commit(self.repository, to))
        check(f"{name}: how it ends", dematerialise(self.place, to), DONE)
        check(f"{name}: what is stored", self.place.files() == wanted.files, True)
        self.check_same(name, before)
        if wanted.is_rooted and to != self.place.root:
            refused = self.place.run([b"kind /"])
            check(f"{name}: what it stood on", (refused, dematerialise(self.place, to)), (OTHER_ROOT, OTHER_ROOT))
        self.place.root = to if wanted.is_rooted else self.place.root
        self.check_told(name, shows)
        self.check_tidied(name, before)
        stats = [("stat", (path,)) for path in sorted(tree.nodes)]
        check_session(f"{name}: its numbers", self.place, replied(tree, stats), numbers=Numbers(*numbers))
        check_session(f"{name}: all of it", self.place, replied(tree, whole(tree)))
        return wanted

    def check_same(self, name: str, before: Shown) -> None:
        """What the files show, each with its number."""
        shown = as_described(name, Shown, self.trees, self.place.files())
        check(f"{name}: what is shown", shown and shown.nodes == before.nodes, True)
        check(f"{name}: each number", shown and shown.places == before.places, True)

    def check_told(self, name: str, shows: str) -> None:
        """What differs then is what Git lists of the two trees."""
        root = self.place.root
        status, lines, errors = told(self.place)
        check(f"{name}: changes", (status, errors), (0, b""))
        rows = rows_in(self.repository, root), rows_in(self.repository, shows)
        check(f"{name}: what differs", letters_of(lines, *rows), letters_in(self.repository, root, shows))

    def check_tidied(self, name: str, before: Shown) -> None:
        """No file that was given up is left to be tidied away: what is, has a number that no entry has."""
        files = self.place.files()
        orphans = [number for number in files if number not in before.numbers | {0, 1}]
        done = finished([MOUNTD, "tidy", "--overlay", self.place.overlay], capture_output=True)
        size = sum(len(files.pop(number)) for number in orphans)
        check(f"{name}: tidied", done.stdout, b"removed %d files, %d bytes\n" % (len(orphans), size))
        check(f"{name}: what is left", self.place.files() == files, True)
        self.check_same(f"{name}, tidied", before)

    # ---- the tests

    def test_what_it_shows(self) -> None:
        """Nothing but directories is the overlay's own on the tree that it shows; then all of that comes from there."""
        tree = self.changed()
        to = self.taken()
        wanted = self.check_moved("what it shows", to, tree)
        check("what goes", (len(wanted.let_go), wanted.removed), (6, set(wanted.let_go)))
        left = {number for number, data in self.place.files().items() if data.startswith(FILE)}
        check("but for the state no file stays", left, {0})
        check("what differs", told(self.place), (0, [b"A dir /nothing"], b""))
        files = self.place.files()
        check("once more", (dematerialise(self.place, to), self.place.files()), (DONE, files))
        again = [("write", ((b"new",), 4, b"!")), ("unlink", ((b"made", b"below", b"file"),)),
                 ("rename", ((b"dir", b"moved"), (b"many",)))]
        check_session("changed again", self.place, replied(tree, again))
        self.check_moved("back", self.commit.root, tree)

    def test_what_differs(self) -> None:
        """Another content, another mode, a link, another sort, and nothing at a file's path: it stays as it is."""
        tree = self.changed()
        nodes = dict(tree.nodes)
        nodes[(b"new",)] = ("file", False, b"other bytes")
        nodes[(b"plain.txt",)] = ("file", False, b"plain\n")
        nodes[(b"empty",)] = ("link", b"no more")
        nodes[(b"dir", b"link")] = ("file", False, b"a")
        drop(nodes, (b"made", b"below"))
        nodes[(b"made", b"below")] = ("file", False, b"")
        del nodes[(b"page.bin",)]
        wanted = self.check_moved("what differs", tree_of(self.repository, nodes), tree)
        check("one goes", len(wanted.let_go), 1)

    def test_random(self) -> None:
        """Several lives of overlays, each of which stands then on the tree that it shows, on one that is like it, or on
        the commit's."""
        generator = random.Random(SEED)
        for turn in range(TURNS):
            self.place = Place(self.commit.root, self.repository, self.folder / f"turn {turn}", "--git")
            self.trees = Trees(self.commit)
            tree = WholeTree(dict(self.commit.nodes))
            requests = RandomRequests(generator, tree, NAMES, MOST_NODES)
            for life in range(LIVES):
                name = f"turn {turn}, life {life}"
                asked = [requests.one() for _ in range(REQUESTS_IN_A_LIFE)]
                check_session(name, self.place, replied(tree, asked),
                              numbers=known_numbers(self.place, self.trees))
                self.check_moved(name, self.some_tree(generator, tree), tree)

    def some_tree(self, generator: random.Random, tree: WholeTree) -> str:
        chosen = generator.randrange(4)
        if chosen < 2:
            return self.taken()
        return tree_of(self.repository, altered(generator, tree.nodes)) if chosen == 2 else self.commit.root

    def test_unrooted(self) -> None:
        """If nothing was changed, nothing is, and no object is asked for."""
        check_session("looks", self.place, [(b"kind /d0/d1", b"kind dir"), (b"kind /many/1", b"kind file")])
        files = self.place.files()
        check("numbers were saved", has_numbers(files[1]), True)
        to = tree_of(self.repository, {(b"a",): ("file", False, b"")})
        check("nothing to do", dematerialise(self.place, to, "--objects", self.folder / "nowhere"), DONE)
        check("nothing is done", self.place.files(), files)
        check_session("it stands where it stood", self.place, [(b"kind /many/1", b"kind file")])
        fresh = Place(self.commit.root, self.folder, self.folder / "fresh")
        fresh.overlay.mkdir()
        check("no files", (dematerialise(fresh, to), fresh.files()), (DONE, {}))

    def test_rescanned(self) -> None:
        """A session on the other tree that is killed is rescanned over it."""
        tree = self.changed()
        to = self.taken()
        self.check_moved("before", to, tree)
        with watched(self.place.start()) as session:
            wants, by = pipes(session)
            wants.write(b"mkdir /later\n")
            check("a change", by.readline(), b"ok\n")
            session.kill()
            session.communicate()
        tree.reply("mkdir", (b"later",))
        check("killed", dematerialise(self.place, to), (3, b"", b"mountd: open NotClean\n"))
        check_session("rescanned", self.place, replied(tree, whole(tree)), RESCAN)
        self.check_moved("after it", to, tree)

    def test_objects(self) -> None:
        """The objects that are asked for are those that are compared, and trees beside own directories. If one of
        them is lost, or has other bytes, what is shown is the same, on the old tree."""
        self.changed()
        to = self.taken()
        self.trees.stand_on(Commit(self.repository, to))
        before = Shown(self.trees, self.place.files())
        wanted = Wanted(self.repository, self.place.files(), to)
        folder = self.folder / "needed"
        objects = put_objects(self.repository, wanted.needed, folder)
        first, closed = self.place, self.folder / "copy"
        for number, (object_id, path) in enumerate(sorted(objects.items())):
            content = path.read_bytes()
            for name, bad in [("lost", None), ("other bytes", content[:-1] + bytes([content[-1] ^ 1])), ("cut", b"")]:
                self.place = copied(first, closed)
                path.unlink() if bad is None else path.write_bytes(bad)
                ended = dematerialise(self.place, to, "--objects", folder)
                check(f"object {number}, {name}", ended, OF_AN_OBJECT)
                check(f"object {number}, {name}: on what it stands", state_of(self.place.files()[0])[0], first.root)
                self.check_same(f"object {number}, {name}", before)
                path.write_bytes(content)
            check(f"object {number} is there again", dematerialise(self.place, to, "--objects", folder), DONE)
            check(f"object {number} is there again: the files", self.place.files() == wanted.files, True)

    def test_sources(self) -> None:
        """The same from a folder, a repository, a server, and a repository without objects beside a server, which is
        asked for each object once."""
        self.changed()
        to = self.taken()
        wanted = Wanted(self.repository, self.place.files(), to)
        folder, bare = self.folder / "needed", self.folder / "bare"
        put_objects(self.repository, wanted.needed, folder)
        git(self.folder, "init", "-q", "--bare", str(bare))
        beside: list[list[object]] = [[], ["--git", bare]]
        first = self.place
        for more in beside:
            self.place = copied(first, self.folder / "copy")
            with listening([GIT_OBJECTS, "--log", self.repository], stderr=subprocess.PIPE) as (server, address):
                check(f"a server {more}", dematerialise(self.place, to, *more, "--remote", address), DONE)
                server.terminate()
                _, _, log = ending_of(server)
            asked = [line.split()[2].decode() for line in log.splitlines() if line.startswith(b"git-objects: get ")]
            check(f"a server {more}: what is asked for", sorted(asked), sorted(wanted.needed))
            check(f"a server {more}: the files", self.place.files() == wanted.files, True)
        for option, objects in [("--objects", folder), ("--git", self.repository)]:
            self.place = copied(first, self.folder / "copy")
            check(option, dematerialise(self.place, to, option, objects), DONE)
            check(f"{option}: the files", self.place.files() == wanted.files, True)

    @unittest.skipUnless(can_watch(), "no program may be watched here")
    def test_cut_off(self) -> None:
        """A run is killed each time that it has waited for the disk or removed a file, and the power is lost then: what
        is shown is the same, on one of the two trees, and the next run does the rest."""
        self.changed()
        to = self.taken()
        self.trees.stand_on(Commit(self.repository, to))
        before = Shown(self.trees, self.place.files())
        wanted = Wanted(self.repository, self.place.files(), to)
        first, generator, record = self.place, random.Random(SEED), self.folder / "record"
        for count in itertools.count(1):
            self.place = copied(first, self.folder / "copy")
            status = cut_off(self.place, to, record, count)
            kept = kept_in(record)
            for what, left in losses(kept, self.place.overlay, generator) if kept.names else []:
                self.check_left(f"cut off {count}: {what}", left, before, (first.root, to))
            self.check_same(f"cut off {count}", before)
            self.place.root = state_of(self.place.files()[0])[0]
            check(f"cut off {count}: on what it stands", self.place.root in (first.root, to), True)
            check(f"cut off {count}: the rest", dematerialise(self.place, to), DONE)
            check(f"cut off {count}: the files", self.place.files() == wanted.files, True)
            if status is not None:
                break
        check("it ends well, and the disk has all", (status, files_of(kept)), (0, wanted.files))
        check(f"its steps ({count})", count > 10 + len(wanted.removed), True)

    def test_left_over(self) -> None:
        """Files that a run gave up and didn't remove are read by nobody, whatever becomes of their entries, and go with
        the next run."""
        tree = self.changed()
        to = self.taken()
        wanted = self.check_moved("without them", to, tree)
        for number in wanted.removed:
            (self.place.overlay / str(number)).write_bytes(b"left over")
        check_session("they are there", self.place, replied(tree, whole(tree)))
        requests = [("write", ((b"new",), 4, b"!")), ("unlink", ((b"page.bin",),)), ("setexec", ((b"empty",), True)),
                    ("rename", ((b"dir", b"a"), (b"made", b"a")))]
        check_session("changes", self.place, replied(tree, requests))
        wanted = self.check_moved("with them", to, tree)
        check("what goes", (wanted.let_go, len(wanted.removed)), ({}, 4))

    def check_left(self, name: str, left: dict[str, bytes], before: Shown, roots: tuple[str, str]) -> None:
        """These files show the same, on one of two trees."""
        files = {int(file): content for file, content in left.items() if file.isdigit()}
        shown = as_described(name, Shown, self.trees, files)
        check(f"{name}: what is shown", shown and shown.nodes == before.nodes, True)
        check(f"{name}: each number", shown and shown.places == before.places, True)
        check(f"{name}: on what it stands", state_of(files[0])[0] in roots, True)

    def test_refused(self) -> None:
        """An overlay that is open, on another tree, damaged, or not there; and a repository that isn't."""
        to = self.commit.root
        nowhere = Place(self.commit.root, self.repository, self.folder / "nowhere", "--git")
        check("none", dematerialise(nowhere, to), (3, b"", b"mountd: open Device\n"))
        check("none is made", nowhere.overlay.exists(), False)
        self.changed()
        files = self.place.files()
        other = Place("0" * 40, self.repository, self.place.overlay, "--git")
        check("another tree", dematerialise(other, to), OTHER_ROOT)
        with watched(self.place.start()) as session:
            wants, by = pipes(session)
            wants.write(b"kind /\n")
            by.readline()
            check("open", dematerialise(self.place, to), (3, b"", b"mountd: open Locked\n"))
            session.communicate()
        check("no repository", dematerialise(self.place, to, "--git", self.folder), (3, b"", b"mountd: open Missing\n"))
        (self.place.overlay / "0").write_bytes(files[0][:70])
        check("a cut state", dematerialise(self.place, to), (3, b"", b"mountd: open Damaged\n"))
        (self.place.overlay / "0").write_bytes(files[0])
        check("no tree there", dematerialise(self.place, "0" * 40), OF_AN_OBJECT)
        check("the files", self.place.files(), files)

    def test_command_line(self) -> None:
        """A tree that is none is reported once the root and the objects are ones."""
        refused = b"mountd: --%s takes 40 lower-case hexadecimal digits\n"
        check("no tree", dematerialise(self.place, "HEAD"), (2, b"", refused % b"tree"))
        other = Place("HEAD", self.repository, self.place.overlay, "--git")
        check("no root", dematerialise(other, "HEAD"), (2, b"", refused % b"root"))
        source = b"mountd: dematerialise takes one of --objects and --remote\n"
        both = ("--objects", self.objects, "--remote", "/a")
        check("two sources", dematerialise(self.place, "HEAD", *both), (2, b"", source))

    def test_damaged_files(self) -> None:
        """What can't be read stays as it is; what is beside it goes."""
        self.changed()
        to = self.taken()
        files = self.place.files()
        contents = sorted(number for number, data in files.items() if number and data.startswith(FILE))
        made = next(entry.number for entry in entries_of(files[1]) if entry.name == b"made")
        below = next(entry.number for entry in entries_of(files[made]) if entry.name == b"below")
        inside = {entry.number for entry in entries_of(files[below])}
        cut, gone, *others = [number for number in contents if number not in inside]
        for number in (cut, below):
            (self.place.overlay / str(number)).write_bytes(files[number][:-1])
        (self.place.overlay / str(gone)).unlink()
        wanted = Wanted(self.repository, self.place.files(), to)
        check("what goes", (sorted(wanted.let_go), sorted(wanted.removed)), (others, others))
        check("how it ends", dematerialise(self.place, to), DONE)
        check("what is stored", self.place.files() == wanted.files, True)

    def test_number_twice(self) -> None:
        """A file stays if an own entry has its number, though another entry of that number reads an object."""
        content = b"own\n"
        rows = [entry_bytes(PLAIN, OBJECT, 2, b"a", bytes.fromhex(blob_id(content))), entry_bytes(PLAIN, OWN, 2, b"b")]
        self.place.overlay.mkdir()
        written = {0: state_bytes(self.commit.root, 3), 1: file_bytes(DIRECTORY, directory_body(*rows)),
                   2: file_bytes(FILE, content)}
        for number, data in written.items():
            (self.place.overlay / str(number)).write_bytes(data)
        check("how it ends", dematerialise(self.place, self.commit.root), DONE)
        check("the files", self.place.files(), written)

    def test_old_version(self) -> None:
        """Files of version 1 go too, and what is stored again has version 2."""
        self.place = Place(SAMPLE_ROOT, SAMPLE_OBJECTS, self.folder / "old")
        shutil.copytree(EXAMPLES / "overlay-version-1", self.place.overlay)
        check("the files", self.place.files(), old_files())
        to = tree_of(self.repository, old_nodes())
        wanted = Wanted(self.repository, old_files(), to)
        check("some go", len(wanted.let_go) > 1, True)
        check("how it ends", dematerialise(self.place, to, "--git", self.repository), DONE)
        check("what is stored", self.place.files() == wanted.files, True)

    def test_too_deep(self) -> None:
        """Own directories up to 1,024 levels down are looked at, and one below them is a fault: on the old tree if the
        commit has it too, and else on the new one."""
        content, name = b"deep\n", (*[b"d"] * 1_024, b"f")
        same = tree_of(self.repository, {name: ("file", False, content)})
        deeper = tree_of(self.repository, {(b"d", *name): ("file", False, content)})
        old = self.commit.root
        for levels, to, ended, left in [(1_024, same, DONE, (same, False)), (1_025, deeper, TOO_DEEP, (old, True)),
                                        (1_024, old, DONE, (old, True)), (1_025, same, TOO_DEEP, (same, True))]:
            place = Place(old, self.repository, self.folder / f"{levels} {to}", "--git")
            place.overlay.mkdir()
            numbers = [1, *range(2, levels + 3)]
            for number, inside in zip(numbers[:-2], numbers[1:]):
                (place.overlay / str(number)).write_bytes(folder_bytes(FOLDER, inside, b"d"))
            (place.overlay / str(numbers[-2])).write_bytes(folder_bytes(PLAIN, numbers[-1], b"f"))
            (place.overlay / str(numbers[-1])).write_bytes(file_bytes(FILE, content))
            (place.overlay / "0").write_bytes(state_bytes(old, levels + 3))
            check(f"{levels} levels, {to}", dematerialise(place, to), ended)
            files = place.files()
            check(f"{levels} levels, {to}: what is left", (state_of(files[0])[0], numbers[-1] in files), left)


def folder_bytes(kind: int, number: int, name: bytes) -> bytes:
    """An own directory of one own entry."""
    return file_bytes(DIRECTORY, directory_body(entry_bytes(kind, OWN, number, name)))


def files_of(kept: Kept) -> Files:
    """The numbered files that the disk has."""
    return {int(name): kept.bytes[file] for name, file in kept.names.items() if name.isdigit()}
