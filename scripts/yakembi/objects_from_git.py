"""Writes the objects of one Git commit into a directory that `mountd --objects` serves.

Each tree, blob and link of the commit becomes the file DIR/xx/yyyy.., framed and uncompressed, where xxyyyy.. is its
id. A submodule's commit is not written: it shows as an empty directory. An object that is in DIR already is left
alone if its file is as long as it says; --verify reads it whole and compares its digest. What is cut or damaged is
written again. REV may also name a tree, as HEAD:folder. The last line printed is the id of the tree, which `mountd
--root` takes.
"""

import argparse
import hashlib
import os
import signal
import sys
from collections.abc import Iterable, Iterator

from yakembi.git import FOLDERS, MODES, SUBMODULE, Refusal, Repository, entries, framed

BESIDE = "objects-from-git."
LONGEST_HEADER = 32


class ObjectFolder:
    """The folder of objects. A file is written beside its place, to the disk, and renamed, so that none is ever cut."""

    def __init__(self, path: str, verify: bool) -> None:
        self.path = path
        self.verify = verify
        self.beside = os.path.join(path, BESIDE + str(os.getpid()))
        os.makedirs(path, exist_ok=True)
        self.remove_leftovers()

    def remove_leftovers(self) -> None:
        """Removes what runs that were killed left beside the objects."""
        for name in os.listdir(self.path):
            process = name.removeprefix(BESIDE)
            if name.startswith(BESIDE) and process.isdigit() and not is_running(int(process)):
                os.unlink(os.path.join(self.path, name))

    def place(self, object_id: str) -> str:
        return os.path.join(self.path, object_id[:2], object_id[2:])

    def has(self, object_id: str) -> bool:
        """Whether the object is there, whole."""
        place = self.place(object_id)
        if not os.path.lexists(place):
            return False
        if os.path.islink(place) or not os.path.isfile(place):
            raise Refusal(f"{place} stands in an object's place and is no plain file")
        with open(place, "rb") as file:
            header, mark, _ = file.read(LONGEST_HEADER).partition(b"\0")
            length = header.rpartition(b" ")[2]
            if not mark or not length.isdigit() or os.fstat(file.fileno()).st_size != len(header) + 1 + int(length):
                return False
            if self.verify:
                file.seek(0)
                return hashlib.file_digest(file, "sha1").hexdigest() == object_id
        return True

    def put(self, object_id: str, word: str, length: int, pieces: Iterable[bytes]) -> None:
        os.makedirs(os.path.dirname(self.place(object_id)), exist_ok=True)
        digest = hashlib.sha1()
        with open(self.beside, "wb") as file:
            for piece in framed(word, length, pieces):
                digest.update(piece)
                file.write(piece)
            file.flush()
            os.fsync(file.fileno())
        if digest.hexdigest() != object_id:
            raise Refusal(f"the repository's object {object_id} is damaged: its digest is {digest.hexdigest()}")
        os.rename(self.beside, self.place(object_id))

    def clean(self) -> None:
        if os.path.exists(self.beside):
            os.unlink(self.beside)


def is_running(process: int) -> bool:
    try:
        os.kill(process, 0)
    except ProcessLookupError:
        return False
    except PermissionError:
        pass
    return True


class Progress:
    """A count on standard error, if that is a terminal."""

    def __init__(self) -> None:
        self.shown = sys.stderr.isatty()
        self.seen = 0

    def count(self) -> None:
        self.seen += 1
        if self.shown and self.seen % 100 == 0:
            print(f"\r{self.seen} objects", end="", file=sys.stderr, flush=True)

    def end(self) -> None:
        if self.shown:
            print(f"\r{self.seen} objects", file=sys.stderr)


class Export:
    """One walk over a commit's objects, each written once."""

    def __init__(self, repository: Repository, folder: ObjectFolder) -> None:
        self.objects = repository.objects()
        self.folder = folder
        self.met: set[str] = set()
        self.waiting: list[tuple[str, bool]] = []
        self.unusual: list[tuple[bytes, bytes, str]] = []

    def meet(self, object_id: str, is_tree: bool) -> None:
        if object_id not in self.met:
            self.met.add(object_id)
            self.waiting.append((object_id, is_tree))

    def ask(self, object_id: str) -> tuple[str, int, Iterator[bytes]]:
        answer = self.objects.ask(object_id)
        if answer is None:
            raise Refusal(f"the repository lacks the object {object_id}")
        word, length = answer
        return word, length, self.objects.pieces(length)

    def tree(self, object_id: str) -> None:
        word, length, pieces = self.ask(object_id)
        body = b"".join(pieces)
        for mode, name, below in entries(object_id, body):
            if mode not in MODES:
                self.unusual.append((mode, name, object_id))
            if mode != SUBMODULE:
                self.meet(below, mode in FOLDERS)
        if not self.folder.has(object_id):
            self.folder.put(object_id, word, length, [body])

    def blob(self, object_id: str) -> None:
        if not self.folder.has(object_id):
            self.folder.put(object_id, *self.ask(object_id))

    def run(self, root: str) -> None:
        progress = Progress()
        self.meet(root, True)
        try:
            while self.waiting:
                object_id, is_tree = self.waiting.pop()
                if is_tree:
                    self.tree(object_id)
                else:
                    self.blob(object_id)
                progress.count()
        finally:
            self.objects.end()
            self.folder.clean()
        progress.end()

    def warn(self) -> None:
        """Names what mountd will refuse, though Git once wrote it."""
        for mode, name, tree in self.unusual[:10]:
            print(f"objects-from-git: warning: {name!r} in the tree {tree} has the mode {mode.decode()}, which mountd "
                  "refuses as Malformed", file=sys.stderr)
        if len(self.unusual) > 10:
            more = len(self.unusual) - 10
            print(f"objects-from-git: warning: {more} more entries have such modes", file=sys.stderr)


def export(words: argparse.Namespace) -> str:
    repository = Repository(words.repository)
    root = repository.tree_of(words.revision)
    run = Export(repository, ObjectFolder(words.folder, words.verify))
    run.run(root)
    run.warn()
    return root


def stop(number: int, _frame: object) -> None:
    sys.exit(128 + number)


def parser() -> argparse.ArgumentParser:
    found = argparse.ArgumentParser(prog="objects-from-git", description=__doc__,
                                    formatter_class=argparse.RawDescriptionHelpFormatter)
    found.add_argument("--verify", action="store_true", help="read each object that is there, and compare its digest")
    found.add_argument("repository", metavar="REPO")
    found.add_argument("revision", metavar="REV")
    found.add_argument("folder", metavar="DIR",
                       help="the directory of objects (write -- before a name that begins with -)")
    return found


def main() -> int:
    words = parser().parse_args()
    signal.signal(signal.SIGTERM, stop)
    try:
        print(export(words))
    except (Refusal, OSError) as problem:
        print(f"objects-from-git: {problem}", file=sys.stderr)
        return 1
    except KeyboardInterrupt:
        return 130
    return 0
