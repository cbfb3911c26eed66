"""A commit as Git has it, runs of the program over an overlay's directory, and what the files of a closed one show."""

import pathlib
import subprocess
import tempfile
from collections.abc import Callable, Iterable, Sequence
from typing import Any, ClassVar, TypeVar

from cases import Case
from checks import check, finished, git, make_repository, whole_tree
from helpers.running import Ending, Process
from programs import EXPORTER, MOUNTD
from random_requests import line_of
from yakembi.overlay_files import CommitTree, Damaged, Shown, state_of, stored
from yakembi.session_lines import read_line
from yakembi.tree_model import Node, Nodes, Numbers, Path, Values, WholeTree, number_told, without_number

# By it what a kill left is opened.
RESCAN = "--rescan"
CLOSED = (0, b"")
Read = TypeVar("Read")


# ---- the commit, as Git has it


class Commit:
    """A commit's whole tree, or that of this id, and what each of its objects is."""

    def __init__(self, repository: pathlib.Path, tree: str = "HEAD") -> None:
        self.root = git(repository, "rev-parse", f"{tree}^{{tree}}")
        rows = whole_tree(repository, tree)
        self.contents = contents_of(repository, {row[1] for row in rows.values() if row[0] in LEAVES})
        self.nodes: Nodes = {(): ("dir", True)}
        self.places: dict[str, Path] = {self.root: ()}
        for path, (mode, object_id) in rows.items():
            names = tuple(path.split(b"/"))
            self.nodes[names] = LEAVES[mode](self.contents[object_id]) if mode in LEAVES else ("dir", True)
            self.places.setdefault(object_id, names)

    def below(self, tree_id: str) -> Nodes:
        """What stands below a directory of that tree object, by the paths from there."""
        at = self.places[tree_id]
        return {path[len(at):]: node for path, node in self.nodes.items() if path[: len(at)] == at and path != at}


LEAVES: dict[bytes, Callable[[bytes], Node]] = {
          b"100644": lambda content: ("file", False, content), b"100755": lambda content: ("file", True, content),
          b"120000": lambda content: ("link", content)}


def make_commit(folder: pathlib.Path, files: dict[str, bytes]) -> tuple[Commit, pathlib.Path]:
    """A commit of these files, the last of which is executable, and of a link; and its objects in a folder."""
    repository = folder / "repository"
    for path, content in files.items():
        (repository / path).parent.mkdir(parents=True, exist_ok=True)
        (repository / path).write_bytes(content)
    (repository / path).chmod(0o755)
    (repository / "link").symlink_to("d/e")
    git(repository, "init", "-q")
    git(repository, "add", "-A")
    git(repository, "commit", "-qm", "files")
    objects = folder / "objects"
    finished([EXPORTER, repository, "HEAD", objects], capture_output=True).check_returncode()
    return Commit(repository), objects


def contents_of(repository: pathlib.Path, ids: Iterable[str]) -> dict[str, bytes]:
    """The contents of objects, each after its line in one output of Git's."""
    wanted = sorted(ids)
    asked = "".join(f"{object_id}\n" for object_id in wanted).encode()
    output = git(repository, "cat-file", "--batch", data=asked, text=False)
    found, start = {}, 0
    for object_id in wanted:
        begin = output.index(b"\n", start) + 1
        end = begin + int(output[start:begin].split()[2])
        found[object_id] = output[begin:end]
        start = end + 1
    return found


# ---- runs of the program


class Place:
    """A commit with its objects, in a folder or with `--git` in a repository, and the directory of an overlay."""

    def __init__(self, root: str, objects: pathlib.Path, overlay: pathlib.Path, option: str = "--objects") -> None:
        self.root = root
        self.objects = objects
        self.overlay = overlay
        self.option = option

    def words(self, *more: str) -> list[str]:
        return [str(MOUNTD), "stdio", "--root", self.root, self.option, str(self.objects),
                "--overlay", str(self.overlay), *more]

    def run(self, lines: Iterable[bytes], *more: str) -> Ending:
        """How a session on these lines ends, and its output."""
        data = b"".join(line + b"\n" for line in lines)
        done = finished(self.words(*more), input=data, capture_output=True)
        return done.returncode, done.stdout, done.stderr

    def start(self) -> Process:
        return subprocess.Popen(self.words(), stdin=subprocess.PIPE, stdout=subprocess.PIPE, stderr=subprocess.PIPE,
                                bufsize=0)

    def files(self) -> dict[int, bytes]:
        return stored(self.overlay)


class OnRepository(Case):
    """A repository with everything, and its objects, for all tests of a class."""

    repository: ClassVar[pathlib.Path]
    commit: ClassVar[Commit]
    objects: ClassVar[pathlib.Path]

    @classmethod
    def setUpClass(cls) -> None:
        super().setUpClass()
        folder = pathlib.Path(cls.enterClassContext(tempfile.TemporaryDirectory()))
        cls.repository = make_repository(folder)
        cls.objects = folder / "objects"
        finished([EXPORTER, cls.repository, "HEAD", cls.objects], capture_output=True).check_returncode()
        cls.commit = Commit(cls.repository)


class WithCommit(Case):
    """One commit of these files, its repository and its objects for all tests of a class."""

    FILES: ClassVar[dict[str, bytes]]
    repository: ClassVar[pathlib.Path]
    commit: ClassVar[Commit]
    objects: ClassVar[pathlib.Path]

    @classmethod
    def setUpClass(cls) -> None:
        super().setUpClass()
        folder = pathlib.Path(cls.enterClassContext(tempfile.TemporaryDirectory()))
        cls.commit, cls.objects = make_commit(folder, cls.FILES)
        cls.repository = folder / "repository"

    def place(self) -> Place:
        """The commit, and the folder of the test's own overlay."""
        return Place(self.commit.root, self.objects, self.folder / "changes")


def check_session(name: str, place: Place, rows: Sequence[tuple[bytes, bytes | None]], *more: str,
                  numbers: Numbers | None = None) -> None:
    """One session: each line has the reply beside it, and the overlay is closed. A `stat` without an inode number there
    tells one that it may: if it isn't said which ones the files have, any that nothing else in the session has."""
    status, output, errors = place.run([line for line, _ in rows], *more)
    check(f"{name} ends well", (status, errors), CLOSED)
    replies = output.split(b"\n")
    check(f"{name}: a reply to each line", (len(replies) - 1, replies[-1]), (len(rows), b""))
    known = numbers if numbers is not None else Numbers()
    for (line, wanted), reply in zip(rows, replies):
        is_numbered = wanted is not None and number_told(wanted) is not None
        check(f"{name}: {line!r:.200}", reply if is_numbered else without_number(reply), wanted)
        if reply == b"ok" or number_told(reply) is not None:
            # No other reply tells a number, or takes one away.
            read = read_line(line)
            is_right = known.follow(read.word, read.fields, reply)
            check(f"{name}: {line!r:.200}: {reply!r:.200}: its number", is_right, True)


def wanted_reply(tree: WholeTree, word: str, fields: Values) -> bytes | None:
    """What the dictionary replies, but for the number of a `stat`."""
    reply = tree.reply(word, *fields)
    return without_number(reply) if reply is not None else None


def replied(tree: WholeTree, requests: Iterable[tuple[str, Values]]) -> list[tuple[bytes, bytes | None]]:
    """The lines of requests and what the dictionary replies."""
    return [(line_of(word, fields), wanted_reply(tree, word, fields)) for word, fields in requests]


def as_described(name: str, read: Callable[..., Read], *words: Any) -> Read | None:
    """What is read of files; None if one isn't as described."""
    try:
        return read(*words)
    except Damaged as damage:
        check(f"{name}: a file", damage.args, "as described")
        return None


def numbers_at(place: Place, commit: CommitTree) -> dict[Path, int]:
    """The numbers that the files of a closed overlay have, by their paths."""
    shown = as_described("numbers", Shown, commit, place.files())
    return shown.places if shown else {}


def known_numbers(place: Place, commit: CommitTree) -> Numbers:
    """The same with the one that is given next, as a session on the overlay begins with them."""
    files = place.files()
    return Numbers(numbers_at(place, commit), state_of(files[0])[1]) if 0 in files else Numbers()


def check_closed(name: str, place: Place, commit: Commit, tree: WholeTree, kills: int = 0) -> int:
    """The files of a closed overlay show that tree, and no number that they name is given again.

    Each kill may have left one file beside them that was not put in its place yet.
    """
    files = place.files()
    shown = as_described(name, Shown, commit, files)
    state = as_described(name, state_of, files.get(0, b""))
    if shown is None or state is None:
        return 0
    root, following = state
    check(f"{name}: the commit", root, commit.root)
    check(f"{name}: the next number is above all", max(shown.numbers, default=1) < following, True)
    check(f"{name}: what the files show", shown.nodes, tree.nodes)
    left = [path.name for path in place.overlay.glob("*.new")]
    check(f"{name}: files that were not put in place: {left}", len(left) <= kills, True)
    return following
