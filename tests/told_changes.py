"""Changes that are listed of an overlay, what Git says of the same two trees, and what it has in a tree."""

import functools
import pathlib
from collections.abc import Iterable, Mapping

from checks import finished, git
from overlays import Place
from programs import MOUNTD
from yakembi.folder_changes import Change, changes_in
from yakembi.overlay_files import DIRECTORY, FOLDER, OWN, entries_of

# Each path that isn't a directory: its mode and its object's id.
Rows = dict[bytes, tuple[bytes, str]]
Letters = dict[bytes, str]
# The files of an overlay, by their numbers.
Files = dict[int, bytes]
PLAIN = {b"100644", b"100755"}
LINK, SUBMODULE = b"120000", b"160000"
# The entries of a directory's file; most files are the same after the next requests.
entries_in = functools.lru_cache(maxsize=4_096)(entries_of)


def rows_in(repository: pathlib.Path, tree: str) -> Rows:
    """What Git lists in a tree and below."""
    rows = {}
    for row in git(repository, "ls-tree", "-rz", tree, text=False).split(b"\0")[:-1]:
        head, path = row.split(b"\t", 1)
        mode, _, object_id = head.split()
        rows[path] = (mode, object_id.decode())
    return rows


def told(place: Place) -> tuple[int | str, list[bytes], bytes]:
    """How `mountd changes` ended, its lines, and what it said on standard error."""
    words = [MOUNTD, "changes", "--root", place.root, "--overlay", place.overlay, place.option, place.objects]
    done = finished(words, capture_output=True)
    return done.returncode, done.stdout.splitlines(), done.stderr


def in_order(found: Iterable[Change]) -> bool:
    """Whether each path stands once, after those of smaller names and before what is below it."""
    paths = [change.path.split(b"/") for change in found]
    return all(one < later for one, later in zip(paths, paths[1:]))


def letter_of(old: tuple[bytes, str] | None, new: tuple[bytes, str] | None) -> str | None:
    """How Git lists that change of a path that isn't a directory."""
    if old is None or new is None:
        return None if old == new else "A" if old is None else "D"
    is_same_sort = old[0] == new[0] or {old[0], new[0]} <= PLAIN
    return None if old == new else "M" if is_same_sort else "T"


def letters_of(lines: Iterable[bytes], old: Rows, new: Rows) -> Letters:
    """The letters of paths that aren't directories. Below what is listed whole, they are those of the two trees; and
    what a snapshot left out isn't in the new one."""
    found = {}
    for change in changes_in(iter(lines)):
        letter = letter_of(old.get(change.path), new.get(change.path))
        if letter:
            # A directory that takes the place of a file, or the other way round, is two changes for Git.
            is_turned = change.letter == "T" and (change.kind == "dir" or change.path not in old)
            is_left_out = change.kind == "submodule" and change.path not in new
            found[change.path] = letter if is_turned or is_left_out else change.letter
        if change.is_whole:
            front = change.path + b"/"
            for path in {path for path in old | new if path.startswith(front)}:
                below = letter_of(old.get(path), new.get(path))
                if below:
                    found[path] = below
    return found


def letters_in(repository: pathlib.Path, old: str, new: str) -> Letters:
    """What `git diff-tree` lists of the two trees."""
    output = git(repository, "diff-tree", "-r", "-z", "--no-renames", "--name-status", old, new, text=False)
    fields = output.split(b"\0")[:-1]
    return {path: letter.decode() for letter, path in zip(fields[::2], fields[1::2])}


def entered(trees: Mapping[bytes, str], files: Files) -> set[str]:
    """Those of a commit's trees, by their paths with a slash at the end, that stand at the paths of the overlay's own
    directories."""
    found = set()
    folders = [(b"", 1)] if files.get(1, b"").startswith(DIRECTORY) else []
    while folders:
        front, number = folders.pop()
        if front in trees:
            found.add(trees[front])
        inside = [entry for entry in entries_in(files[number]) if (entry.kind, entry.origin) == (FOLDER, OWN)]
        folders += [(front + entry.name + b"/", entry.number) for entry in inside]
    return found
