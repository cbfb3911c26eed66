"""The file `.git` at the top of a mounted folder, by which Git, and programs that run Git, find the repository by
themselves.

As in any linked working tree it names what the repository has for it among its own, which is a link to the overlay's
folder `git`. What Git needs besides stands there in `settings`, which the repository's own settings include for this
one of its working trees. What the file says stands there in `dot-git`, as long as it is shown. It is in no commit, and
no change is listed of it.
"""

import contextlib
import errno
import hashlib
import os
import pathlib
import re
from collections.abc import Callable, Iterator

from yakembi import kernel
from yakembi.control import Fields, said_of, tell
from yakembi.git import DOT_GIT, SUBMODULE, Refusal, Repository, entries, framed
from yakembi.git_folder import LINK, SETTINGS, GitFolder, folder_for_git, include, tell_of_left

# What it says before it names the folder (gitrepository-layout(5)), and where such a folder of ours lies. One that was
# never written whole is empty, and over a longer text stand line feeds.
OURS = re.compile(rb"(?:gitdir: .*/worktrees/" + LINK.encode() + rb"[0-9a-f]+\n+)?", re.DOTALL)
# No path of it is this long.
LONGEST = 1 << 13


def make(about: Fields, top: str) -> None:
    """Makes it, or makes it right, and all that it leads to. A Refusal, if the folder has another `.git`, or the
    repository can't be written, or nothing is mounted any more."""
    if "\n" in about["overlay"]:
        # Each setting of Git's is named in one line.
        raise Refusal("the path of the overlay has a line feed, so no setting of Git's can name it: move the overlay")
    repository, folder = Repository(about["repository"]), folder_for_git(about, top)
    with mounted(top) as place, folder.lock():
        before = text_at(place)
        if before is not None and not OURS.fullmatch(before):
            raise Refusal(f"{os.path.join(top, DOT_GIT)} is there already, and mount-git didn't make it")
        if folder.linked() != folder.link():
            raise Refusal(f"{folder.link()} can't be made")
        folder.put("settings", settings_text(SETTINGS))
        include(repository.common_folder, folder.path)
        text = b"gitdir: " + os.fsencode(folder.link()) + b"\n"
        folder.put(folder.dot_git_text.name, text)
        write(place, before, text)


def renew(folder: GitFolder, facts: Callable[[], Fields], showing: kernel.Showing) -> None:
    """At a mount's begin: if the folder was left with it, it is made right for this mount. If it can't be, a line
    says so."""
    if not folder.dot_git_text.exists():
        return
    try:
        with mounted(showing.place) as place:
            before = text_at(place)
        if before is None or not OURS.fullmatch(before):
            folder.dot_git_text.unlink()
            return
        about = facts()
        tell_of_left(about)
        make(about, showing.place)
    except (Refusal, OSError) as problem:
        if not showing.is_ended:
            tell(f"{os.path.join(showing.place, DOT_GIT)} isn't made right for this mount: {said_of(problem)}")


# ---- in the folder


@contextlib.contextmanager
def mounted(top: str) -> Iterator[int]:
    """The folder, of which nothing is found or made by its path: once it is unmounted another one lies there."""
    place = os.open(top, os.O_RDONLY | os.O_DIRECTORY | os.O_CLOEXEC)
    try:
        if os.minor(os.fstat(place).st_dev) != kernel.connection_of(top):
            raise Refusal(f"{top} isn't mounted any more")
        yield place
    finally:
        os.close(place)


def text_at(place: int) -> bytes | None:
    """What the file says; None if there is none. What is no file says nothing that is ours."""
    try:
        with open(os.open(DOT_GIT, os.O_RDONLY | os.O_NOFOLLOW | os.O_CLOEXEC, dir_fd=place), "rb") as file:
            return file.read(LONGEST)
    except FileNotFoundError:
        return None
    except OSError as problem:
        if problem.errno in (errno.ELOOP, errno.EISDIR):
            return b"no file"
        raise


def write(place: int, before: bytes | None, text: bytes) -> None:
    """Writes it in one piece, over the old text as it is: the old one or the new one is stored."""
    how = os.O_CREAT | os.O_EXCL if before is None else 0
    whole = text.ljust(len(before or b""), b"\n")
    if whole != before:
        with open(os.open(DOT_GIT, os.O_WRONLY | os.O_NOFOLLOW | os.O_CLOEXEC | how, dir_fd=place), "wb") as file:
            file.write(whole)


def settings_text(settings: dict[str, str]) -> bytes:
    """Settings as a file that Git reads (git-config(1), syntax)."""
    lines = ["# By mount-git, which writes it anew."]
    for name, value in settings.items():
        section, _, key = name.rpartition(".")
        escaped = value.replace("\\", "\\\\").replace('"', '\\"').replace("\n", "\\n")
        lines += [f"[{section}]", f'\t{key} = "{escaped}"']
    return os.fsencode("\n".join(lines) + "\n")


# ---- in no commit


def taken_out(objects: pathlib.Path, tree: str) -> str:
    """The tree without our `.git` at its top, if it has that. The framed objects are those of the new one then."""
    old = place_of(objects, tree)
    if not old.exists():
        # Nothing at the top is the mount's own.
        return tree
    found = list(entries(tree, old.read_bytes().partition(b"\0")[2]))
    rows = [mode + b" " + name + b"\0" + bytes.fromhex(object_id) for mode, name, object_id in found
            if name != DOT_GIT.encode() or mode == SUBMODULE or not is_ours(place_of(objects, object_id))]
    if len(rows) == len(found):
        return tree
    whole = b"".join(framed("tree", sum(map(len, rows)), rows))
    new = hashlib.sha1(whole).hexdigest()
    place_of(objects, new).parent.mkdir(exist_ok=True)
    place_of(objects, new).write_bytes(whole)
    old.unlink()
    return new


def is_ours(blob: pathlib.Path) -> bool:
    """Whether a framed object, if it is there, is what a file of ours says."""
    with contextlib.suppress(FileNotFoundError), open(blob, "rb") as file:
        head, _, text = file.read(LONGEST).partition(b"\0")
        return head.startswith(b"blob ") and OURS.fullmatch(text) is not None
    return False


def place_of(objects: pathlib.Path, name: str) -> pathlib.Path:
    return objects / name[:2] / name[2:]
