"""Refs by which a repository keeps the tree that an overlay stands on, and the commit that the next one is put on,
though no branch has them any more: the overlay has changes alone, and `git gc` would take what they were made to. An
overlay that was dematerialised has entries on objects of each tree that it ever stood on, so these are kept too.

They are named by the overlay's path and its own name, which no other overlay has that comes to lie there. A link of
that name, in the repository's directory `mount-git`, leads to the overlay: if it leads nowhere for long, they go. A
repository that can't be written keeps nothing more.
"""

import contextlib
import pathlib
import time
from collections.abc import Sequence

from yakembi.control import name_for, tell
from yakembi.git import Refusal, Repository, said
from yakembi.overlay import Noted, OverlayFolder
from yakembi.partial_clone import known_here

REFS = "refs/mount-git/"
TREE, COMMIT, EACH_TREE = "tree", "commit", "trees"
LINKS = "mount-git"
# How the name of a mark ends that says since when a link leads nowhere, and how long such a link stays, as when the
# overlay lies on a disk that isn't there just now. Once it has stayed for this long a second mark says so, and the link
# goes some days after that one: a clock that was wrong for one mount sets one mark alone.
MISSING, STILL_MISSING = ".missing", ".missing-still"
SECONDS_KEPT, SECONDS_STILL_KEPT = 90 * 86_400, 7 * 86_400


def keep(repository: Repository, own_name: pathlib.Path, noted: Noted) -> None:
    """The repository keeps what is noted from now on. The overlay's own name lies in it."""
    with contextlib.suppress(OSError):
        link = lead(repository.common_folder, own_name)
        put(repository, link.name, TREE, noted.tree)
        keep_earlier(repository, link.name)
        keep_commit(repository, own_name, noted.commit)
        for other in link.parent.iterdir():
            if other.is_symlink() and is_forgotten(other):
                let_go_of(repository, other)


def keep_commit(repository: Repository, own_name: pathlib.Path, commit: str | None) -> None:
    link = link_to(repository.common_folder, own_name)
    if commit is not None and link.is_symlink():
        put(repository, link.name, COMMIT, commit)


def keep_trees(repository: Repository, own_name: pathlib.Path, trees: Sequence[str]) -> None:
    """The repository keeps these trees as long as the overlay is there, also once that stands on another one. A
    Refusal, or an OSError, if it can't be written."""
    link = lead(repository.common_folder, own_name)
    for tree in trees:
        put_or_refuse(repository, link.name, f"{EACH_TREE}/{tree}", tree)


def keep_earlier(repository: Repository, name: str) -> None:
    """An overlay that was moved, copied or has another own name now keeps each tree that it kept by another one."""
    place, _, own = name.rpartition("-")
    # One that lost its folder `git`, and so has another own name, lies still at its place.
    patterns = (f"{REFS}*-{own}/{EACH_TREE}/*", f"{REFS}{place}-*/{EACH_TREE}/*")
    rows = repository.git("for-each-ref", "--format=%(refname)", *patterns).stdout.decode()
    kept = [row.removeprefix(REFS).split("/") for row in rows.splitlines()]
    for tree in {tree for _, _, tree in kept} - {tree for by, _, tree in kept if by == name}:
        put(repository, name, f"{EACH_TREE}/{tree}", tree)


def put(repository: Repository, name: str, kind: str, object_id: str) -> None:
    """The repository keeps the object from now on; a line says so if it doesn't."""
    try:
        put_or_refuse(repository, name, kind, object_id)
    except Refusal as problem:
        tell(f"git gc may take what the overlay stands on: {problem}")


def put_or_refuse(repository: Repository, name: str, kind: str, object_id: str) -> None:
    """The same, with a Refusal if it doesn't."""
    if object_id not in known_here(repository, {object_id}):
        # A partial clone keeps by itself what it is given, and another repository has nothing of it.
        return
    done = repository.git("-c", "core.logAllRefUpdates=false", "update-ref", f"{REFS}{name}/{kind}", object_id)
    if done.returncode != 0:
        raise Refusal(f"{repository.common_folder} can't keep {object_id}{said(done.stderr)}")


def tell_of_lacked(repository: Repository, overlay: OverlayFolder, tree: str) -> None:
    """Names the trees that the repository lacks on which the overlay stood before that one, as a clone made anew those
    that nobody pushed. What a partial clone lacks its remote may have."""
    before = overlay.stood_on() - {tree}
    if before and not repository.remotes() and (lacked := sorted(before - repository.known(before))):
        tell(f"the repository lacks what the overlay stood on before ({', '.join(lacked)}): "
             "what comes from there alone can't be read, and all else is shown")


def let_go(repository: Repository, own_name: pathlib.Path) -> None:
    """The overlay goes, and nobody needs for it what was kept."""
    with contextlib.suppress(OSError):
        let_go_of(repository, link_to(repository.common_folder, own_name))


def let_go_of(repository: Repository, link: pathlib.Path) -> None:
    refs = repository.git("for-each-ref", "--format=%(refname)", f"{REFS}{link.name}/")
    names = refs.stdout.decode().splitlines()
    if not any([refs.returncode, *(repository.git("update-ref", "-d", name).returncode for name in names)]):
        forget(link)


def lead(common: str, own_name: pathlib.Path) -> pathlib.Path:
    """The repository's link to the overlay, made if it isn't there."""
    link = link_to(common, own_name)
    link.parent.mkdir(exist_ok=True)
    if not link.is_symlink():
        link.symlink_to(own_name)
    return link


def link_to(common: str, own_name: pathlib.Path) -> pathlib.Path:
    name = f"{name_for(own_name.parent)[:16]}-{own_name.name.rpartition('-')[2]}"
    return pathlib.Path(common, LINKS, name)


# ---- links to overlays, these and those among the working trees


def is_forgotten(link: pathlib.Path) -> bool:
    """Whether a link of the repository's has led nowhere for long."""
    with contextlib.suppress(OSError):
        if leads_somewhere(link):
            unmark(link)
        else:
            return is_older(mark_of(link, MISSING), SECONDS_KEPT) and \
                is_older(mark_of(link, STILL_MISSING), SECONDS_STILL_KEPT)
    return False


def is_older(mark: pathlib.Path, seconds: int) -> bool:
    """Whether the mark was made this long ago; one that isn't there is made now."""
    if mark.exists():
        return mark.stat().st_mtime < time.time() - seconds
    mark.parent.mkdir(exist_ok=True)
    mark.touch()
    return False


def forget(link: pathlib.Path) -> None:
    link.unlink(missing_ok=True)
    unmark(link)


def unmark(link: pathlib.Path) -> None:
    for ending in (MISSING, STILL_MISSING):
        mark_of(link, ending).unlink(missing_ok=True)


def mark_of(link: pathlib.Path, ending: str) -> pathlib.Path:
    return link.parent.parent / LINKS / f"{link.name}{ending}"


def leads_somewhere(link: pathlib.Path) -> bool:
    """Whether something is there, be it something that we may not look at."""
    try:
        link.stat()
    except (FileNotFoundError, NotADirectoryError):
        return False
    except OSError:
        return True
    return True
