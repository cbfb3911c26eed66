"""Takes out of an overlay what the commit has on which its folder stands: files that were committed since they were
changed, or that came from a commit, as by a switch to another branch.

An overlay keeps all that was ever changed, so it grows. This leaves in it what differs from the commit, and directories
that were changed. The folder shows the same, with the same inode numbers; but whatever comes from the commit has this
moment as its time, and a build by times builds all once. Changes are listed against the commit's tree from then on. The
repository keeps the objects by refs of its own. No mount may have the overlay.
"""

import argparse
import contextlib
import math
import os
import subprocess
import time

from yakembi import kept_tree
from yakembi.git import Refusal, Repository
from yakembi.git_folder import GitFolder, Stand, base_in, tell_of_left
from yakembi.overlay import NOTE, Noted, OverlayFolder
from yakembi.partial_clone import known_here
from yakembi.programs import add_mountd, check_text, run_mountd, source_of


def dematerialise(words: argparse.Namespace) -> None:
    repository, path = Repository(os.path.abspath(words.repository)), os.path.abspath(words.overlay)
    check_text(path)
    if not os.path.exists(os.path.join(path, NOTE)):
        raise Refusal(f"{path} isn't the overlay of a mount")
    with contextlib.closing(OverlayFolder(path)) as overlay:
        noted = noted_of_closed(repository, overlay)
        commit = commit_under(repository, GitFolder(path), noted)
        print(f"dematerialised {without_those_of(repository, overlay, noted, commit, words.mountd)}", flush=True)


def noted_of_closed(repository: Repository, overlay: OverlayFolder) -> Noted:
    """What is noted of an overlay that is closed. A Refusal, if it isn't, or stands on a tree of which nothing is
    noted."""
    root, noted = overlay.state_root(), overlay.noted()
    if root is None:
        why = "nothing was changed in it yet" if overlay.is_fresh() else "mount it once more, and end that"
        raise Refusal(f"the overlay {overlay.path} isn't one that a mount has closed: {why}")
    if noted is None or noted.tree != root:
        noted = followed(repository, overlay, root)
    if noted is None:
        raise Refusal(f"the overlay {overlay.path} stands on the tree {root}, and isn't known to stand on a commit: "
                      "mount one that has that tree, and end that")
    if not known_here(repository, {noted.tree}):
        raise overlay.lacked(noted.tree)
    return noted


def followed(repository: Repository, overlay: OverlayFolder, root: str) -> Noted | None:
    """What is to be noted of an overlay whose state says the tree `root`, and its note another one, if that is the
    tree of its commit: it was dematerialised, and that was cut short. What Git sees follows. None if it is no
    such tree."""
    noted = overlay.noted()
    commit = repository.commit_of(noted.commit) if noted is not None and noted.commit is not None else None
    if noted is None or commit is None or commit.tree != root:
        return None
    GitFolder(overlay.path).follow(noted.tree, root)
    return noted._replace(tree=root)


def commit_under(repository: Repository, git: GitFolder, noted: Noted) -> str:
    """The commit on which the folder stands, as Git's HEAD there says it, if Git worked in it. A Refusal, if none
    is known, Git is in the middle of something, or the repository is another one or can't be written."""
    known = repository.commit_id(noted.commit) if noted.commit is not None else None
    stand = Stand(known, None)
    git.check_known_to(repository, noted.tree, noted.commit)
    if git.is_at(noted.tree):
        # One that can't be written is refused before it takes the folder for its own.
        kept_tree.keep_trees(repository, git.own_name(), [noted.tree])
        left = git.adopt(repository, noted.commit)
        git.check_not_under_way()
        stand = git.stands_on(repository) or stand
        stand = stand._replace(left=stand.left or left)
    about = stand._asdict()
    tell_of_left(about)
    return base_in(about)


def without_those_of(repository: Repository, overlay: OverlayFolder, noted: Noted, commit: str,
                     mountd: str | os.PathLike[str]) -> str:
    """Takes that commit's files out of the overlay, which stands on its tree then, and says how many these are.
    Wherever it is cut short the next mount, or the next run, continues from there."""
    git, to = GitFolder(overlay.path), repository.tree_of(commit)
    if to != noted.tree:
        # Before anything can come from both: if it is cut short, one is known from which nothing comes.
        overlay.keep_stood_on({noted.tree, to})
    kept_tree.keep_trees(repository, git.own_name(), [noted.tree, to])
    # Git alone has soon what goes, and waits for no disk when it stores an object or a ref.
    os.sync()
    # A file that goes has the note's time then: none may seem older than what was built from it.
    before, now = overlay.lengths(), noted._replace(seconds=max(noted.seconds, math.ceil(time.time())), commit=commit)
    overlay.write_note(now)
    try:
        with source_of(repository, noted.tree, 0, False) as source:
            run_mountd(subprocess.PIPE, mountd, "dematerialise", "--root", noted.tree, "--tree", to, *source,
                       "--overlay", overlay.path, held=(overlay.note,))
    finally:
        # If it failed the note says what it came to all the same.
        after = overlay.lengths()
        if overlay.state_root() == to:
            git.follow(noted.tree, to)
            now = now._replace(tree=to)
        overlay.write_note(now._replace(seconds=noted.seconds) if after == before else now)
    kept_tree.keep(repository, git.own_name(), now)
    gone = [size for name, size in before.items() if name not in after]
    return f"{len(gone)} files, {sum(gone)} bytes"


def dematerialise_parser() -> argparse.ArgumentParser:
    found = argparse.ArgumentParser(prog="mount-git dematerialise", description=__doc__,
                                    formatter_class=argparse.RawDescriptionHelpFormatter)
    found.add_argument("repository", metavar="REPO", help="the Git repository")
    found.add_argument("--overlay", metavar="DIR", required=True, help="the overlay, which no mount has")
    add_mountd(found)
    return found
