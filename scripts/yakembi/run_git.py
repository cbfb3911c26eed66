"""Runs Git in a folder that another run of `mount-git` has mounted, as in any working tree: to look at what was
changed, to commit it, to switch branches. Git asks the mount what was changed, and looks at nothing else.

Its branches, objects and settings are the repository's. Its index and HEAD lie in the overlay, and those of the
repository's own working directory stay as they are. Words after the folder are Git's: mount-git git FOLDER commit -a.
With --environment nothing is run, and lines for a shell are printed by which other programs use Git so:
eval "$(mount-git git --environment FOLDER)". With --dot-git the folder has a .git, and all programs use Git there.
"""

import argparse
import bisect
import contextlib
import os
import shlex
import subprocess
import sys
import time
from collections.abc import Callable, Iterable, Iterator

from yakembi import dot_git, kernel
from yakembi.control import Connection
from yakembi.folder_changes import Change, changes_in
from yakembi.git import Refusal
from yakembi.git_folder import GitFolder, folder_for_git, tell_of_left
from yakembi.git_index import PROTOCOL
from yakembi.overlay import is_held

TOKEN = b"mount-git"
# How long a mount may take from its first answer to a program until it answers us, and how long we wait between two
# tries.
SECONDS_TO_BEGIN, SECONDS_BETWEEN = 10.0, 0.02
# The name of anything in a directory, which makes Git look through that directory.
ANYTHING = b"/-"


def git(words: argparse.Namespace) -> None:
    if words.words and (words.environment or words.dot_git):
        git_parser().error("Git is given no words with --environment or --dot-git")
    with contextlib.closing(Connection(words.folder)) as mount:
        about, top = mount.ask("about"), mount.top
        tell_of_left(about)
        if words.dot_git:
            dot_git.make(about, top)
            return
        variables = folder_for_git(about, top).variables(about["held"], top)
    if words.environment:
        for name, value in variables.items():
            print(f"export {name}={shlex.quote(value)}")
        return
    environment = {**of_no_repository(), **variables}
    os.chdir(words.folder)
    os.execvpe("git", ["git", *words.words], environment)


def of_no_repository() -> dict[str, str]:
    """Our environment without what names another repository."""
    done = subprocess.run(["git", "rev-parse", "--local-env-vars"], stdout=subprocess.PIPE, text=True)
    return {name: value for name, value in os.environ.items() if name not in done.stdout.split()}


def fsmonitor(words: argparse.Namespace) -> None:
    """Answers Git's hook `core.fsmonitor` for an index that `mount-git git` made, which names this command to Git.
    GIT_DIR is the folder `git` of the mount's overlay, as Git says it to its hooks.

    It prints the paths at which Git has to look: what was changed since the tree that the overlay stands on, what the
    index has otherwise than that one, and what was told to have been changed.
    If it fails Git looks at every file.
    """
    if "GIT_DIR" not in os.environ:
        raise Refusal("GIT_DIR isn't set: this is for Git, which sets it")
    if words.version != PROTOCOL:
        raise Refusal(f"the hook's protocol is version {PROTOCOL}, and not {words.version}")
    top, at = os.path.realpath(os.getcwd()), os.path.realpath(os.environ["GIT_DIR"])
    folder = GitFolder(os.path.dirname(at))
    is_top = folder.made_for().get("top") == top or kernel.connection_of(top) is not None
    if str(folder.path) != at or not is_top:
        # Git hands its settings to the one that it runs in a submodule or in another working tree.
        sys.exit(1)
    folder.name_place()
    with contextlib.closing(connected(top, folder)) as mount:
        told = mount.ask("changes")
        if GitFolder(told["overlay"]).path != folder.path:
            raise Refusal(f"{top} shows another overlay than {folder.path.parent}")
        tell_of_left(told)
        with open(told["lines"], "rb") as lines:
            paths = folder.tell(to_look_at(changes_in(lines), folder.tracked) | folder.otherwise())
    # Git may look by another index, as it does for a commit of some paths: then at what that has otherwise as well.
    index = os.path.realpath(os.environ.get("GIT_INDEX_FILE", folder.index))
    if index != os.path.realpath(folder.index) and os.path.exists(index):
        paths |= folder.otherwise("--diff-filter=d", index=index)
    sys.stdout.buffer.write(b"".join(field + b"\0" for field in (TOKEN, *sorted(paths))))
    sys.stdout.flush()


def connected(top: str, folder: GitFolder) -> Connection:
    """To the run that shows the folder over that overlay, which may just begin."""
    end = time.monotonic() + SECONDS_TO_BEGIN
    while True:
        try:
            return Connection(top)
        except Refusal:
            if kernel.connection_of(top) is None or not is_held(folder.path.parent) or time.monotonic() > end:
                raise
        time.sleep(SECONDS_BETWEEN)


def to_look_at(changes: Iterable[Change], tracked: Callable[[], list[bytes]]) -> set[bytes]:
    """The paths at which Git has to look, by which it knows which of its files and directories aren't as they were.

    A path with a slash is all that Git has below it. What a directory has that Git doesn't know is looked for once
    something in it is named; so in a directory that came as a whole, each that Git knows there has to be named.
    """
    found = set()
    known: list[bytes] | None = None
    for change in changes:
        found.add(change.path)
        if change.kind == "dir" or change.letter == "T":
            found.add(change.path + b"/")
        if change.kind == "dir" and change.letter != "D":
            found.add(change.path + ANYTHING)
            if change.is_whole:
                known = tracked() if known is None else known
                found.update(directory + ANYTHING for directory in directories_below(change.path, known))
    return found


def directories_below(top: bytes, paths: list[bytes]) -> Iterator[bytes]:
    """The directories below the top on the way to paths, which are in byte order."""
    for path in paths[bisect.bisect_left(paths, top + b"/") : bisect.bisect_left(paths, top + b"0")]:
        while (path := path.rpartition(b"/")[0]) != top:
            yield path


def git_parser() -> argparse.ArgumentParser:
    found = argparse.ArgumentParser(prog="mount-git git", description=__doc__,
                                    formatter_class=argparse.RawDescriptionHelpFormatter)
    others = found.add_mutually_exclusive_group()
    others.add_argument("--environment", action="store_true",
                        help="print the variables by which Git works in the folder, as lines for a shell")
    others.add_argument("--dot-git", action="store_true",
                        help="put a file .git at the top of the folder, by which Git works in it as it is, in this "
                        "mount and in later ones with its overlay")
    found.add_argument("folder", metavar="FOLDER", help="a folder that `mount-git` shows, or one below it, in which "
                       "Git is run")
    found.add_argument("words", metavar="ARG", nargs=argparse.REMAINDER, help="what Git is given")
    return found


def fsmonitor_parser() -> argparse.ArgumentParser:
    found = argparse.ArgumentParser(prog="mount-git fsmonitor", description=fsmonitor.__doc__,
                                    formatter_class=argparse.RawDescriptionHelpFormatter)
    found.add_argument("version", metavar="VERSION", help="of the hook's protocol")
    found.add_argument("token", metavar="TOKEN", help="what the last answer began with")
    return found
