"""Commits all that a folder shows that another run of `mount-git` has mounted, what `.gitignore` names too.

That run unmounts the folder for a moment, so that `mountd` closes the overlay, has `mountd snapshot` make Git's objects
of what is the mount's own, and starts `mountd` again: nobody may stand in the folder, or have a file of it open, and
programs that come meanwhile wait. The objects go into the repository by Git's own commands, and the branch is moved
only if it still is at the commit that the folder stands on. `mount-git git` commits in a folder that is in use.
"""

import argparse
import contextlib
import os
import pathlib
import re
import subprocess
import tempfile
from collections.abc import Iterator, Sequence

from yakembi import dot_git
from yakembi.control import Connection, Fields, said_of, tell
from yakembi.git import DOT_GIT, Refusal, Repository, entries, environment, said
from yakembi.git_folder import NO_COMMIT, GitFolder, base_in, tell_of_left
from yakembi.packs import objects_in, write_pack

# Up to this many objects become a file each, as `git receive-pack` does it by itself; more become one pack.
LOOSE = 100
# Who commits, and when, as far as the caller's environment says it.
SIGNING = re.compile(r"GIT_(AUTHOR|COMMITTER)_(NAME|EMAIL|DATE)")


def commit(words: argparse.Namespace) -> None:
    if not words.message.strip():
        raise Refusal("the commit's message is empty")
    with contextlib.closing(Connection(words.folder)) as mount:
        # Until all is done Git commits nothing in the folder, nor puts anything into its index.
        about = mount.ask("about")
        tell_of_left(about)
        with GitFolder(about["overlay"]).index_held():
            print(" ".join(committed_by(mount, words)), flush=True)


def committed_by(mount: Connection, words: argparse.Namespace) -> tuple[str, str]:
    """The commit that is made, and its branch."""
    about = mount.ask("about")
    repository, folder = Repository(about["repository"]), GitFolder(about["overlay"])
    folder.check_known_to(repository, about["tree"], about["commit"])
    base = base_in(about)
    branch = branch_of(repository, words.branch, about)
    was = place_of(repository, branch, base)
    folder.check_not_under_way()
    taken = mount.ask("snapshot")
    for line in taken["left_out"]:
        tell(line)
    tree = dot_git.taken_out(pathlib.Path(taken["folder"]), taken["tree"])
    if tree == repository.tree_of(base):
        raise Refusal("nothing is changed since the commit that the folder stands on")
    if was not in (base, NO_COMMIT):
        # As when a run was killed before the mount learnt it.
        if tree != repository.tree_of(was):
            raise elsewhere(branch, was, base)
        tell("the branch has a commit of this already, and no other is made")
        mount.ask("committed", commit=was, branch=branch)
        return was, branch
    objects = objects_in(pathlib.Path(taken["folder"]))
    check_names(objects)
    put(repository, objects)
    made = committed(repository, tree, base, words.message)
    with said_behind(f"the commit {made} is made, but"):
        folder.move(repository, branch, made, was, f"commit: {next(iter(words.message.splitlines()), '')}")
    with said_behind(f"{branch} is moved to the commit {made}, but the mount doesn't know all of that:"):
        mount.ask("committed", commit=made, branch=branch)
    return made, branch


def check_names(objects: Sequence[pathlib.Path]) -> None:
    """A Refusal, if a tree among the framed objects has a name that Git takes from no commit."""
    for place in objects:
        with open(place, "rb") as file:
            if file.read(5) == b"tree ":
                names = {name.lower() for _, name, _ in entries(place.name, file.read().partition(b"\0")[2])}
                if DOT_GIT.encode() in names:
                    raise Refusal("a directory in the folder has a .git, which no commit may have: "
                                  "commit by `mount-git git`, or remove it")


@contextlib.contextmanager
def said_behind(what: str) -> Iterator[None]:
    """Says of what fails that this is done all the same."""
    try:
        yield
    except (Refusal, OSError) as problem:
        raise Refusal(f"{what} {said_of(problem)}") from None


def branch_of(repository: Repository, name: str | None, about: Fields) -> str:
    """The branch that is to be moved: the one that is named, or else the one that the folder is on."""
    if name is None:
        named: str | None = about["branch"]
        if named is None:
            raise Refusal("the folder is on no branch: name one by --branch")
        return named
    branch = f"refs/heads/{name}"
    if repository.git("check-ref-format", branch).returncode != 0:
        raise Refusal(f"{name} is no name of a branch")
    return branch


def place_of(repository: Repository, branch: str, base: str) -> str:
    """Where the branch is: at the commit that the folder stands on, at one made on that alone, or nowhere yet."""
    found = repository.git("rev-parse", "--verify", "--quiet", "--end-of-options", branch)
    was = found.stdout.decode().strip() if found.returncode == 0 else NO_COMMIT
    if was not in (base, NO_COMMIT):
        parents = repository.git("rev-list", "--parents", "-n1", was).stdout.decode().split()[1:]
        if parents != [base]:
            raise elsewhere(branch, was, base)
    return was


def elsewhere(branch: str, was: str, base: str) -> Refusal:
    return Refusal(f"{branch} is at {was}, and the folder stands on {base}: nothing is moved")


def put(repository: Repository, objects: list[pathlib.Path]) -> None:
    """Puts framed objects into the repository."""
    if not objects:
        return
    words = ["unpack-objects", "-q"] if len(objects) <= LOOSE else ["index-pack", "--stdin"]
    with tempfile.TemporaryFile() as pack:
        write_pack(pack, objects)
        pack.seek(0)
        done = subprocess.run(["git", "-C", repository.path, *words], stdin=pack, capture_output=True,
                              env=environment())
    if done.returncode != 0:
        raise Refusal(f"the objects can't be put into the repository{said(done.stderr)}")


def committed(repository: Repository, tree: str, base: str, message: str) -> str:
    """The commit of that tree."""
    signing = {name: value for name, value in os.environ.items() if SIGNING.fullmatch(name)}
    done = subprocess.run(["git", "-C", repository.path, "commit-tree", tree, "-p", base],
                          input=os.fsencode(message.rstrip("\n") + "\n"), capture_output=True,
                          env={**environment(), **signing})
    if done.returncode != 0:
        raise Refusal(f"there is no commit{said(done.stderr)}")
    return done.stdout.decode().strip()


def commit_parser() -> argparse.ArgumentParser:
    found = argparse.ArgumentParser(prog="mount-git commit", description=__doc__,
                                    formatter_class=argparse.RawDescriptionHelpFormatter)
    found.add_argument("folder", metavar="FOLDER", help="a folder that `mount-git` shows, or one below it")
    found.add_argument("-m", "--message", metavar="TEXT", required=True, help="the commit's message")
    found.add_argument("--branch", metavar="NAME",
                       help="the branch that is moved, or made; else the one that the folder is on")
    return found
