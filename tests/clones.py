"""Partial clones whose remote counts how often it is asked, and may fail; and a repository for them."""

import pathlib
import random
import subprocess
import sys

from checks import git

from helpers.git import make_commit

REMOTE = pathlib.Path(__file__).resolve().parent / "failing_remote.py"
FOLDER = "near/by/here"
FILES = 500
# A file without a pattern, so that what a remote sends of it is as long.
LONG_FILE, LONG = "long", 100_000
# What a clone lacks at first, by its filter, and how often listing and reading FOLDER may ask the remote.
MOST_QUESTIONS = {"tree:0": 8, "blob:none": 5}


def make_far_repository(folder: pathlib.Path) -> pathlib.Path:
    """A repository of a folder of 500 files three levels down, and others beside it and above."""
    repository = folder / "far"
    repository.mkdir()
    paths = [f"{FOLDER}/file {number:03}" for number in range(FILES)]
    for beside in ["top", "near/side", "near/by/there", "near/by/here too", "far/away/and/deep"]:
        paths += [f"{beside}/{number}" for number in range(5)]
    contents = {path: f"{path}\n".encode() * 20 for path in [*paths, "README", "near/README"]}
    make_commit(repository, {**contents, LONG_FILE: random.Random(1).randbytes(LONG)}.items())
    git(repository, "config", "uploadpack.allowFilter", "true")
    return repository


class Clone:
    """A clone with a filter and without a checkout, in a directory of its own."""

    def __init__(self, repository: pathlib.Path, folder: pathlib.Path, objects: str) -> None:
        folder.mkdir()
        self.repository = repository
        self.path = folder / "clone"
        self.remote = folder / "remote"
        self.remote.mkdir()
        git(folder, "clone", "-q", "--no-checkout", f"--filter={objects}", f"file://{repository}", str(self.path))
        command = f"'{sys.executable}' -I -S '{REMOTE}' '{self.remote}'"
        git(self.path, "config", "remote.origin.uploadpack", command)
        self.packs = self.path / ".git/objects/pack"
        self.cloned = set(self.packs.iterdir())
        self.behave("good")

    def behave(self, mode: str) -> None:
        """From now on the remote behaves so: see `failing_remote`."""
        self.mode = mode
        place = self.remote / "mode.new"
        place.write_text(mode)
        place.rename(self.remote / "mode")

    def questions(self) -> int:
        """How often the remote was asked."""
        starts = self.remote / "starts"
        return len(starts.read_text().splitlines()) if starts.exists() else 0

    def running(self) -> list[str]:
        """The numbers of the processes that answer for the remote."""
        return subprocess.run(["pgrep", "-f", str(self.remote)], stdout=subprocess.PIPE, text=True).stdout.split()

    def arrived(self) -> list[str]:
        """The ids of what came since it was cloned, each as often as it came."""
        found = []
        for index in self.packs.glob("*.idx"):
            if index not in self.cloned:
                rows = git(self.path, "show-index", data=index.read_bytes()).splitlines()
                found += [row.split()[1] for row in rows]
        return sorted(found)

    def leftovers(self) -> list[str]:
        """What lies among its objects and is none of them."""
        objects = self.path / ".git/objects"
        names = [path.name for path in objects.iterdir() if path.name not in ("info", "pack") and len(path.name) != 2]
        return names + [path.name for path in self.packs.iterdir() if not path.name.startswith("pack-")]


def trees_on_the_way(repository: pathlib.Path) -> set[str]:
    """The ids of the trees from the top to FOLDER, and of the folders in these."""
    rows = git(repository, "ls-tree", "-t", "-r", "HEAD").splitlines()
    found = {git(repository, "rev-parse", "HEAD^{tree}")}
    for row in rows:
        head, path = row.split("\t")
        above = path.strip('"').rpartition("/")[0]
        if head.split()[1] == "tree" and (above == "" or f"{FOLDER}/".startswith(f"{above}/")):
            found.add(head.split()[2])
    return found


def blobs_in(repository: pathlib.Path, folder: str) -> list[str]:
    """The ids of a folder's files, in its order."""
    return [row.split()[2] for row in git(repository, "ls-tree", f"HEAD:{folder}").splitlines()]
