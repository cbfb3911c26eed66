"""Commits that are served and changed: one with one of everything, random ones, and those of this project's history."""

import pathlib
import random
import subprocess
from collections.abc import Callable, Iterator

from checks import git, make_repository
from overlays import Commit, contents_of
from programs import TOP
from random_requests import LOOKS, WORDS, RandomRequests
from told_changes import SUBMODULE, Rows, rows_in
from yakembi.tree_model import Nodes, WholeTree

NAMES = [b"plain.txt", b"run.sh", b"dir", b"many", b"d0", b"sub", b"link", b"a", b"b", b"a-", b"new\nline", b"\xff"]
CHANGES = [word for word in WORDS if word not in LOOKS]
MOST_NODES = 220
# By how many requests the tree of a random commit is made: of some it has a file or two, or none.
SIZES = [3, 30, 300, 1_000]
MOST_SUBMODULES = 2
# How many names of a commit random requests take beside those above.
NAMES_TAKEN = 12


class ServedCommit:
    """A commit of a repository, and all that Git says of its tree."""

    def __init__(self, repository: pathlib.Path) -> None:
        self.repository = repository
        self.commit = Commit(repository)
        self.root = self.commit.root
        self.rows = rows_in(repository, self.root)
        self.submodules: Rows = {path: row for path, row in self.rows.items() if row[0] == SUBMODULE}
        # The ids of its trees, by their paths with a slash at the end, and their contents.
        self.trees = trees_in(repository, self.root)
        self.contents = contents_of(repository, set(self.trees.values()))

    def names(self, generator: random.Random) -> list[bytes]:
        """The names that random requests take."""
        found = sorted({name for path in self.commit.nodes for name in path})
        return NAMES + generator.sample(found, min(NAMES_TAKEN, len(found)))


def trees_in(repository: pathlib.Path, root: str) -> dict[bytes, str]:
    output = git(repository, "ls-tree", "-rtz", "--full-tree", root, text=False)
    rows = [row.split(b"\t", 1) for row in output.split(b"\0")[:-1]]
    return {path + b"/": head.split()[2].decode() for head, path in rows if head.split()[1] == b"tree"} | {b"": root}


# ---- the commits


def one_of_everything(folder: pathlib.Path, _: random.Random) -> pathlib.Path:
    return make_repository(folder)


def random_commit(folder: pathlib.Path, generator: random.Random) -> pathlib.Path:
    """A repository with one commit of what random requests make of nothing, and with submodules."""
    tree = WholeTree()
    requests = RandomRequests(generator, tree, NAMES, MOST_NODES)
    for _ in range(generator.choice(SIZES)):
        word, fields = requests.one(CHANGES)
        tree.reply(word, *fields)
    git(folder, "init", "-q", "random")
    repository = folder / "random"
    rows = [*rows_of(tree.nodes), *submodules_in(generator, tree.nodes)]
    head = b"commit refs/heads/main\ncommitter A <a@example.org> 1700000000 +0000\ndata 0\n"
    git(repository, "fast-import", "--quiet", data=head + b"".join(rows))
    return repository


def rows_of(nodes: Nodes) -> Iterator[bytes]:
    """The lines of `git fast-import` for the files and links of a tree."""
    for names, node in nodes.items():
        if node[0] != "dir":
            mode = b"120000" if node[0] == "link" else b"100755" if node[1] else b"100644"
            yield b"M %s inline %s\ndata %d\n%s\n" % (mode, quoted(names), len(node[-1]), node[-1])


def submodules_in(generator: random.Random, nodes: Nodes) -> Iterator[bytes]:
    """.. and for some submodules, of whose commits nothing is there, in its directories."""
    folders = [names for names, node in nodes.items() if node[0] == "dir"]
    for number in range(generator.randrange(MOST_SUBMODULES + 1)):
        names = (*generator.choice(folders), b"module%d" % number)
        yield b"M 160000 %s %s\n" % (generator.randbytes(20).hex().encode(), quoted(names))


def quoted(names: tuple[bytes, ...]) -> bytes:
    path = b"/".join(names).replace(b"\\", b"\\\\").replace(b'"', b'\\"').replace(b"\n", b"\\n")
    return b'"' + path + b'"'


def history() -> list[str]:
    """The commits of this project, if its files lie in a repository."""
    try:
        return git(TOP, "rev-list", "HEAD").split()
    except subprocess.CalledProcessError:
        return []


def of_this_project(folder: pathlib.Path, generator: random.Random) -> pathlib.Path:
    """A repository whose HEAD is one of these commits, and whose objects are the project's."""
    repository = folder / "project"
    git(folder, "init", "-q", "--bare", "project")
    objects = git(TOP, "rev-parse", "--path-format=absolute", "--git-path", "objects")
    (repository / "objects" / "info" / "alternates").write_text(f"{objects}\n")
    git(repository, "update-ref", "HEAD", generator.choice(history()))
    return repository


Maker = Callable[[pathlib.Path, random.Random], pathlib.Path]


def turns() -> list[tuple[Maker, int]]:
    """The kinds of commits in turn, and how many lives one has: forty in all."""
    real = of_this_project if history() else random_commit
    return [(one_of_everything, 16), (random_commit, 4), (real, 8), (random_commit, 2), (random_commit, 10)]
