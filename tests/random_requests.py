"""Random requests on a tree that is kept as a dictionary, their lines, and those whose replies say all of a tree."""

import random
from collections.abc import Iterator, Sequence
from typing import Any

from protocol import data_text, name_text, path_text
from yakembi.tree_model import LONGEST_DATA, LONGEST_FILE, LONGEST_TARGET, MOST_ENTRIES, Path, Values, WholeTree

LONGEST_CONTENT = 4_096
WORDS = ["kind", "stat", "read", "readlink", "list", "write", "truncate", "create", "setexec", "mkdir", "symlink",
         "unlink", "rmdir", "rename", "create", "create", "mkdir", "mkdir", "symlink", "write"]
LOOKS = ["kind", "stat", "read", "readlink", "list"]
REMOVING = ["unlink", "rmdir", "rename"]
# How many nodes a home has at most.
HOME_NODES = 30


class RandomRequests:
    """Random requests, most of them about what is there. Past this many nodes they only take away and move."""

    def __init__(self, generator: random.Random, tree: WholeTree, names: Sequence[bytes], most_nodes: int) -> None:
        self.random = generator
        self.tree = tree
        self.names = names
        self.most_nodes = most_nodes

    def name(self) -> bytes:
        return self.random.choice(self.names)

    def there(self) -> Path:
        return self.random.choice(list(self.tree.nodes))

    def path(self) -> Path:
        chance = self.random.random()
        if chance < 0.6:
            return self.there()
        if chance < 0.95:
            return self.there() + (self.name(),)
        return tuple(self.name() for _ in range(self.random.randrange(5)))

    def size(self, longest: int) -> int:
        """A length, short or long, at times one past the limit."""
        return self.random.choice([0, 1, self.random.randrange(64), self.random.randrange(LONGEST_CONTENT), longest])

    def data(self, longest: int) -> bytes:
        rare = self.random.random() < 0.002
        return self.random.randbytes(longest + 1 if rare else self.random.choice([0, 1, 3, 60, 700]))

    def offset(self) -> int:
        """Where a read or a write begins: where a file may end, or so far out that nothing fits after it."""
        return self.random.choice([0, 1, self.random.randrange(3_000), LONGEST_FILE, 2**64 - LONGEST_DATA - 2])

    def one(self, words: Sequence[str] = WORDS) -> tuple[str, Values]:
        crowded = len(self.tree.nodes) >= self.most_nodes
        word = self.random.choice(REMOVING if crowded else words)
        return word, getattr(self, word)()

    def kind(self) -> Values:
        return (self.path(),)

    stat = readlink = create = mkdir = unlink = rmdir = kind

    def read(self) -> Values:
        return self.path(), self.offset(), self.size(LONGEST_DATA + 1)

    def list(self) -> Values:
        after = self.random.choice([None, self.name()])
        return self.path(), after, self.random.choice([0, 1, 2, 5, MOST_ENTRIES, MOST_ENTRIES + 1])

    def write(self) -> Values:
        return self.path(), self.offset(), self.data(LONGEST_DATA)

    def truncate(self) -> Values:
        return self.path(), self.size(LONGEST_FILE + 1)

    def setexec(self) -> Values:
        return self.path(), self.random.random() < 0.5

    def symlink(self) -> Values:
        return self.path(), self.data(LONGEST_TARGET)

    def rename(self) -> Values:
        return self.path(), self.path()


class HomeRequests(RandomRequests):
    """Random requests of a client that changes only what stands in its home, and looks there and at shared paths."""

    def __init__(self, generator: random.Random, tree: WholeTree, names: Sequence[bytes], home: Path,
                 shared: Sequence[Path]) -> None:
        super().__init__(generator, tree, names, len(tree.nodes) + HOME_NODES)
        self.home = home
        self.shared = shared
        self.is_home = True

    def one(self, words: Sequence[str] = WORDS) -> tuple[str, Values]:
        self.is_home = self.random.random() < 0.7
        if self.is_home:
            return super().one(words)
        word = self.random.choice(LOOKS)
        return word, getattr(self, word)()

    def path(self) -> Path:
        if not self.is_home:
            return self.random.choice(self.shared)
        place = self.random.choice([path for path in self.tree.nodes if path[:1] == self.home])
        stays = place != self.home and self.random.random() < 0.6
        return place if stays else place + (self.name(),)


def field_text(field: Any) -> bytes:
    if isinstance(field, bool):
        return b"1" if field else b"0"
    if isinstance(field, int):
        return b"%d" % field
    if isinstance(field, tuple):
        return path_text(field)
    return data_text(field)


def line_of(word: str, fields: Values) -> bytes:
    texts = [field_text(field) for field in fields if field is not None]
    if word == "list":
        texts.insert(1, b"-") if fields[1] is None else texts.__setitem__(1, name_text(fields[1]))
    return b" ".join([word.encode(), *texts])


def pages(content: bytes | None) -> range:
    """Where the pages of a content begin. The last one is short, so that it shows the end; a lost content has one."""
    return range(0, len(content or b"") + 1, LONGEST_DATA)


def whole(tree: WholeTree) -> Iterator[tuple[str, Values]]:
    """Requests whose replies say all of the tree, whose directories have at most as many entries as a list can have."""
    for path, node in sorted(tree.nodes.items()):
        yield "kind", (path,)
        if node[0] == "dir":
            yield "list", (path, None, MOST_ENTRIES)
        elif node[0] == "file":
            yield from (("read", (path, start, LONGEST_DATA)) for start in pages(node[2]))
        else:
            yield "readlink", (path,)
