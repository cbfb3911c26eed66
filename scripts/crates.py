"""The crates of this repository: what each stands on, in which order they are proved, and whether one changed."""

import functools
import hashlib
import pathlib
import subprocess
from collections.abc import Iterable

TOP = pathlib.Path(__file__).resolve().parent.parent
READ = ("src", "specs", "proofs")
# Each crate, and the crates of the repository that it stands on.
Below = dict[str, list[str]]


def rows() -> dict[str, tuple[list[str], list[str]]]:
    """Each crate of crates.txt, and its row: the words before the colon, and the libraries after it."""
    found = {}
    for line in (TOP / "crates.txt").read_text().splitlines():
        head, colon, below = line.partition("#")[0].partition(":")
        if colon:
            found[head.split()[0]] = head.split(), below.split()
    return found


def write_rows(folder: pathlib.Path, names: Iterable[str]) -> None:
    """Writes the rows of these crates into a crates.txt of the folder's own."""
    lines = [f"{' '.join(head)}: {' '.join(below)}\n" for name, (head, below) in rows().items() if name in names]
    (folder / "crates.txt").write_text("".join(lines))


def dependencies() -> Below:
    found = rows()
    return {name: [other for other in below if other in found] for name, (_, below) in found.items()}


def is_library(name: str) -> bool:
    return (TOP / "crates" / name / "src/lib.rt").is_file()


def has_tests(name: str) -> bool:
    return any("#[test]" in path.read_text() for path in (TOP / "crates" / name / "src").rglob("*.rt"))


def in_order(below: Below) -> list[str]:
    """The crates, each after those that it stands on."""
    order: list[str] = []

    def visit(name: str) -> None:
        if name not in order:
            for other in below[name]:
                visit(other)
            order.append(name)

    for name in below:
        visit(name)
    return order


def with_those_below(below: Below, names: Iterable[str]) -> set[str]:
    """The named crates and all that they stand on."""
    met: set[str] = set()
    waiting = list(names)
    while waiting:
        name = waiting.pop()
        if name not in met:
            met.add(name)
            waiting.extend(below[name])
    return met


class Marks:
    """What passed here already: in each crate's out/ a digest of all that it is made from, under a word for it."""

    def __init__(self, word: str, below: Below, names: Iterable[str]) -> None:
        chosen = with_those_below(below, names)
        self.word = word
        self.digests: dict[str, str] = {}
        for name in in_order(below):
            if name in chosen:
                self.digests[name] = digest_of(name, [self.digests[other] for other in below[name]])

    def place(self, name: str) -> pathlib.Path:
        return TOP / "crates" / name / "out" / self.word

    def is_set(self, name: str) -> bool:
        is_there = not is_library(name) or (TOP / "crates" / name / "out/rlib").is_dir()
        return is_there and self.place(name).is_file() and self.place(name).read_text() == self.digests[name]

    def left(self) -> list[str]:
        """The crates that haven't passed, each after those that it stands on."""
        return [name for name in self.digests if not self.is_set(name)]

    def set(self, name: str) -> None:
        self.place(name).write_text(self.digests[name])


@functools.cache
def toolchain() -> bytes:
    return subprocess.run(["rt", "version"], capture_output=True, check=True).stdout


def digest_of(name: str, digests: Iterable[str]) -> str:
    """A digest of the toolchain, the crate's row and its files, and the digests of those that it stands on."""
    digest = hashlib.sha1(toolchain())
    digest.update(repr(rows()[name]).encode())
    crate = TOP / "crates" / name
    for path in sorted(path for part in READ for path in (crate / part).rglob("*") if path.is_file()):
        digest.update(str(path.relative_to(crate)).encode() + b"\0" + path.read_bytes())
    for other in digests:
        digest.update(other.encode())
    return digest.hexdigest()
