"""One history of a repository, stored in each way that Git has; and packs that are written byte by byte."""

import collections
import hashlib
import itertools
import pathlib
import random
import shutil
import struct
import zlib
from collections.abc import Callable, Iterable, Mapping, Sequence
from typing import NamedTuple

from checks import git
from helpers.git import blob_id

COMMITTER = "committer Test <test@example.org> {} +0000\n"
LINES = 40
# How many packs there are if there are many.
PACKS = 40
WORDS = {1: b"commit", 2: b"tree", 3: b"blob", 4: b"tag"}
BLOB, OFFSET_DELTA, ID_DELTA = 3, 6, 7


# ---- a history


def grown(number: int) -> str:
    """A file's version, which differs from the one before by two lines."""
    return "".join(f"line {line}, changed in {number - (number - line) % LINES}\n" for line in range(LINES))


def data(content: bytes) -> bytes:
    return b"data %d\n%s\n" % (len(content), content)


def make_history(repository: pathlib.Path, commits: int, depth: int = 50) -> None:
    """A repository with this many commits, a tag, objects of all kinds and sizes, and chains of this many deltas."""
    words = random.Random(commits)
    files = {"empty": b"", "one byte": b"x", "random": words.randbytes(300_000), "long": b"a long file\n" * 200_000,
             **{f"folder/{number:03}": words.randbytes(words.randrange(500)) for number in range(100)}}
    stream = []
    for number in range(commits):
        stream += [b"commit refs/heads/main\n", COMMITTER.format(number).encode(), data(b"commit %d" % number)]
        # What another file comes between is no delta of what was before.
        beside = {f"folder/{number:03}": b"%d\n" % number} if number in range(10, 100, 10) else {}
        for path, content in {**(beside if number else files), "grown": grown(number).encode()}.items():
            stream += [b"M 100644 inline %s\n" % path.encode(), data(content)]
    stream += [b"tag first\nfrom refs/heads/main\ntagger Test <test@example.org> 0 +0000\n", data(b"a tag")]
    repository.mkdir()
    git(repository, "init", "-q")
    git(repository, "config", "gc.auto", "0")
    git(repository, "fast-import", "--quiet", f"--depth={depth}", data=b"".join(stream))


def framed_objects(repository: pathlib.Path) -> dict[str, bytes]:
    """All objects of a repository as Git has them, framed, by their ids."""
    told = git(repository, "cat-file", "--batch", "--batch-all-objects", text=False)
    found, at = {}, 0
    while at < len(told):
        end = told.index(b"\n", at)
        object_id, word, length = told[at:end].split()
        body = told[end + 1 : end + 1 + int(length)]
        found[object_id.decode()] = b"%s %s\0%s" % (word, length, body)
        at = end + 1 + int(length) + 1
    return found


def by_depth(repository: pathlib.Path) -> dict[str, int]:
    """The packed objects, and how many deltas each is away from one that is stored whole; the least first."""
    found = {}
    for index in (repository / ".git/objects/pack").glob("*.idx"):
        for row in git(repository, "verify-pack", "-v", str(index)).splitlines():
            words = row.split()
            if len(words) in (5, 7) and len(words[0]) == 40:
                found[words[0]] = int(words[5]) if len(words) == 7 else 0
    return dict(sorted(found.items(), key=lambda row: row[1]))


# ---- ways to store it


def packs_of(repository: pathlib.Path) -> pathlib.Path:
    return repository / ".git/objects/pack"


def repacked(*words: str) -> Callable[[pathlib.Path], None]:
    def store(repository: pathlib.Path) -> None:
        git(repository, "repack", "-adq", *words)
    return store


def taken_apart(repository: pathlib.Path) -> list[pathlib.Path]:
    """Moves the packs out of the repository, which then has nothing."""
    aside = repository / "aside"
    aside.mkdir()
    packs = packs_of(repository)
    moved = [shutil.move(path, aside) for path in [*packs.iterdir()]]
    return [pathlib.Path(path) for path in moved if path.endswith(".pack")]


def make_loose(repository: pathlib.Path) -> None:
    for pack in taken_apart(repository):
        git(repository, "unpack-objects", "-q", data=pack.read_bytes())


def make_packs(repository: pathlib.Path, ids: Sequence[str], count: int) -> None:
    """Packs of as many objects each, with none of them elsewhere."""
    for number in range(count):
        listed = "".join(f"{object_id}\n" for object_id in ids[number::count])
        git(repository, "pack-objects", "-q", str(repository / "pack"), data=listed.encode())
    for path in packs_of(repository).iterdir():
        path.unlink()
    for path in repository.glob("pack-*"):
        path.rename(packs_of(repository) / path.name)


def make_many(repository: pathlib.Path) -> None:
    make_packs(repository, sorted(framed_objects(repository)), PACKS)


def make_multi(repository: pathlib.Path) -> None:
    make_many(repository)
    git(repository, "multi-pack-index", "write")


def make_multi_alone(repository: pathlib.Path) -> None:
    """Packs of which one has all objects that the others have, with no index but the one of them all."""
    make_many(repository)
    listed = "".join(f"{object_id}\n" for object_id in framed_objects(repository))
    git(repository, "pack-objects", "-q", str(packs_of(repository) / "pack"), data=listed.encode())
    git(repository, "multi-pack-index", "write")
    for index in packs_of(repository).glob("*.idx"):
        index.unlink()


def make_alternates(repository: pathlib.Path) -> None:
    """The objects lie in three repositories, of which each names the next: packed, packed, and loose."""
    ids = sorted(framed_objects(repository))
    first = repository / ".git/objects"
    second, third = repository / "second", repository / "third"
    make_packs(repository, ids, 3)
    packs = sorted(packs_of(repository).glob("*.pack"))
    for objects, pack in [(second, packs[1]), (third, packs[2])]:
        (objects / "pack").mkdir(parents=True)
        (objects / "info").mkdir()
        for path in packs_of(repository).glob(pack.stem + ".*"):
            path.rename(objects / "pack" / path.name)
    (first / "info/alternates").write_text(f"# the next\n{second}\n")
    # A path is meant from the directory of objects that names it.
    (second / "info/alternates").write_text("../third\n")
    loose = repository / "loose"
    git(repository, "init", "-q", "--bare", str(loose))
    pack = next((third / "pack").glob("*.pack"))
    git(loose, "unpack-objects", "-q", data=pack.read_bytes())
    shutil.rmtree(third)
    (loose / "objects").rename(third)


def make_wide(repository: pathlib.Path) -> None:
    """Offsets past 256 stand in the index's second table."""
    git(repository, "repack", "-adfq")
    for pack in packs_of(repository).glob("*.pack"):
        index = pack.with_suffix(".idx")
        index.unlink()
        git(repository, "index-pack", "--index-version=2,0x100", "-o", str(index), str(pack))


def make_deltas_by_id(repository: pathlib.Path) -> None:
    git(repository, "config", "repack.useDeltaBaseOffset", "false")
    git(repository, "repack", "-adfq")


class Way(NamedTuple):
    """A way to store a history of this many commits, how many deltas its longest chain has, if that is known, and
    whether each pack has an index of its own, without which Git reads none."""

    name: str
    store: Callable[[pathlib.Path], None]
    commits: int = 400
    depth: int = 0
    has_indexes: bool = True


WAYS = {way.name: way for way in [
    Way("deltas up to 250 deep", repacked("--depth=250"), depth=250),
    Way("deltas up to 4,095 deep", repacked("--depth=4095"), commits=4_400, depth=4_095),
    Way("no deltas", repacked("-f", "--window=0")),
    Way("many packs", make_many),
    Way("loose objects", make_loose),
    Way("alternates", make_alternates),
    Way("a multi-pack index", make_multi),
    Way("a multi-pack index alone", make_multi_alone, has_indexes=False),
    Way("deltas that name their base by its id", make_deltas_by_id),
    Way("wide offsets", make_wide),
]}


# ---- packs byte by byte


class Entry(NamedTuple):
    """An object as it lies in a pack: its kind and the size that its head claims, what a delta names before its stream,
    and the stream's bytes."""

    object_id: str
    kind: int
    size: int
    before: bytes
    stream: bytes

    def encoded(self) -> bytes:
        first, rest = self.kind << 4 | self.size & 15, self.size >> 4
        head = bytearray()
        while rest:
            head.append(first | 128)
            first, rest = rest & 127, rest >> 7
        return bytes([*head, first]) + self.before + self.stream


def whole(content: bytes) -> Entry:
    return Entry(blob_id(content), BLOB, len(content), b"", zlib.compress(content))


def number_text(number: int) -> bytes:
    """A number as deltas spell their sizes: seven bits a byte, the lowest first."""
    found = bytearray()
    while number > 127:
        found.append(number & 127 | 128)
        number >>= 7
    return bytes([*found, number])


def back(distance: int) -> bytes:
    """A distance as an entry spells that of its base."""
    found = [distance & 127]
    while distance := distance >> 7:
        distance -= 1
        found.append(distance & 127 | 128)
    return bytes(reversed(found))


def copied(offset: int, length: int) -> bytes:
    """The command to copy a piece of the base."""
    text = struct.pack("<I", offset) + struct.pack("<I", length)[:3]
    return b"\xff" + text


def delta_text(base: int, size: int, *commands: bytes) -> bytes:
    return number_text(base) + number_text(size) + b"".join(commands)


def pack_of(entries: Iterable[Entry]) -> tuple[bytes, bytes]:
    """A pack and its index, of version 2, in which everything is as it is given."""
    entries = [*entries]
    text = b"PACK" + struct.pack(">II", 2, len(entries)) + b"".join(entry.encoded() for entry in entries)
    pack = text + hashlib.sha1(text).digest()
    return pack, index_of(places_of(entries), pack[-20:])


def places_of(entries: Iterable[Entry]) -> dict[str, int]:
    """Where each entry begins in a pack of them."""
    at, places = 12, {}
    for entry in entries:
        places[entry.object_id] = at
        at += len(entry.encoded())
    return places


def index_of(places: dict[str, int], digest: bytes) -> bytes:
    ids = in_order(places)
    text = b"\xfftOc" + struct.pack(">I", 2) + counts_of(ids) + b"".join(ids) + bytes(4 * len(ids))
    text += b"".join(struct.pack(">I", places[object_id.hex()]) for object_id in ids) + digest
    return text + hashlib.sha1(text).digest()


def in_order(ids: Iterable[str]) -> list[bytes]:
    return sorted(bytes.fromhex(object_id) for object_id in ids)


def counts_of(ids: Sequence[bytes]) -> bytes:
    """How many ids there are up to each first byte."""
    beginning = collections.Counter(object_id[0] for object_id in ids)
    return struct.pack(">256I", *itertools.accumulate(beginning[first] for first in range(256)))


class Place(NamedTuple):
    """Where an object lies: in the pack of that number, and where it begins there."""

    pack: int
    at: int


def multi_index_of(packs: Sequence[str], places: Mapping[str, Place], far_from: int | None = None) -> bytes:
    """A multi-pack index of packs with these names, in which everything is as it is given. Places from a bound on stand
    in its table of far ones, which it has only if there is a bound."""
    ids = in_order(places)
    rows, far = bytearray(), bytearray()
    for pack, at in (places[object_id.hex()] for object_id in ids):
        is_far = far_from is not None and at >= far_from
        rows += struct.pack(">II", pack, 1 << 31 | len(far) // 8 if is_far else at)
        far += struct.pack(">Q", at) if is_far else b""
    names = b"".join(name.encode() + b".idx\0" for name in packs)
    chunks = [(b"PNAM", names + bytes(-len(names) % 4)), (b"OIDF", counts_of(ids)), (b"OIDL", b"".join(ids)),
              (b"OOFF", bytes(rows))]
    if far_from is not None:
        chunks.append((b"LOFF", bytes(far)))
    begin = 12 + 12 * (len(chunks) + 1)
    table = bytearray()
    for name, content in chunks:
        table += name + struct.pack(">Q", begin)
        begin += len(content)
    text = b"MIDX" + bytes([1, 1, len(chunks), 0]) + struct.pack(">I", len(packs)) + table + bytes(4)
    text += struct.pack(">Q", begin) + b"".join(content for _, content in chunks)
    return text + hashlib.sha1(text).digest()
