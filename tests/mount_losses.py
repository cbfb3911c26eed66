"""Losses of power under a folder that `mountd fuse` shows: what an `fsync` waited for is in the overlay that is left.

The disk is made up by `losing_disk`, which watches what mountd waits for. It has that for sure, and anything else may
be there or not: of names, those that came or went since, and of files, the bytes after those that were waited for.
"""

import errno
import os
import pathlib
import random
import shutil
import sys
from collections.abc import Iterator

import losing_disk
from checks import check
from folder_operations import shown
from helpers.disks import folder_in_memory
from losing_disk import FAILS, Kept, kept_in, names_in
from message_folder import MessageFolder
from mount_messages import Kernel, showing
from overlays import Place
from programs import MOUNTD, SAMPLE_OBJECTS, SAMPLE_ROOT
from yakembi.tree_model import Nodes, Path

# More than the journal notes of one content, and this many names that a directory's listing is longer than that: what
# changes in it is noted alone.
LONG, SHORT = 150_000, 40_000
# A content of over 8 MiB is stored without a copy.
HUGE = 9 << 20
WIDE = b"w" * 180
NAMES = 760
# Changes after the fsync, and how many of them lie between two losses. They fill the journal several times.
CHANGES, BETWEEN = 700, 100


class Run(Kernel):
    """A mountd on a disk that loses what nobody waited for."""

    def __init__(self, folder: pathlib.Path, seed: int) -> None:
        self.place = Place(SAMPLE_ROOT, SAMPLE_OBJECTS, folder / "overlay")
        self.place.overlay.mkdir()
        self.record = folder / "record"
        self.record.mkdir()
        super().__init__([sys.executable, losing_disk.__file__, self.place.overlay, self.record, MOUNTD, "fuse",
                          "--root", self.place.root, "--objects", self.place.objects, "--overlay", self.place.overlay])
        self.folder = MessageFolder(self)
        self.random = random.Random(seed)
        self.made: list[Path] = []

    def kept(self) -> Kept:
        """What the disk has for sure."""
        return kept_in(self.record)

    def fsync(self, path: Path) -> None:
        with self.folder.opened(path, os.O_RDONLY) as node:
            self.folder.ask("fsync", node, 0, 0, 0)

    def fsync_error(self, path: Path) -> int:
        """The error of an fsync, or 0."""
        try:
            self.fsync(path)
        except OSError as error:
            return error.errno or 0
        return 0

    def store(self, path: Path, length: int) -> None:
        if path not in self.made:
            self.folder.create(path)
            self.made.append(path)
        self.folder.write(path, 0, self.random.randbytes(length))


def fill(run: Run) -> None:
    """What nobody changes any more: short and long files, and names in a directory that has many."""
    run.folder.mkdir((b"kept",))
    run.folder.mkdir((b"wide",))
    run.folder.mkdir((b"other",))
    for number in range(30):
        length = run.random.choice([0, 100, SHORT, LONG])
        run.store((b"kept", b"%d" % number), length)
    for number in range(NAMES - 40):
        run.folder.create((b"wide", WIDE + b"%d" % number))
    run.folder.write((b"wide", WIDE + b"0"), 0, b"some bytes")
    run.folder.rename((b"kept", b"0"), (b"kept", b"renamed"))


def change(run: Run, number: int) -> None:
    """A change beside that, of directories that lead to it too."""
    chosen = run.random.randrange(8)
    if chosen == 0:
        run.folder.create((b"wide", WIDE + b"n%d" % number))
    elif chosen == 1:
        run.folder.create((b"top%d" % number,))
    elif chosen == 2:
        run.folder.create((b"kept", b"n%d" % number))
    elif chosen == 3 and len(run.made) > 40:
        run.folder.unlink(run.made.pop())
    else:
        others = [path for path in run.made if path[0] == b"other"]
        anew = (b"other", b"%d" % number)
        path = run.random.choice(others) if others and chosen > 5 else anew
        run.store(path, run.random.choice([0, SHORT, SHORT, LONG]))


# ---- losses


def bytes_in(overlay: pathlib.Path) -> dict[int, bytes]:
    return {file.stat().st_ino: file.read_bytes() for file in overlay.iterdir()}


def losses(kept: Kept, overlay: pathlib.Path, generator: random.Random) -> Iterator[tuple[str, dict[str, bytes]]]:
    """What may be left of the overlay's files, by their names."""
    names, contents = names_in(overlay), bytes_in(overlay)

    def waited(file: int) -> bytes:
        return kept.bytes.get(file, b"")

    def some(file: int) -> bytes:
        # Of a file that is gone since, the disk has what was waited for.
        then = waited(file)
        now = contents.get(file, then)
        if now.startswith(then):
            return now[: generator.randint(len(then), len(now))]
        return generator.choice([now, then])

    yield "nothing else came", {name: waited(file) for name, file in kept.names.items()}
    yield "all names came", {name: waited(file) for name, file in names.items()}
    for number in range(4):
        left = {}
        for name in sorted({*names, *kept.names}):
            file = generator.choice([names.get(name), kept.names.get(name)])
            if file is not None:
                left[name] = some(file)
        yield f"some names and bytes came, {number}", left


def check_loss(name: str, place: Place, left: dict[str, bytes], wanted: Nodes) -> None:
    """An overlay with these files opens, and has what was waited for and wasn't changed since."""
    place.overlay.mkdir()
    for file, content in left.items():
        (place.overlay / file).write_bytes(content)
    with showing(place, "--rescan") as kernel:
        found = shown(MessageFolder(kernel))
        lost = {path: node for path, node in wanted.items() if found.get(path) != node}
        check(f"{name}: what was waited for", lost, {})
        check(f"{name}: it closes", kernel.end(), (0, b""))


def check_losses(seed: int) -> None:
    """A folder is filled, waited for and changed on, and the power is lost again and again."""
    with folder_in_memory() as folder, Run(folder, seed) as run:
        fill(run)
        run.fsync((b"kept", b"1"))
        wanted = shown(run.folder)
        count = 0
        for number in range(CHANGES):
            change(run, number)
            if number % BETWEEN == BETWEEN - 1:
                for name, left in losses(run.kept(), run.place.overlay, run.random):
                    count += 1
                    lost = Place(run.place.root, run.place.objects, folder / f"lost{count}")
                    check_loss(f"loss of power, seed {seed}, {number + 1} changes on: {name}", lost, left, wanted)
                    shutil.rmtree(lost.overlay)


def check_has_all(name: str, run: Run) -> None:
    """The disk has all of the overlay but the lock, which has no bytes."""
    kept = run.kept()
    check(f"{name}: names", kept.names, names_in(run.place.overlay))
    check(f"{name}: bytes", {**bytes_in(run.place.overlay), **kept.bytes} == bytes_in(run.place.overlay), True)
    lacking = [file for file, number in kept.names.items() if number not in kept.bytes]
    check(f"{name}: names without bytes", lacking, ["lock"])


def check_waits(folder: pathlib.Path) -> None:
    """What was changed isn't on the disk for sure before an fsync, and all of it is after one of any file, the first
    and each later one, whatever way its files were stored in."""
    with Run(folder, 1) as run:
        run.store((b"new",), SHORT)
        check("nobody waited: names", run.kept().names, {})
        run.fsync((b"test.txt",))
        check_has_all("after the first fsync", run)
        for length in (SHORT, LONG, HUGE):
            run.store((b"%d" % length,), length)
            run.fsync((b"test.txt",))
            check_has_all(f"after an fsync behind a file of {length} bytes", run)


def check_failing(folder: pathlib.Path) -> None:
    """Once a wait failed no fsync says any more that the disk has all, though the disk works again. Nothing that was
    shown is lost by that: a close stores it anew, in files that the disk takes, and the next run's fsync is good."""
    with Run(folder, 2) as run:
        run.store((b"kept",), SHORT)
        check("before the disk fails", run.fsync_error((b"kept",)), 0)
        for length in (SHORT, LONG):
            run.store((b"%d" % length,), length)
        (run.record / FAILS).touch()
        check("the disk fails", run.fsync_error((b"kept",)), errno.EIO)
        (run.record / FAILS).unlink()
        check("it works again", run.fsync_error((b"kept",)), errno.EIO)
        run.store((b"later",), SHORT)
        check("behind another store", run.fsync_error((b"later",)), errno.EIO)
        wanted = shown(run.folder)
        check("the disk failed: how it ends", run.end(), (0, b""))
    with showing(run.place) as kernel:
        again = MessageFolder(kernel)
        check("the next run: what is shown", shown(again), wanted)
        with again.opened((b"kept",), os.O_RDONLY) as node:
            check("the next run: an fsync", again.ask("fsync", node, 0, 0, 0), b"")
        check("the next run: how it ends", kernel.end(), (0, b""))
