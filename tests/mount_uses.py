"""What users see of a folder that `mountd fuse` shows, by messages that a socket hands over: calls beside a plain
folder, numbers, times, what is fetched and when, and many requests."""

import contextlib
import pathlib
import random
import signal
import subprocess
import time
from collections.abc import Callable, Iterable, Iterator, Sequence

from checks import PATIENCE, check, git, make_repository, status_of
from clones import FOLDER, MOST_QUESTIONS, Clone, blobs_in, make_far_repository, trees_on_the_way
from folder_operations import Folder, compare, shown
from helpers.running import Process, most_memory
from message_folder import ATIME, ATIME_NOW, MTIME, MTIME_NOW, Found, MessageFolder
from message_model import ROOT, UNTOLD, spelled
from mount_differences import tried
from mount_folder import Large, asked_for, check_own, checkout, make_many_files, renamed
from mount_messages import Ended, Kernel
from overlays import CLOSED
from programs import GIT_OBJECTS, MOUNTD, SAMPLE_OBJECTS, SAMPLE_ROOT, listening
from yakembi.kernel import CACHE_ENTRIES
from yakembi.standing import stop
from yakembi.tree_model import Path

USERS = 8
# Of a turn of each user.
CHANGES, READS = 3, 5
# `mountd fuse` keeps when it changed a node, in this many bytes at most, also once that is forgotten: here each turn's
# nodes are those of the folder, for two calls, and of the file, for two.
BYTES_OF_A_TIME, NODES_OF_A_TURN = 100, 4
# The overlay's journal has a place of this many bytes at most for each file that it speaks of, also of one that was
# removed, until it is emptied at 16 MiB: each turn makes a file.
BYTES_OF_A_PLACE = 100
# How long a kernel waits here for an answer that isn't to come, in seconds.
SILENCE = 0.5


def showing(root: str, source: Sequence[object], overlay: pathlib.Path) -> Kernel:
    return Kernel([MOUNTD, "fuse", "--root", root, *source, "--overlay", overlay, "--cache-entries", CACHE_ENTRIES])


@contextlib.contextmanager
def over_git(repository: pathlib.Path, overlay: pathlib.Path) -> Iterator[tuple[Kernel, Process]]:
    """A commit of a Git repository, whose objects are fetched from a server as they are touched; and that server."""
    with listening([GIT_OBJECTS, repository], stderr=subprocess.DEVNULL) as (server, address):
        root = git(repository, "rev-parse", "HEAD^{tree}")
        with showing(root, ["--remote", address], overlay) as kernel:
            yield kernel, server


# ---- beside a plain directory


def check_operations(folder: pathlib.Path, seed: int) -> None:
    """Random operations by messages and on a plain directory have the same outcomes, and leave the same."""
    repository = make_repository(folder)
    plain = Folder(checkout(repository, folder / "plain"))
    with over_git(repository, folder / "overlay") as (kernel, _):
        compare("by messages", random.Random(seed), MessageFolder(kernel), plain)
        check("by messages: the end", kernel.end(), CLOSED)
    with over_git(repository, folder / "overlay") as (kernel, _):
        check("by messages: shown again", shown(MessageFolder(kernel)), shown(plain))
        check("by messages: the second end", kernel.end(), CLOSED)


# ---- inode numbers, and times


def check_numbers(folder: pathlib.Path) -> None:
    """Each of many files has an inode number of its own, which it keeps over a rename and in the next mount."""
    repository, paths = make_many_files(folder)
    overlay = folder / "overlay of numbers"

    def numbers(place: MessageFolder, of: Iterable[str]) -> dict[str, int]:
        return {path: place.look(names_in(path)).number for path in of}

    with over_git(repository, overlay) as (kernel, _):
        place = MessageFolder(kernel)
        before = numbers(place, paths)
        check_own("numbers by messages", before)
        check("the root's number", place.look(()).number, 1)
        place.rename((b"d00",), (b"e",))
        moved = {renamed(path): number for path, number in before.items()}
        check("numbers over a rename", numbers(place, moved), moved)
        place.unlink((b"d01", b"f00"))
        place.create((b"d01", b"f00"))
        moved |= numbers(place, ["/d01/f00"])
        check("a new file's number", moved["/d01/f00"] in before.values(), False)
        check("numbers: the end", kernel.end(), CLOSED)
    with over_git(repository, overlay) as (kernel, _):
        place = MessageFolder(kernel)
        check("numbers in the next mount", numbers(place, moved), moved)
        place.mkdir((b"made",))
        check_own("in the next mount", moved | numbers(place, ["/made"]))
        check("a listing has no numbers", {number for number, _ in place.rows((b"e",))}, {UNTOLD})
        check("numbers: the second end", kernel.end(), CLOSED)


def names_in(path: str) -> Path:
    return tuple(path.encode().split(b"/")[1:])


def check_times(folder: pathlib.Path) -> None:
    """What was never changed is as old as the run, or as is said. A time may be set alone, and a change's is the
    clock's and rises; the next run tells it too."""
    file = (b"test.txt",)
    before = time.time_ns()
    with showing(SAMPLE_ROOT, ["--objects", SAMPLE_OBJECTS], folder / "overlay") as kernel:
        place = MessageFolder(kernel)
        with held(place, file) as start:
            check("times: the run's start", (before <= start.content <= time.time_ns(), start.entry),
                  (True, start.content))
            for name, valid, wanted in [("both", ATIME | MTIME, 5), ("the content's", MTIME, 6),
                                        ("the last look's", ATIME, 6), ("both of them again", ATIME | MTIME, 8)]:
                found = place.set_content_time(file, valid, wanted)
                check(f"times: {name}", (found.content, found.entry > start.entry), (wanted, True))
            changes: list[tuple[str, Callable[[], object]]] = [
                ("the clock's", lambda: place.set_content_time(file, MTIME | MTIME_NOW | ATIME | ATIME_NOW)),
                ("a write's", lambda: place.write(file, 0, b"x")), ("a cut's", lambda: place.truncate(file, 1))]
            for name, change in changes:
                place.set_content_time(file, MTIME, 9)
                earlier = time.time_ns()
                change()
                check(f"times: {name}", earlier <= place.look(file).content <= time.time_ns(), True)
            place.set_content_time(file, MTIME, 9)
            place.chmod(file, True)
            check("times: of a mode that is set the content's stays", place.look(file).content, 9)
            top = place.look(())
            place.mkdir((b"folder",))
            check("times: the folder's above", top.content < place.look(()).content, True)
        check("times: what was forgotten keeps its own", place.look(file).content, 9)
        place.write(file, 0, b"y")
        check("times: the end", kernel.end(), CLOSED)
    after = time.time_ns()
    since = ["--objects", SAMPLE_OBJECTS, "--since", 1_000_000_000]
    with showing(SAMPLE_ROOT, since, folder / "overlay") as kernel:
        place = MessageFolder(kernel)
        for path in (file, (b"folder",), ()):
            found = place.look(path)
            check(f"times: an earlier run changed {path}", before <= found.content <= after, True)
        check("times: the second end", kernel.end(), CLOSED)
    with showing(SAMPLE_ROOT, since, folder / "another overlay") as kernel:
        check("times: of what was never changed", MessageFolder(kernel).look(file).content, 10 ** 18)
        check("times: the third end", kernel.end(), CLOSED)


@contextlib.contextmanager
def held(place: MessageFolder, path: Path) -> Iterator[Found]:
    """What is told of it, of whose node the kernel keeps one look-up."""
    found = place.look(path)
    node = place.at(path).node
    place.told.clear()
    yield found
    place.ask("getattr", node, 0, 0, 0)
    place.kernel.send(spelled("forget", 5, node, 1))


# ---- what is fetched


class Behind:
    """A server of objects that stands still for a while."""

    def __init__(self, server: Process) -> None:
        self.server = server

    def __enter__(self) -> None:
        stop(self.server)

    def __exit__(self, *_: object) -> None:
        self.server.send_signal(signal.SIGCONT)


def check_slow_object(folder: pathlib.Path) -> None:
    """While a server of objects stands still, who needs one of it isn't answered, and then all are."""
    repository = make_repository(folder)
    with over_git(repository, folder / "overlay") as (kernel, server):
        place = MessageFolder(kernel)
        check("slow: before", place.read((b"plain.txt",), 0, 100), b"plain\n")
        with Behind(server):
            kernel.send(spelled("lookup", 7, ROOT, b"empty"))
            kernel.ours.settimeout(SILENCE)
            check("slow: no answer", tried_answer(kernel), None)
            for unique in range(9, 12):
                kernel.send(spelled("lookup", unique, ROOT, b"plain.txt"))
        kernel.ours.settimeout(PATIENCE)
        answers = [kernel.receive() for _ in range(4)]
        check("slow: all are answered", sorted(int.from_bytes(answer[8:16], "little") for answer in answers),
              [7, 9, 10, 11])
        check("slow: and well", {answer[4:8] for answer in answers}, {bytes(4)})
        check("slow: the end", kernel.end(), CLOSED)


def tried_answer(kernel: Kernel) -> bytes | None:
    with contextlib.suppress(Ended):
        return kernel.receive()
    return None


def check_lost_server(folder: pathlib.Path) -> None:
    """Without a server, what isn't there yet is refused with EIO for who needs it, and the rest is there."""
    repository = make_repository(folder)
    with over_git(repository, folder / "overlay") as (kernel, server):
        place = MessageFolder(kernel)
        names = place.readdir(())
        check("lost server: before", place.read((b"plain.txt",), 0, 100), b"plain\n")
        server.kill()
        server.wait()
        check("lost server: what isn't there", [tried(place.read, (b"empty",), 0, 1) for _ in range(3)], ["EIO"] * 3)
        place.create((b"made",))
        place.write((b"made",), 0, b"made")
        check("lost server: what is", [place.read((name,), 0, 9) for name in (b"plain.txt", b"made")],
              [b"plain\n", b"made"])
        check("lost server: a listing", place.readdir(()), sorted([*names, b"made"]))
        check("lost server: the end", kernel.end(), CLOSED)


def check_laziness(folder: pathlib.Path, large: Large) -> None:
    """Of 50,000 files one file costs the objects on its path, and a look through a folder that folder's."""
    log = folder / "log of the large"
    with open(log, "wb") as errors, listening([GIT_OBJECTS, large.repository, "--log"], stderr=errors) as (_, address):
        with showing(large.root, ["--remote", address], folder / "overlay of the large") as kernel:
            place = MessageFolder(kernel)
            check("lazy: a deep file", place.read(large.path, 0, 1_000), large.content)
            check("lazy: what one file costs", asked_for(log), sorted(large.deep))
            seen = shown(place, (large.folder,))
            check("lazy: a folder of files", sum(node[0] == "file" for node in seen.values()), 500)
            check("lazy: what it costs", asked_for(log), sorted([*large.deep, *large.beside]))
            check("lazy: the end", kernel.end(), CLOSED)


def check_partial_clones(folder: pathlib.Path) -> None:
    """In a clone that lacks its objects a folder of 500 files asks the remote few times, and each comes once."""
    repository = make_far_repository(folder)
    root, blobs = git(repository, "rev-parse", "HEAD^{tree}"), blobs_in(repository, FOLDER)
    for objects, most in MOST_QUESTIONS.items():
        clone = Clone(repository, folder / objects, objects)
        words = [GIT_OBJECTS, "--tree", root, clone.path]
        with listening(words, stderr=subprocess.DEVNULL) as (server, address):
            with showing(root, ["--remote", address], folder / f"overlay of {objects}") as kernel:
                seen = shown(MessageFolder(kernel), tuple(FOLDER.encode().split(b"/")))
                check(f"{objects}: what is shown", sum(node[0] == "file" for node in seen.values()), len(blobs))
                check(f"{objects}: the end", kernel.end(), CLOSED)
            server.terminate()
            check(f"{objects}: the server's end", status_of(server), 0)
        wanted = sorted({*blobs, *(trees_on_the_way(repository) if objects == "tree:0" else [])})
        check(f"{objects}: what came, each once", clone.arrived(), wanted)
        check(f"{objects}: {clone.questions()} questions", clone.questions() <= most, True)


# ---- many requests


def turn_of(place: MessageFolder, home: bytes, turn: int) -> Iterator[bytes | None]:
    """Makes, changes, moves and reads a file in a folder, call by call; what is read and wasn't written just before."""
    path, moved, content = (home, b"%d" % turn), (home, b"moved"), b"%d" % turn
    steps: list[Callable[[], object]] = [lambda: place.create(path), lambda: place.write(path, 0, content),
                                         lambda: place.rename(path, moved)]
    for step in steps:
        step()
        yield None
    for _ in range(READS):
        found = place.read(moved, 0, 10)
        yield None if found == content else found


def check_long_folder(folder: pathlib.Path, requests: int) -> None:
    """Users ask this many requests of a folder, call by call in turn. They take no more memory than the first third but
    for the times of what they change, and its places in the journal."""
    homes = [b"%d" % number for number in range(USERS)]
    turns = requests // (USERS * (CHANGES + READS))
    with showing(SAMPLE_ROOT, ["--objects", SAMPLE_OBJECTS], folder / "overlay") as kernel:
        place = MessageFolder(kernel)
        for home in homes:
            place.mkdir((home,))
        memory = []
        for part in (range(turns // 3), range(turns // 3, turns)):
            odd = [read for turn in part for calls in zip(*[turn_of(place, home, turn) for home in homes])
                   for read in calls if read is not None]
            check(f"long: what each user reads in {part}", odd, [])
            memory.append(most_memory(kernel.process))
        check("long: each user's folder", place.readdir(()), sorted([b"test.txt", *homes]))
        print(f"a folder of {requests:,} requests: {memory[0]:,} bytes, and at the end {memory[1]:,}")
        of_turns = (BYTES_OF_A_TIME * NODES_OF_A_TURN + BYTES_OF_A_PLACE) * USERS * (turns - turns // 3)
        check("long: no more memory, within 5 %", 0 < memory[1] <= memory[0] * 1.05 + of_turns, True)
        check("long: the end", kernel.end(), CLOSED)
