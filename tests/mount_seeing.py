"""What whoever looks sees of a folder that `mountd fuse` shows while bytes wait to be stored, and while names of a
directory that is read move on: by messages that a socket hands over, and by calls of the system."""

import ctypes
import errno
import mmap
import os
import pathlib
import random
from typing import Any

from checks import check
from helpers.disks import folder_in_memory
from message_model import ANSWER, OPENED, ROOT, ROW, spelled
from mount_differences import opened
from mount_folder import MountGit
from mount_kernel import Stores
from mount_messages import STARTS, Judged, check_end, flushing, make_place, number_in, reading, showing
from yakembi.tree_model import LONGEST_DATA, MOST_ENTRIES

# ---- by messages

# Writes to a file of 6 bytes: at its beginning, inside, over its end, at the end of what waits, and after gaps.
WRITES = [(0, b"FI"), (2, b"R"), (3, b"ST and more"), (14, b"!"), (1, b"i"), (20, b"far"), (19, b"so ")]
# A window of each size begins at each place before, in and after them.
PLACES, SIZES = range(35), [0, 1, 2, 5, 40, LONGEST_DATA]


def files_of(overlay: pathlib.Path) -> dict[str, tuple[int, int, int]]:
    """Which files an overlay has, how long, and when they were changed."""
    found = {file.name: file.stat() for file in overlay.iterdir()}
    return {name: (stat.st_ino, stat.st_size, stat.st_mtime_ns) for name, stat in found.items()}


def look_at(judged: Judged, node: int, name: bytes) -> None:
    """All that is told of a file, by its node and by its name, and each window of its bytes."""
    judged.ask(spelled("getattr", 5, node, 0, 0, 0))
    judged.ask(spelled("lookup", 5, ROOT, name))
    judged.ask(spelled("create", 5, ROOT, os.O_WRONLY, 0o644, 0, 0, name))
    judged.ask(spelled("release", 5, node, 0, 0, 0, 0))
    for place in PLACES:
        for size in SIZES:
            judged.ask(reading(node, place, size))


def check_seen(folder: pathlib.Path) -> None:
    """What waits for a file is told by its length and by each of its windows, wherever it lies, and isn't stored for
    that. Once it is stored the same is told."""
    place, commit, model = make_place(folder)
    with showing(place) as kernel:
        judged = Judged(kernel, model)
        judged.ask(STARTS)
        made = number_in(judged.ask(spelled("create", 5, ROOT, os.O_RDWR, 0o644, 0, 0, b"made")))
        file = number_in(judged.ask(spelled("lookup", 5, ROOT, b"file")))
        judged.ask(spelled("open", 5, file, os.O_RDWR, 0))
        before = files_of(place.overlay)
        for node, name in ((file, b"file"), (made, b"made")):
            for offset, data in WRITES:
                judged.ask(spelled("write", 5, node, 0, offset, len(data), 0, 0, 0, 0, data))
                look_at(judged, node, name)
        check("seen: nothing was stored", files_of(place.overlay), before)
        told = {node: judged.ask(reading(node, 0, LONGEST_DATA)) for node in (file, made)}
        check("seen: a flush", judged.ask(flushing(file))[4:8], bytes(4))
        check("seen: a flush stores", files_of(place.overlay) != before, True)
        for node, answer in told.items():
            check("seen: what was stored of one", judged.ask(reading(node, 0, LONGEST_DATA)), answer)
        check_end("seen", kernel, place, commit, model)


def names_in(answer: bytes) -> dict[bytes, int]:
    """The names of an answer's rows, and from which offset it is read on after each."""
    told, names = answer[ANSWER.size:], {}
    while told:
        _, offset, length, _ = ROW.unpack_from(told)
        names[told[ROW.size : ROW.size + length]] = offset
        told = told[-(-(ROW.size + length) // 8) * 8:]
    return names


def told_moving(judged: Judged, directory: int, most: int) -> list[bytes]:
    """The names of a directory that is read in pieces, of which each is moved after all others once it is given; so
    many at most."""
    handle, *_ = OPENED.unpack(judged.ask(spelled("opendir", 5, directory, 0, 0))[ANSWER.size:])
    told: list[bytes] = []
    offset = 0
    while len(told) < most:
        rows = names_in(judged.ask(spelled("readdir", 5, directory, handle, offset, 4_096, 0, 0, 0, 0)))
        if not rows:
            break
        *_, offset = rows.values()
        names = [name for name in rows if name not in (b".", b"..")]
        for name in names:
            judged.ask(spelled("rename", 5, directory, directory, name, b"z" + name))
        told += names
    judged.ask(spelled("releasedir", 5, directory, handle, 0, 0, 0))
    return told


def check_moving(folder: pathlib.Path) -> None:
    """Names that move on while a directory is read are given once, if there are so few that one listing has them; of
    others those that moved are given again, and then it ends."""
    place, commit, model = make_place(folder)
    with showing(place) as kernel:
        judged = Judged(kernel, model)
        judged.ask(STARTS)
        for name, count in ((b"few", 900), (b"all", MOST_ENTRIES)):
            directory = number_in(judged.ask(spelled("mkdir", 5, ROOT, 0o755, 0, name)))
            wanted = [b"%04d" % number for number in range(count)]
            for file in wanted:
                judged.ask(spelled("mknod", 5, directory, 0o100644, 0, 0, 0, file))
            check(f"moving: {count} names are told once", told_moving(judged, directory, 3 * count), wanted)
        directory = number_in(judged.ask(spelled("lookup", 5, ROOT, b"all")))
        judged.ask(spelled("mknod", 5, directory, 0o100644, 0, 0, 0, b"one more"))
        handle, *_ = OPENED.unpack(judged.ask(spelled("opendir", 5, directory, 0, 0))[ANSWER.size:])
        told: dict[bytes, int] = {}
        for offset in (0, MOST_ENTRIES + 2, MOST_ENTRIES + 3):
            told |= names_in(judged.ask(spelled("readdir", 5, directory, handle, offset, 1 << 17, 0, 0, 0, 0)))
        check("moving: a listing of two pages", len(told), MOST_ENTRIES + 3)
        check_end("moving", kernel, place, commit, model)


# ---- by the kernel


def check_moved_on(folder: pathlib.Path, repository: pathlib.Path) -> None:
    """A program that renames each name that it reads in a directory to one after all others renames each once, and
    comes to the end."""
    with MountGit(repository, "HEAD", folder / "mounted") as mount:
        directory = mount.folder / "directory"
        directory.mkdir()
        # So long that many reads are wanted.
        names = [f"{number:04}{'n' * 100}" for number in range(900)]
        for name in names:
            (directory / name).touch()
        renamed = []
        with os.scandir(directory) as entries:
            for entry in entries:
                os.rename(entry.path, directory / f"z{entry.name}")
                renamed.append(entry.name)
                if len(renamed) > 3 * len(names):
                    break
        check("moved on: each name once", sorted(renamed), names)
        check("moved on: what is there", sorted(os.listdir(directory)), [f"z{name}" for name in names])
        check("moved on: the end, with nothing said", (mount.end("SIGTERM"), mount.said()), (0, []))


# Of `getdents64`, on x86-64; the C library keeps what it read.
GETDENTS64 = 217
LIBC = ctypes.CDLL(None, use_errno=True)


def rows_of(descriptor: int, most: int) -> int | str:
    """How many bytes of rows the kernel gives next, or the name of its error."""
    got = int(LIBC.syscall(GETDENTS64, descriptor, ctypes.create_string_buffer(most), most))
    return errno.errorcode[ctypes.get_errno()] if got < 0 else got


def check_two_readers(folder: pathlib.Path, repository: pathlib.Path) -> None:
    """One reads a directory on that another begins anew, after it has changed."""
    with MountGit(repository, "HEAD", folder / "mounted") as mount:
        directory = mount.folder / "directory"
        directory.mkdir()
        for number in range(100):
            (directory / f"{number:03}").touch()
        check("two readers: a listing, and again", [len(os.listdir(directory)) for _ in range(2)], [100, 100])
        with opened(directory, os.O_RDONLY) as one:
            told = [rows_of(one, 512)]
            (directory / "new").touch()
            with opened(directory, os.O_RDONLY) as other:
                check("two readers: the other's beginning", isinstance(rows_of(other, 64), int), True)
                while told[-1] and isinstance(told[-1], int):
                    told.append(rows_of(one, 512))
        check("two readers: how the first one's listing ended", told[-1], 0)
        check("two readers: the end, with nothing said", (mount.end("SIGTERM"), mount.said()), (0, []))


LARGE = 8_000_000
PIECE = 4_096


def check_looks(folder: pathlib.Path, repository: pathlib.Path) -> None:
    """A file of 8 MB is written here and there and looked at, 100 times: what is seen is right each time, and nothing
    is stored until it is closed."""
    generator = random.Random(1)
    content = bytearray(generator.randbytes(LARGE))
    overlay = folder / "overlay"
    with MountGit(repository, "HEAD", folder / "mounted", "--overlay", overlay) as mount:
        path = mount.folder / "large"
        path.write_bytes(content)
        stored = overlay / str(path.stat().st_ino)
        stores, before = Stores(overlay), [files_of(overlay).get(stored.name)]
        stores.counted()
        with opened(path, os.O_RDWR) as file, opened(path, os.O_RDONLY) as other:
            for number in range(100):
                offset = len(content) if number % 10 == 9 else generator.randrange(LARGE)
                piece = generator.randbytes(PIECE)
                os.pwrite(file, piece, offset)
                content[offset : offset + PIECE] = piece
                lengths = [os.fstat(file).st_size, os.fstat(other).st_size, path.stat().st_size]
                check(f"looks: lengths, {number}", lengths, [len(content)] * 3)
                place = generator.randrange(len(content))
                check(f"looks: a part, {number}", os.pread(other, PIECE, place) == content[place : place + PIECE], True)
            check("looks: nothing was stored", (stores.most(), [files_of(overlay).get(stored.name)]), (0, before))
        check("looks: it is stored once it is closed", stores.most(), 1)
        check("looks: what was stored", path.read_bytes() == content, True)
        check("looks: the end, with nothing said", (mount.end("SIGTERM"), mount.said()), (0, []))
    with MountGit(repository, "HEAD", folder / "mounted", "--overlay", overlay) as mount:
        check("looks: mounted again", (mount.folder / "large").read_bytes() == content, True)
        check("looks: the second end, with nothing said", (mount.end("SIGTERM"), mount.said()), (0, []))


# One file that is open several times, and what each operation on it gives and makes of its bytes.


class OneFile:
    """A file that is open several times, beside its bytes."""

    MOST = 300_000

    def __init__(self, path: pathlib.Path, generator: random.Random) -> None:
        self.path, self.random = path, generator
        self.content = bytearray()
        self.files = [os.open(path, os.O_RDWR | os.O_CREAT, 0o644) for _ in range(3)]

    def file(self) -> int:
        return self.random.choice(self.files)

    def offset(self) -> int:
        size = len(self.content)
        near = self.random.choice([0, size, size, self.random.randrange(size + 1), self.random.randrange(self.MOST)])
        return max(0, min(self.MOST, near + self.random.choice([0, 0, -1, 1, 700, -700])))

    def length(self) -> int:
        return self.random.choice([1, 9, 700, 700, PIECE - 1, PIECE, PIECE + 1, 30_000])

    def write(self) -> tuple[Any, Any]:
        offset, data = self.offset(), self.random.randbytes(self.length())
        self.content += bytes(max(0, offset - len(self.content)))
        self.content[offset : offset + len(data)] = data
        return os.pwrite(self.file(), data, offset), len(data)

    def read(self) -> tuple[Any, Any]:
        offset, length = self.offset(), self.length()
        return os.pread(self.file(), length, offset), bytes(self.content[offset : offset + length])

    def cut(self) -> tuple[Any, Any]:
        size = self.offset()
        self.content = self.content[:size].ljust(size, b"\0")
        os.ftruncate(self.file(), size)
        return self.look()

    def look(self) -> tuple[Any, Any]:
        told = [os.fstat(self.file()).st_size, os.stat(self.path).st_size]
        return told, [len(self.content)] * 2

    def sync(self) -> tuple[Any, Any]:
        os.fsync(self.file())
        return self.look()

    def reopen(self) -> tuple[Any, Any]:
        place = self.random.randrange(len(self.files))
        os.close(self.files[place])
        self.files[place] = os.open(self.path, os.O_RDWR)
        return os.lseek(self.files[place], 0, os.SEEK_END), len(self.content)

    def view(self) -> tuple[Any, Any]:
        if not self.content:
            return self.look()
        with mmap.mmap(self.file(), 0, prot=mmap.PROT_READ) as memory:
            offset = self.offset()
            return [len(memory), memory[offset : offset + 30_000]], [len(self.content), self.content[offset:][:30_000]]

    def forget(self) -> tuple[Any, Any]:
        """What the kernel keeps of its bytes goes, so that the next read asks for them."""
        for file in self.files:
            os.posix_fadvise(file, 0, 0, os.POSIX_FADV_DONTNEED)
        return self.read()

    def whole(self) -> tuple[Any, Any]:
        return self.path.read_bytes(), bytes(self.content)

    def close(self) -> None:
        for file in self.files:
            os.close(file)


OPERATIONS = {OneFile.write: 30, OneFile.read: 20, OneFile.cut: 5, OneFile.look: 15, OneFile.sync: 2, OneFile.reopen: 3,
              OneFile.view: 8, OneFile.forget: 15, OneFile.whole: 2}


def check_one_file(folder: pathlib.Path, repository: pathlib.Path, seed: int, operations: int) -> None:
    """Random operations on one file by several descriptors, also through memory, give what its bytes say, and the next
    mount has them."""
    with folder_in_memory() as inner:
        overlay = inner / "overlay"
        with MountGit(repository, "HEAD", folder / "mounted", "--overlay", overlay) as mount:
            one = OneFile(mount.folder / "one", random.Random(seed))
            chosen = one.random.choices(list(OPERATIONS), list(OPERATIONS.values()), k=operations)
            for number, operation in enumerate(chosen):
                got, wanted = operation(one)
                if got != wanted:
                    told = [name.__name__ for name in chosen[max(0, number - 12) : number + 1]]
                    check(f"one file of seed {seed}: operation {number}, the last of {told}", got == wanted, True)
                    break
            one.close()
            check("one file: what was closed", one.path.read_bytes() == one.content, True)
            check("one file: the end, with nothing said", (mount.end("SIGTERM"), mount.said()), (0, []))
        with MountGit(repository, "HEAD", folder / "mounted", "--overlay", overlay) as mount:
            check("one file: mounted again", (mount.folder / "one").read_bytes() == one.content, True)
            check("one file: the second end, with nothing said", (mount.end("SIGTERM"), mount.said()), (0, []))
