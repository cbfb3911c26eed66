"""Calls of the system after the subjects of pjdfstest, step by step in a mounted folder and in a plain one: each step
has a name, and gives in both what is compared."""

import contextlib
import ctypes
import fcntl
import mmap
import os
import pathlib
import random
import shutil
import socket
import stat
import struct
import subprocess
import time
from collections.abc import Callable, Iterator
from typing import Any

from checks import PATIENCE
from mount_differences import by_c, opened, tried

# Each step by its name, and what it gives.
Steps = Iterator[tuple[str, Any]]
LONGEST_FILE = 1 << 30
LONGEST_NAME, LONGEST_PATH = 255, 4_095
FALLOC_FL_KEEP_SIZE, FALLOC_FL_PUNCH_HOLE = 1, 2
OFD_SETLK = 37
# The seconds after which each file system's clock has gone on.
TICK = 0.02


# ---- open files


def removed_while_open(top: pathlib.Path) -> Steps:
    """Read, written, cut and measured until its last close, and never seen; a new file of the name is another."""
    path = top / "removed"
    path.write_bytes(b"abc")
    with opened(path, os.O_RDWR) as one, opened(path, os.O_RDWR) as two:
        yield "links before", os.fstat(one).st_nlink
        path.unlink()
        yield "links", os.fstat(one).st_nlink
        yield "read", os.read(one, 9)
        yield "write", os.write(one, b"def")
        yield "read by another", os.pread(two, 9, 0)
        yield "size by another", os.fstat(two).st_size
        yield "stat of the name", tried(os.stat, path)
        yield "a listing has it", "removed" in os.listdir(top)
        yield "open of the name", tried(os.open, path, os.O_RDWR)
        path.write_bytes(b"new")
        os.ftruncate(two, 2)
        yield "read after a cut", os.pread(one, 9, 0)
        yield "write behind the end", os.pwrite(one, b"zz", 5)
        yield "read of a gap", os.pread(two, 9, 0)
        yield "size", os.fstat(one).st_size
        yield "fsync", tried(os.fsync, one)
        yield "chmod", tried(os.fchmod, one, 0o755)
        yield "utimes", tried(os.utime, one, (5, 6))
        yield "time", os.fstat(two).st_mtime
        with mmap.mmap(two, 7, prot=mmap.PROT_READ) as view:
            yield "read through memory", bytes(view)
        with opened(f"/proc/self/fd/{one}", os.O_RDONLY) as again:
            yield "read of one that is opened anew", os.read(again, 9)
    yield "the new file of the name", path.read_bytes()


def replaced_while_open(top: pathlib.Path) -> Steps:
    """Both what stood there and what came stay what they are, through moves."""
    old, new = top / "old", top / "new"
    old.write_bytes(b"old content")
    new.write_bytes(b"new")
    with opened(old, os.O_RDWR) as replaced, opened(new, os.O_RDWR) as replacing:
        new.rename(old)
        yield "links of the replaced", os.fstat(replaced).st_nlink
        yield "read of the replaced", os.pread(replaced, 99, 0)
        yield "read of what came", os.pread(replacing, 99, 0)
        yield "write of the replaced", os.pwrite(replaced, b"OLD", 0)
        yield "write of what came", os.pwrite(replacing, b"NEW", 0)
        yield "read by the name", old.read_bytes()
        yield "read of the replaced again", os.pread(replaced, 99, 0)
        old.rename(top / "moved")
        yield "write after a move", os.pwrite(replacing, b"!", 3)
        yield "read after a move", (top / "moved").read_bytes()
        yield "size of the replaced", os.fstat(replaced).st_size


def removed_before_open(top: pathlib.Path) -> Steps:
    """A file that was looked up, and is opened once its name is gone or another's: so it is for one who opens it while
    somebody else saves it by a rename."""
    for name in "removed", "replaced", "moved":
        path = top / name
        path.write_bytes(b"old")
        with opened(path, os.O_PATH) as found:
            if name == "removed":
                path.unlink()
            elif name == "replaced":
                (top / "new").write_bytes(b"new")
                os.replace(top / "new", path)
            else:
                os.rename(path, top / "elsewhere")
            yield f"{name} before it is opened: open", tried(read_at, f"/proc/self/fd/{found}")
            yield f"{name} before it is opened: size", tried(lambda at: os.stat(at).st_size, found)
    yield "what stands there now", [(path.name, path.read_bytes()) for path in sorted(top.iterdir())]


def read_at(path: str) -> bytes:
    with opened(path, os.O_RDONLY) as file:
        return os.read(file, 9)


def moved_folder(top: pathlib.Path) -> Steps:
    """A folder that is open, is stood in, and has an open file, is moved, and moved over another that is open."""
    folder, other = top / "folder", top / "other"
    folder.mkdir()
    other.mkdir()
    (folder / "file").write_bytes(b"kept")
    flags = os.O_RDONLY | os.O_DIRECTORY
    with opened(folder, flags) as at, opened(other, flags) as over, opened(folder / "file", os.O_RDWR) as file:
        with contextlib.chdir(folder):
            folder.rename(top / "moved")
            yield "where one stands", os.path.basename(os.getcwd())
            yield "write by a name from there", (pathlib.Path("made")).write_bytes(b"made")
            yield "what is above", sorted(os.listdir(".."))
        yield "write to its file", os.pwrite(file, b" more", 4)
        yield "listing of the open folder", sorted(os.listdir(at))
        yield "read by the new path", (top / "moved/file").read_bytes()
        (top / "moved").rename(other)
        yield "listing of the open folder after it", sorted(os.listdir(at))
        yield "stat of the one that it was moved over", tried(lambda: stat.S_IFMT(os.fstat(over).st_mode))
        yield "listing of the one that it was moved over", tried(os.listdir, over)
        new = tried(os.open, "new", os.O_CREAT | os.O_RDWR, dir_fd=over)
        yield "a new file in the one that it was moved over", new
    yield "read by the last path", (other / "file").read_bytes()


def removed_folder(top: pathlib.Path) -> Steps:
    """A folder goes while a file of it, and the folder itself, are open."""
    folder = top / "folder"
    folder.mkdir()
    (folder / "file").write_bytes(b"kept")
    flags = os.O_RDONLY | os.O_DIRECTORY
    with opened(folder / "file", os.O_RDWR) as file, opened(folder, flags) as at, opened(folder, flags) as two:
        yield "listing before", os.listdir(two)
        (folder / "file").unlink()
        folder.rmdir()
        yield "read of its file", os.pread(file, 9, 0)
        yield "write to its file", os.pwrite(file, b"more", 4)
        yield "read of its file again", os.pread(file, 9, 0)
        yield "it is there", folder.exists()
        yield "stat", tried(lambda: stat.S_IFMT(os.fstat(at).st_mode))
        yield "links", tried(lambda: os.fstat(at).st_nlink)
        yield "listing", tried(os.listdir, at)
        yield "listing of one that was listed before", tried(os.listdir, two)
        for name, call in calls_in_folder(at).items():
            yield name, tried(call)


def calls_in_folder(at: int) -> dict[str, Callable[[], Any]]:
    """Calls on names of an open folder, and on the folder itself."""
    return {
        "stat of a name": lambda: os.stat("none", dir_fd=at).st_size,
        "open of a name": lambda: os.open("none", os.O_RDONLY, dir_fd=at),
        "a new file": lambda: os.open("new", os.O_CREAT | os.O_WRONLY, dir_fd=at),
        "a new folder": lambda: os.mkdir("new", dir_fd=at),
        "a new link": lambda: os.symlink("target", "new", dir_fd=at),
        "unlink": lambda: os.unlink("none", dir_fd=at),
        "rmdir": lambda: os.rmdir("none", dir_fd=at),
        "stat of itself by its dot": lambda: stat.S_IFMT(os.stat(".", dir_fd=at).st_mode),
        "fsync": lambda: os.fsync(at),
        "chmod": lambda: os.fchmod(at, 0o755),
        "utimes": lambda: os.utime(at, (1, 2)),
    }


def removed_where_one_stands(top: pathlib.Path) -> Steps:
    """The working directory goes, and so does the one above."""
    (top / "above/below").mkdir(parents=True)
    with contextlib.chdir(top / "above/below"):
        (top / "above/below").rmdir()
        yield "where one stands", tried(os.getcwd)
        yield "stat", tried(lambda: stat.S_IFMT(os.stat(".").st_mode))
        yield "listing", tried(os.listdir, ".")
        yield "a new file", tried(os.open, "new", os.O_CREAT | os.O_WRONLY)
        yield "a new folder", tried(os.mkdir, "new")
        yield "a move to it", tried(os.rename, top / "above", "moved")
        yield "listing of what is above", tried(os.listdir, "..")
        (top / "above").rmdir()
        yield "stat of what was above", tried(lambda: stat.S_IFMT(os.stat("..").st_mode))
        yield "a program there", subprocess.run(["true"]).returncode
    yield "what is left", os.listdir(top)


def exclusive(top: pathlib.Path) -> Steps:
    """O_EXCL, over a file, a folder, links, and nothing."""
    (top / "there").write_bytes(b"there")
    (top / "folder there").mkdir()
    for name, target in [("to there", "there"), ("to nothing", "no where")]:
        (top / name).symlink_to(target)
    flags = os.O_CREAT | os.O_EXCL | os.O_WRONLY
    for name in ("there", "folder there", "to there", "to nothing"):
        yield name, tried(os.open, top / name, flags)
    with opened(top / "fresh", flags) as file:
        yield "write of a fresh one", os.write(file, b"fresh")
    yield "the fresh one again", tried(os.open, top / "fresh", flags)
    yield "read of the fresh one", (top / "fresh").read_bytes()
    yield "read of the one that was there", (top / "there").read_bytes()
    with opened(top / "for reading", os.O_CREAT | os.O_EXCL | os.O_RDONLY, 0o444) as file:
        yield "a fresh one that is read alone", tried(os.write, file, b"x")
    with opened(top / "by mode", os.O_CREAT | os.O_EXCL | os.O_RDWR, 0) as file:
        yield "a fresh one without permissions is written", os.write(file, b"x")


def appending(top: pathlib.Path) -> Steps:
    """O_APPEND by two, one of which was opened before the other wrote."""
    path = top / "appended"
    with opened(path, os.O_CREAT | os.O_WRONLY | os.O_APPEND) as one, opened(path, os.O_RDWR | os.O_APPEND) as two:
        for number in range(20):
            os.write([one, two][number % 2], b"line %d\n" % number)
        yield "position after it", os.lseek(two, 0, os.SEEK_CUR)
        os.lseek(two, 3, os.SEEK_SET)
        os.write(two, b"last")
        yield "read", os.pread(two, 999, 0)
        os.ftruncate(one, 10)
        os.write(two, b"after the cut")
        yield "read after a cut", os.pread(two, 999, 0)
        yield "pwrite, which appends", os.pwrite(two, b"at the end", 0)
        yield "read after a pwrite", os.pread(two, 999, 0)
        fcntl.fcntl(two, fcntl.F_SETFL, 0)
        yield "pwrite without the flag", os.pwrite(two, b"at the start", 0)
        fcntl.fcntl(two, fcntl.F_SETFL, os.O_APPEND)
        yield "write with the flag again", os.write(two, b", at the end")
        yield "the end", os.lseek(two, 0, os.SEEK_END)
    with opened(path, os.O_WRONLY | os.O_APPEND | os.O_TRUNC) as file:
        yield "write of one that was emptied", os.write(file, b"anew")
    yield "read at the end", path.read_bytes()


def cut(top: pathlib.Path) -> Steps:
    """truncate, ftruncate and O_TRUNC; gaps are zeros, also beyond a page; a read after the end is none."""
    path = top / "cut"
    path.write_bytes(bytes(range(250)) * 80)
    os.truncate(path, 9_001)
    yield "size", path.stat().st_size
    yield "read", path.read_bytes()
    os.truncate(path, 20_000)
    with opened(path, os.O_RDWR) as file:
        yield "read of a gap", os.pread(file, 30_000, 8_990)
        yield "read at the end", os.pread(file, 5, 20_000)
        yield "read behind the end", os.pread(file, 5, 99_999)
        os.ftruncate(file, 3)
        yield "write behind the end", os.pwrite(file, b"far", 70_000)
        yield "size after it", path.stat().st_size
        yield "read of all", path.read_bytes()
        yield "ftruncate to less than nothing", tried(os.ftruncate, file, -1)
        yield "ftruncate to the same", tried(os.ftruncate, file, 70_003)
        for size in (4_096, 4_095, 4_097, 65_536, 65_537, 0, 8_192):
            os.ftruncate(file, size)
            os.pwrite(file, b"border", size)
            yield f"read after a cut to {size:,}", os.pread(file, 100_000, 0)
    with opened(path, os.O_RDONLY) as file:
        yield "ftruncate of one for reading", tried(os.ftruncate, file, 1)
    with opened(path, os.O_WRONLY | os.O_TRUNC) as file:
        yield "size of one that was emptied", path.stat().st_size
        yield "read of one for writing", tried(os.read, file, 1)
        yield "write", os.write(file, b"anew")
    with opened(path, os.O_RDONLY | os.O_TRUNC) as file:
        yield "read of one that was emptied for reading", os.read(file, 9)
    yield "truncate to less than nothing", tried(os.truncate, path, -1)


def positions(top: pathlib.Path) -> Steps:
    """Where a file is read and written next, and what isn't opened for it."""
    path = top / "file"
    path.write_bytes(b"0123456789")
    with opened(path, os.O_RDWR) as file:
        yield "read", os.read(file, 4)
        yield "write goes on there", os.write(file, b"xy")
        yield "position", os.lseek(file, 0, os.SEEK_CUR)
        seeks = [("behind the end", 90, os.SEEK_SET), ("from the end", -3, os.SEEK_END),
                 ("before the start", -1, os.SEEK_SET), ("before it from the end", -99, os.SEEK_END),
                 ("data", 0, os.SEEK_DATA), ("a hole", 0, os.SEEK_HOLE), ("data behind the end", 99, os.SEEK_DATA),
                 ("no such way", 0, 77)]
        for name, offset, whence in seeks:
            yield f"seek {name}", tried(os.lseek, file, offset, whence)
        yield "pread before the start", tried(os.pread, file, 1, -1)
        yield "pwrite before the start", tried(os.pwrite, file, b"x", -1)
        yield "write of nothing", os.write(file, b"")
        other = os.dup(file)
        os.lseek(file, 7, os.SEEK_SET)
        yield "read by a copy of the descriptor", os.read(other, 2)
        os.close(other)
    with opened(path, os.O_RDONLY) as file:
        yield "write of one for reading", tried(os.write, file, b"x")
    with opened(path, os.O_WRONLY) as file:
        yield "read of one for writing", tried(os.read, file, 1)
    with opened(top, os.O_RDONLY) as folder:
        yield "read of a folder", tried(os.read, folder, 1)
    with opened(path, os.O_RDWR | os.O_SYNC) as file:
        yield "write that waits for the disk", os.write(file, b"SYNC")
    yield "read of all", path.read_bytes()


# ---- through memory, and programs


def through_memory(top: pathlib.Path) -> Steps:
    """What is written through memory is read by calls at once, and the other way; a private change stays private."""
    path = top / "mapped"
    path.write_bytes(bytes(range(256)) * 64)
    with opened(path, os.O_RDWR) as file, opened(path, os.O_RDONLY) as reader:
        with mmap.mmap(file, 16_384) as view, mmap.mmap(reader, 16_384, prot=mmap.PROT_READ) as other:
            view[4_090:4_100] = b"over pages"
            yield "read by a call", os.pread(reader, 12, 4_089)
            yield "read through other memory", other[4_089:4_101]
            os.pwrite(file, b"by a call", 8_000)
            yield "read of what a call wrote", view[7_999:8_010]
            view.flush()
            os.ftruncate(file, 9_000)
            os.ftruncate(file, 16_384)
            yield "read behind a cut", view[8_995:9_010]
            path.rename(top / "moved")
            view[0:5] = b"moved"
            yield "read by the new name", (top / "moved").read_bytes()[:6]
            (top / "moved").unlink()
            view[0:7] = b"removed"
            yield "read once it is removed", os.pread(reader, 8, 0)
        with mmap.mmap(file, 4_096, flags=mmap.MAP_PRIVATE) as view:
            view[0:7] = b"private"
            yield "read beside a private change", os.pread(reader, 8, 0)
    path.write_bytes(b"x" * 5_000)
    with opened(path, os.O_WRONLY) as file:
        yield "memory of one for writing", tried(mmap.mmap, file, 10)
    with opened(path, os.O_RDONLY) as file:
        yield "memory to write of one for reading", tried(mmap.mmap, file, 10)
    with opened(path, os.O_RDWR) as file:
        view = mmap.mmap(file, 5_000)
    view[4_999:5_000] = b"!"
    yield "written after its close", path.read_bytes()[4_990:]
    view.close()


def programs(top: pathlib.Path) -> Steps:
    """A program that runs can't be written, and can be removed and replaced."""
    path = top / "program"
    shutil.copy(shutil.which("sleep") or "/bin/sleep", path)
    path.chmod(0o755)
    with subprocess.Popen([path, str(PATIENCE)]) as running:
        try:
            yield "open to write", tried(os.open, path, os.O_WRONLY)
            yield "open to read", tried(use_once, path)
            path.unlink()
            path.write_text("#!/bin/sh\necho another\n")
            path.chmod(0o755)
            yield "another of the name", subprocess.run([path], capture_output=True).stdout
            yield "it runs on", running.poll()
        finally:
            running.kill()
    yield "its end", running.returncode
    with opened(path, os.O_WRONLY):
        yield "a run of one that is written", tried(subprocess.run, [path])


def use_once(path: pathlib.Path) -> int:
    with opened(path, os.O_RDONLY) as file:
        return len(os.read(file, 9))


def copies(top: pathlib.Path) -> Steps:
    """sendfile, copy_file_range, vectors, and room that is made for a file."""
    one, two, three = top / "one", top / "two", top / "three"
    one.write_bytes(random.Random(5).randbytes(150_000))
    with opened(one, os.O_RDWR) as source, opened(two, os.O_RDWR | os.O_CREAT) as target:
        os.sendfile(target, source, 0, 70_000)
        yield "size after sendfile", os.fstat(target).st_size
        yield "read after sendfile", os.pread(target, 200_000, 0)
        yield "a write of vectors", os.pwritev(target, [b"a" * 100, b"b" * 5_000], 69_990)
        rooms = [bytearray(10), bytearray(100)]
        yield "a read of vectors", os.preadv(target, rooms, 69_985)
        yield "what they have", rooms
    with opened(one, os.O_RDWR) as source, opened(three, os.O_RDWR | os.O_CREAT) as target:
        yield "copy_file_range", os.copy_file_range(source, target, 100_000, 10, 5_000)
        yield "what it copied", os.pread(target, 200_000, 0)
        yield "posix_fallocate", tried(os.posix_fallocate, target, 104_000, 20_000)
        yield "size after it", os.fstat(target).st_size
        yield "read after it", os.pread(target, 200_000, 0)
        yield "fallocate", tried(fallocate, target, 0, 130_000, 5_000)
        yield "fallocate of what is there", tried(fallocate, target, 0, 10, 100)
        yield "fallocate of nothing", tried(fallocate, target, 0, 10, 0)
        yield "size after these", os.fstat(target).st_size
        yield "read after these", os.pread(target, 200_000, 0)
    yield "read at the end", two.read_bytes()


def pieces(top: pathlib.Path) -> Steps:
    """Pieces all over a file that was closed, and over one that grows by them: what lies between stays."""
    chance = random.Random(9)
    old, new = top / "old", top / "new"
    old.write_bytes(chance.randbytes(3_000_000))
    with opened(old, os.O_RDWR) as one, opened(new, os.O_RDWR | os.O_CREAT) as two:
        for number in range(120):
            at, data = chance.randrange(3_200_000), chance.randbytes(chance.choice((1, 300, 4_096, 70_000)))
            os.pwrite(one, data, at)
            os.pwrite(two, data, at // 4)
            if number % 40 == 30:
                yield "read among the pieces", os.pread(one, 100_000, max(at - 50_000, 0))
                yield "size of what grows", os.fstat(two).st_size
    yield "the file that was there", old.read_bytes()
    yield "the one that grew", new.read_bytes()
    os.truncate(old, 80_000_000)
    with opened(old, os.O_RDWR) as one:
        for at in 10, 79_999_000, 40_000_000, 11:
            yield "write far apart", os.pwrite(one, b"far", at)
        yield "read far apart", [os.pread(one, 9, at) for at in (8, 39_999_998, 79_998_998, 79_999_998)]
    yield "size at the end", old.stat().st_size


def kept_room(top: pathlib.Path) -> Steps:
    """Room that is kept for a file after its end, and holes that are made in it."""
    path = top / "file"
    path.write_bytes(b"x" * 20_000)
    for name, mode in [("room behind the end", FALLOC_FL_KEEP_SIZE),
                       ("a hole", FALLOC_FL_KEEP_SIZE | FALLOC_FL_PUNCH_HOLE)]:
        with opened(path, os.O_RDWR) as file:
            yield f"fallocate of {name}", tried(fallocate, file, mode, 4_096, 8_192)
    path.unlink()


def fallocate(file: int, mode: int, offset: int, length: int) -> int:
    return by_c("fallocate", file, mode, ctypes.c_long(offset), ctypes.c_long(length))


def locks(top: pathlib.Path) -> Steps:
    """Locks of two that opened a file, of the whole and of a part."""
    path = top / "locked"
    path.write_bytes(b"x" * 200)
    whole = fcntl.LOCK_EX | fcntl.LOCK_NB
    with opened(path, os.O_RDWR) as one, opened(path, os.O_RDWR) as two:
        yield "flock", tried(fcntl.flock, one, whole)
        yield "flock by another", tried(fcntl.flock, two, whole)
        fcntl.flock(one, fcntl.LOCK_UN)
        yield "flock by another, later", tried(fcntl.flock, two, whole)
        yield "lockf", tried(fcntl.lockf, one, whole, 100, 50)
        yield "a part by one", tried(lock_part, one, 0, 100)
        yield "a part of it by another", tried(lock_part, two, 50, 100)
        yield "another part by another", tried(lock_part, two, 100, 100)
    with opened(path, os.O_RDWR) as file:
        yield "all of it after their close", tried(lock_part, file, 0, 0)


def lock_part(file: int, start: int, length: int) -> None:
    """A lock that belongs to the open file and not to the process."""
    fcntl.fcntl(file, OFD_SETLK, struct.pack("hhqqi4x", fcntl.F_WRLCK, os.SEEK_SET, start, length, 0))


# ---- attributes


def times(top: pathlib.Path) -> Steps:
    """Times that are set stay over reads; a write, a cut and a new name in a folder are later than they were."""
    path = top / "timed"
    path.write_bytes(b"timed")
    os.utime(path, ns=(5_000_000_007, 6_000_000_008))
    yield "set", path.stat().st_mtime_ns
    yield "read", path.read_bytes()
    yield "set, after a read", path.stat().st_mtime_ns
    with opened(path, os.O_RDWR) as file:
        os.utime(file, (3, 4))
        yield "set of an open one", os.fstat(file).st_mtime
        os.pwrite(file, b"T", 0)
        yield "a write is later", os.fstat(file).st_mtime > 1_000_000_000
    os.utime(path, (1, 2))
    os.truncate(path, 2)
    yield "a cut is later", path.stat().st_mtime > 1_000_000_000
    os.utime(path)
    yield "the clock's", path.stat().st_mtime > 1_000_000_000
    os.utime(path, (8, 9))
    path.rename(top / "timed too")
    yield "after a move", (top / "timed too").stat().st_mtime
    (top / "link").symlink_to("timed too")
    os.utime(top / "link", (10, 11), follow_symlinks=False)
    yield "of a link", [os.lstat(top / "link").st_mtime, os.stat(top / "link").st_mtime]
    for seconds in (0, -1, -3_000_000_000, 2**31, 2**32 + 5):
        os.utime(top / "timed too", ns=(7, seconds * 10**9 + 123_456_789))
        yield f"{seconds} seconds", (top / "timed too").stat().st_mtime_ns
    os.utime(top, (1, 2))
    yield "of a folder", top.stat().st_mtime
    (top / "a new name").touch()
    yield "a folder with a new name is later", top.stat().st_mtime > 1_000_000_000


def stamps(top: pathlib.Path) -> Steps:
    """Which times of a file, and of the folder that it is in, a change brings to now."""
    folder, file = top / "in", top / "in/file"
    for name, call in changes_of(file).items():
        shutil.rmtree(folder, ignore_errors=True)
        (folder / "folder").mkdir(parents=True)
        file.write_bytes(b"content")
        (folder / "other").write_bytes(b"other")
        for path in (file, folder / "other", folder / "folder", folder):
            os.utime(path, (1, 2))
        before = [os.stat(path) for path in (file, folder)]
        time.sleep(TICK)
        call()
        after = [os.stat(path) if path.exists() else None for path in (file, folder)]
        yield f"{name}: modified, of the file and its folder", [now and now.st_mtime != 2 for now in after]
        yield f"{name}: changed, of the file and its folder", [
            now and now.st_ctime_ns > then.st_ctime_ns for now, then in zip(after, before)]


def changes_of(file: pathlib.Path) -> dict[str, Callable[[], object]]:
    """Changes that pjdfstest looks for the times of."""
    folder = file.parent
    return {
        "write": lambda: file.write_bytes(b"more content"),
        "truncate to less": lambda: os.truncate(file, 1),
        "truncate to more": lambda: os.truncate(file, 99),
        "chmod +x": lambda: file.chmod(0o755),
        "chmod to the same": lambda: file.chmod(0o644),
        "open to read": lambda: file.read_bytes(),
        "rename": lambda: file.rename(folder / "moved"),
        "rename over it": lambda: (folder / "other").rename(file),
        "unlink": file.unlink,
        "a new file": lambda: (folder / "new").touch(),
        "mkdir": lambda: (folder / "new").mkdir(),
        "rmdir": (folder / "folder").rmdir,
        "symlink": lambda: (folder / "new").symlink_to("file"),
    }


def permissions(top: pathlib.Path) -> Steps:
    """Of a mode the executable bit, as docs/MOUNT-GIT.md says."""
    path = top / "program"
    path.write_text("#!/bin/sh\necho ran\n")
    for mode in (0o644, 0o755):
        path.chmod(mode)
        yield f"{mode:o}: the mode", oct(path.stat().st_mode)
        yield f"{mode:o}: it may be run", os.access(path, os.X_OK)
        done = tried(subprocess.run, [path], capture_output=True)
        yield f"{mode:o}: a run", getattr(done, "stdout", done)
    with opened(path, os.O_RDONLY) as file:
        os.fchmod(file, 0o644)
        yield "fchmod", oct(os.fstat(file).st_mode)
    for mode in (0o600, 0o444, 0o4755, 0o1777):
        path.chmod(mode)
        yield f"chmod {mode:o}", oct(path.stat().st_mode)
    for mode in (0o600, 0o711):
        with opened(top / f"made {mode:o}", os.O_CREAT | os.O_RDWR, mode) as file:
            yield f"made with {mode:o}", oct(os.fstat(file).st_mode)
    (top / "folder").mkdir(0o700)
    yield "a folder made with 700", oct((top / "folder").stat().st_mode)
    (top / "folder").chmod(0o555)
    yield "a folder's chmod 555", oct((top / "folder").stat().st_mode)
    yield "chown to the same", tried(os.chown, path, os.getuid(), os.getgid())
    yield "chown to nobody", tried(os.chown, path, -1, -1)
    if os.getuid() == 0:
        yield "chown to another", tried(os.chown, path, 12_345, -1)
        yield "chown to another group", tried(os.chown, path, -1, 12_345)


def counted(top: pathlib.Path) -> Steps:
    """How many names and blocks a node has."""
    (top / "file").write_bytes(b"x" * 10_000)
    (top / "link").symlink_to("file")
    (top / "folder/one/below").mkdir(parents=True)
    (top / "folder/two").mkdir()
    yield "links of a file", (top / "file").stat().st_nlink
    yield "links of a link", (top / "link").lstat().st_nlink
    yield "links of a folder of two folders", (top / "folder").stat().st_nlink
    yield "links of an empty folder", (top / "folder/two").stat().st_nlink
    yield "size of a link", (top / "link").lstat().st_size
    yield "a folder has a size", (top / "folder").stat().st_size > 0
    yield "blocks of a file are as many as its bytes need", (top / "file").stat().st_blocks * 512 >= 10_000
    yield "its number is its own", len({path.lstat().st_ino for path in top.iterdir()})
    yield "its device is its folder's", (top / "file").stat().st_dev == top.stat().st_dev
    space = os.statvfs(top)
    yield "statvfs: the longest name", space.f_namemax
    yield "statvfs: room", space.f_blocks >= space.f_bfree >= space.f_bavail > 0
    yield "statvfs: files", space.f_files >= space.f_ffree > 0


# ---- names


def listings(top: pathlib.Path) -> Steps:
    """A long folder, whose names go and come while it is read; each that stays is given once."""
    folder = top / "long"
    folder.mkdir()
    names = [f"{number:03}" + "x" * (number % 90) for number in range(200)]
    for name in names:
        (folder / name).touch()
    told = []
    with os.scandir(folder) as rows:
        for number, row in enumerate(rows):
            told.append(row.name)
            if number == 50:
                for name in names[::7]:
                    (folder / name).unlink()
                    (folder / f"new {name}").touch()
    stays = [name for name in names if name not in names[::7]]
    yield "each that stays is told once", sorted(name for name in told if name in stays) == stays
    for name in names[::7]:
        (folder / f"new {name}").unlink()
    with opened(folder, os.O_RDONLY) as at:
        yield "listed twice", [sorted(os.listdir(at)) == stays, sorted(os.listdir(at)) == stays]
        (folder / "one more").touch()
        yield "listed again with one more", sorted(os.listdir(at)) == sorted([*stays, "one more"])
    with os.scandir(folder) as rows:
        for row in rows:
            os.unlink(row.path)
    yield "removed while it is listed", os.listdir(folder)
    yield "then the folder", tried(folder.rmdir)


def names_that_move_on(top: pathlib.Path) -> Steps:
    """A long folder, each name of which moves on while it is read."""
    for count in (1_000, 1_100):
        for number in range(count):
            (top / f"{number:04}").touch()
        told = 0
        with os.scandir(top) as rows:
            for row in rows:
                told += 1
                if told > 4 * count:
                    break
                os.rename(row.path, top / f"n{row.name}")
        yield f"the end of {count}", told <= 4 * count
        names = os.listdir(top)
        yield f"all of {count} are there", len(names) == count
        for name in names:
            (top / name).unlink()


def kinds_in_rows(top: pathlib.Path) -> Steps:
    """The kind that a listing's row has, with no look at the node."""
    (top / "file").touch()
    (top / "folder").mkdir()
    (top / "link").symlink_to("folder")
    with os.scandir(top) as rows:
        kinds = {row.name: (row.is_file(follow_symlinks=False), row.is_dir(follow_symlinks=False), row.is_symlink())
                 for row in rows}
    yield "kinds", sorted(kinds.items())
    yield "the dots aren't told by Python, and lead where they say", [
        os.path.samefile(top / "folder/.", top / "folder"), os.path.samefile(top / "folder/..", top)]


def odd_names(top: pathlib.Path) -> Steps:
    """Names are bytes."""
    names = [b"\xff\xfe", b"new\nline", b" ", b"...", b"-", b"*", b"%2F", b"\\", b"\x01", b"\xc3\xa9", b"e\xcc\x81",
             b"A", b"a", b"n" * 255, b".fuse_hidden0001", b"\xff\xff\xff\xff1", b".git", b"COM1", b"a:b", b"a."]
    for name in names:
        path = os.path.join(os.fsencode(top), name)
        with opened(path.decode(errors="surrogateescape"), os.O_CREAT | os.O_EXCL | os.O_WRONLY) as file:
            os.write(file, name)
    found = os.listdir(os.fsencode(top))
    yield "all are told", sorted(found) == sorted(names)
    yield "each is its own", [(top / os.fsdecode(name)).read_bytes() == name for name in names]


def hidden_names(top: pathlib.Path) -> Steps:
    """Names at the top of the mount where files stay that were removed while they are open."""
    path = top.parent.parent / os.fsdecode(b"\xff\xff\xff\xff12")
    yield "stat", tried(os.lstat, path)
    calls: dict[str, Callable[[], object]] = {
        "a folder": path.mkdir, "a file": lambda: path.write_bytes(b"file"), "a link": lambda: path.symlink_to("to")}
    for name, call in calls.items():
        refusal = tried(call)
        yield f"{name} of such a name", refusal if isinstance(refusal, str) else None
        yield f"{name} of such a name is told", path.name in os.listdir(path.parent)
        if path.is_dir():
            path.rmdir()
        path.unlink(missing_ok=True)
    (top / "moved").mkdir()
    yield "a move to such a name", tried(os.rename, top / "moved", path)
    shutil.rmtree(path, ignore_errors=True)
    shutil.rmtree(top / "moved", ignore_errors=True)


def refused_kinds(top: pathlib.Path) -> Steps:
    """What no commit can have: more names of one file, pipes, sockets and devices."""
    (top / "file").write_bytes(b"file")
    yield "hard link", tried(os.link, top / "file", top / "second name")
    yield "pipe", tried(os.mkfifo, top / "pipe")
    yield "pipe by mknod", tried(os.mknod, top / "pipe too", stat.S_IFIFO | 0o644)
    yield "file by mknod", tried(os.mknod, top / "made", stat.S_IFREG | 0o755)
    yield "folder by mknod", tried(os.mknod, top / "folder", stat.S_IFDIR | 0o755)
    with socket.socket(socket.AF_UNIX) as ours, contextlib.chdir(top):
        yield "socket", tried(ours.bind, "socket")
    if os.getuid() == 0:
        yield "device", tried(os.mknod, top / "device", stat.S_IFCHR | 0o644, os.makedev(1, 3))
    yield "extended attributes", tried(os.listxattr, top / "file")
    yield "an extended attribute", tried(os.getxattr, top / "file", "user.none")
    for path in top.iterdir():
        path.unlink()


def long_links(top: pathlib.Path) -> Steps:
    """A link's target may have 4,095 bytes, and lead nowhere."""
    for size in (1, 255, 256, 4_095, 4_096):
        target = "t" * size
        yield f"a target of {size:,} bytes", tried(os.symlink, target, top / f"{size}")
        yield f"it reads, with {size:,}", tried(lambda: os.readlink(top / f"{size}") == target)
        yield f"it leads, with {size:,}", tried(os.stat, top / f"{size}")
    yield "an empty target", tried(os.symlink, "", top / "empty")


def deep(top: pathlib.Path) -> Steps:
    """Folders in one another, deeper than a path may lead, each entered from the one above."""
    name = "n" * LONGEST_NAME
    at = os.open(top, os.O_RDONLY | os.O_DIRECTORY)
    refusal = None
    for number in range(LONGEST_PATH // LONGEST_NAME + 2):
        refusal = tried(os.mkdir, name, dir_fd=at)
        if refusal is not None:
            break
        at, left = os.open(name, os.O_RDONLY | os.O_DIRECTORY, dir_fd=at), at
        os.close(left)
    yield "as deep as a path may be in the mount", number >= LONGEST_PATH // LONGEST_NAME - 2
    yield "deeper", refusal
    yield "a link deeper", tried(os.symlink, "target", "n" * 200, dir_fd=at)
    os.close(at)
    shutil.rmtree(top / name)


def large(top: pathlib.Path) -> Steps:
    """Files may be so large; what is refused changes nothing."""
    path = top / "large"
    path.write_bytes(b"large")
    with opened(path, os.O_RDWR) as file:
        yield "truncate to more than there may be", tried(os.ftruncate, file, LONGEST_FILE + 1)
        os.ftruncate(file, 5)
        yield "write behind what there may be", tried(os.pwrite, file, b"x", LONGEST_FILE)
        os.ftruncate(file, 5)
        yield "read far behind it", tried(os.pread, file, 1, 2**62)
        yield "write at the largest offset of all", tried(os.pwrite, file, b"x", 2**63 - 1)
        os.ftruncate(file, 5)
        yield "read after them", os.pread(file, 9, 0)


CALLS: list[Callable[[pathlib.Path], Steps]] = [
    removed_while_open, replaced_while_open, removed_before_open, moved_folder, removed_folder,
    removed_where_one_stands, exclusive, appending, cut, positions, through_memory, programs, copies, pieces, kept_room,
    locks, times, stamps, permissions, counted, listings, names_that_move_on, kinds_in_rows, odd_names, hidden_names,
    refused_kinds, long_links, deep, large,
]
