"""A disk that is soon full, and one in memory."""

import contextlib
import os
import pathlib
import tempfile
from collections.abc import Iterator

from helpers.running import finished


@contextlib.contextmanager
def small_disk(place: pathlib.Path, size: int) -> Iterator[pathlib.Path | None]:
    """A folder, which is made, on a disk of that many bytes; None if nothing may be mounted."""
    place.mkdir()
    try:
        done = finished(["mount", "-t", "tmpfs", "-o", f"size={size}", "tmpfs", place], capture_output=True)
        is_mounted = done.returncode == 0
    except FileNotFoundError:
        is_mounted = False
    try:
        yield place if is_mounted else None
    finally:
        if is_mounted:
            # Also if a program that hangs still uses it.
            finished(["umount", "-l", place], capture_output=True)


# Where most machines have a directory in memory, and the most bytes of one that is made.
SHARED_MEMORY = pathlib.Path("/dev/shm")
MOST_MEMORY = 1 << 30


@contextlib.contextmanager
def folder_in_memory() -> Iterator[pathlib.Path]:
    """A directory that no disk delays, whose file system keeps what is waited for. On a disk if memory has none."""
    with tempfile.TemporaryDirectory() as name, small_disk(pathlib.Path(name) / "memory", MOST_MEMORY) as made:
        beside = SHARED_MEMORY if os.access(SHARED_MEMORY, os.W_OK) else None
        with tempfile.TemporaryDirectory(dir=made or beside) as folder:
            yield pathlib.Path(folder)
