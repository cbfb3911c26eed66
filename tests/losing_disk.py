"""A program on a disk that loses what nobody waited for: it is run and watched, call by call, and what a folder of its
own would have after a loss of power is written down whenever the program waits for the disk.

    python3 tests/losing_disk.py FOLDER RECORD PROGRAM [WORD ..]

After each `fsync` and `fdatasync` the folder RECORD has the bytes of each file that was waited for, under its inode
number, and which files have names in FOLDER, as they were when that folder was waited for: `Kept` reads it. While
RECORD has a file `fails` each of these calls is EIO, and nothing is waited for. Standard input and output are the
program's, and so is the status. It needs ptrace.
"""

import errno
import json
import os
import pathlib
import sys
from typing import NamedTuple

import tracing
from tracing import Calls, Info

# The numbers of the calls (x86-64).
FSYNC, FDATASYNC, UNLINK, UNLINKAT = 74, 75, 87, 263
# `open` and `openat`, and where their flags stand.
MAKES = {2: 1, 257: 2}
MADE = os.O_CREAT | os.O_EXCL
NAMES, FAILS = "names", "fails"


class Kept(NamedTuple):
    """What the disk has: the bytes of files by their inode numbers, and such a number for each name."""

    bytes: dict[int, bytes]
    names: dict[str, int]


def kept_in(record: pathlib.Path) -> Kept:
    files = {int(file.name): file.read_bytes() for file in record.iterdir() if file.name not in (NAMES, FAILS)}
    names = record / NAMES
    return Kept(files, json.loads(names.read_text()) if names.exists() else {})


def names_in(folder: pathlib.Path) -> dict[str, int]:
    return {entry.name: entry.inode() for entry in os.scandir(folder)}


class Disk(Calls):
    """What is on the disk of the files in a folder."""

    def __init__(self, folder: pathlib.Path, record: pathlib.Path) -> None:
        super().__init__()
        self.folder, self.record = folder, record

    def error_of(self, call: Info) -> int:
        return errno.EIO if call.number in (FSYNC, FDATASYNC) and (self.record / FAILS).exists() else 0

    def done(self, task: int, call: Info, returned: int) -> None:
        if call.number in (FSYNC, FDATASYNC):
            self.waited(pathlib.Path(f"/proc/{task}/fd/{call.words[0]}"))
        elif call.number in MAKES and call.words[MAKES[call.number]] & MADE == MADE:
            # A file that was there before may have had the same number.
            self.place(pathlib.Path(f"/proc/{task}/fd/{returned}")).unlink(missing_ok=True)

    def place(self, file: pathlib.Path) -> pathlib.Path:
        return self.record / str(file.stat().st_ino)

    def waited(self, file: pathlib.Path) -> None:
        """The program waited for an open file, or for the folder's names."""
        if not file.is_dir():
            self.place(file).write_bytes(file.read_bytes())
        elif file.samefile(self.folder):
            (self.record / NAMES).write_text(json.dumps(names_in(self.folder)))


def main(words: list[str]) -> int:
    folder, record, *program = words
    return tracing.run(Disk(pathlib.Path(folder), pathlib.Path(record)), program)


if __name__ == "__main__":
    sys.exit(main(sys.argv[1:]))
