"""The operations of `folder_operations.Folder` on a folder that `mountd fuse` shows, by messages that a socket hands
over: those that Linux sends for these calls if it keeps nothing of what it was told.

Names are looked up one by one, and forgotten once a call is done. What Linux decides before it asks is decided here.
"""

import contextlib
import errno
import os
import stat
from collections.abc import Iterator
from typing import Any, NamedTuple

from folder_operations import LONGEST_PATH, MODES, Attributes, attributes
from message_model import ANSWER, ATTRIBUTES, DOTS, ENTRY, OPENED, ROOT, ROW, VALID, WRITTEN, spelled
from mount_messages import STARTS, Kernel
from yakembi.tree_model import LONGEST_DATA, Path

MOST_WRITTEN = 1 << 17
MODE, SIZE, MTIME, MTIME_NOW, ATIME, ATIME_NOW = 1, 8, 32, 256, 16, 128
# What Linux says of the top itself, which it names to nobody.
OF_THE_TOP = {"unlink": errno.EISDIR, "create": errno.EEXIST, "mkdir": errno.EEXIST, "symlink": errno.EEXIST,
              "rename": errno.EBUSY}


class Found(NamedTuple):
    """What an answer tells of a node."""

    node: int
    number: int
    size: int
    mode: int
    owner: tuple[int, int]
    # When its content was changed, and when that or its entry was, in nanoseconds.
    content: int
    entry: int

    def is_folder(self) -> bool:
        return stat.S_ISDIR(self.mode)


def found_in(node: int, body: bytes) -> Found:
    number, size, _, _, content, entry, _, content_rest, entry_rest, mode, _, user, group, *_ = ATTRIBUTES.unpack(body)
    return Found(node, number, size, mode, (user, group), content * 10**9 + content_rest, entry * 10**9 + entry_rest)


class MessageFolder:
    def __init__(self, kernel: Kernel) -> None:
        self.kernel = kernel
        kernel.asked(STARTS)
        # How often what is looked up is to be forgotten.
        self.told: dict[int, int] = {}

    def ask(self, word: str, node: int, *fields: Any) -> bytes:
        """The body of the answer, or its error."""
        answer = self.kernel.asked(spelled(word, 5, node, *fields))
        _, error, _ = ANSWER.unpack_from(answer)
        if error:
            number = (1 << 32) - error
            raise OSError(number, os.strerror(number))
        return answer[ANSWER.size:]

    # ---- nodes

    @contextlib.contextmanager
    def forgetting(self) -> Iterator[None]:
        """What is told of in the block is forgotten after it."""
        try:
            yield
        finally:
            for node, times in self.told.items():
                self.kernel.send(spelled("forget", 5, node, times))
            self.told.clear()

    def entry(self, body: bytes) -> Found:
        node = ENTRY.unpack_from(body)[0]
        if node == 0:
            raise OSError(errno.ENOENT, "it isn't there")
        self.told[node] = self.told.get(node, 0) + 1
        return found_in(node, body[ENTRY.size : ENTRY.size + ATTRIBUTES.size])

    def at(self, path: Path) -> Found:
        if sum(len(name) + 1 for name in path) > LONGEST_PATH:
            raise OSError(errno.ENAMETOOLONG, "as where a path is handed over whole")
        found = found_in(ROOT, self.ask("getattr", ROOT, 0, 0, 0)[VALID.size:])
        for name in path:
            if not found.is_folder():
                raise OSError(errno.ENOTDIR, "no folder")
            found = self.entry(self.ask("lookup", found.node, name))
        return found

    def above(self, path: Path, word: str) -> tuple[int, bytes]:
        """The node of the folder in which the path's last name is to be changed, and that name."""
        if not path:
            raise OSError(OF_THE_TOP[word], "the top")
        if sum(len(name) + 1 for name in path) > LONGEST_PATH:
            raise OSError(errno.ENAMETOOLONG, "as where a path is handed over whole")
        found = self.at(path[:-1])
        if not found.is_folder():
            raise OSError(errno.ENOTDIR, "no folder")
        return found.node, path[-1]

    @contextlib.contextmanager
    def opened(self, path: Path, flags: int) -> Iterator[int]:
        """The node of an open file."""
        with self.forgetting():
            node = self.at(path).node
            handle, *_ = OPENED.unpack(self.ask("open", node, flags, 0))
            try:
                yield node
                self.ask("flush", node, handle, 0, 0, 0)
            finally:
                self.ask("release", node, handle, 0, 0, 0)

    # ---- the operations

    def look(self, path: Path) -> Found:
        with self.forgetting():
            return self.at(path)

    def getattr(self, path: Path) -> Attributes:
        found = self.look(path)
        return attributes(found.mode, found.size, found.owner)

    def rows(self, path: Path) -> list[tuple[int, bytes]]:
        """The numbers and names of a listing's rows."""
        with self.forgetting():
            node = self.at(path).node
            handle, *_ = OPENED.unpack(self.ask("opendir", node, os.O_DIRECTORY, 0))
            rows: list[tuple[int, bytes]] = []
            offset = 0
            try:
                while told := self.ask("readdir", node, handle, offset, 4_096, 0, 0, 0, 0):
                    while told:
                        number, offset, length, _ = ROW.unpack_from(told)
                        rows.append((number, told[ROW.size : ROW.size + length]))
                        told = told[-(-(ROW.size + length) // 8) * 8:]
            finally:
                self.ask("releasedir", node, handle, 0, 0, 0)
            return rows

    def readdir(self, path: Path) -> list[bytes]:
        names = [name for _, name in self.rows(path)]
        assert names[: len(DOTS)] == DOTS, f"no listing begins so: {names[: len(DOTS)]}"
        return sorted(names[len(DOTS):])

    def read(self, path: Path, offset: int, length: int) -> bytes:
        with self.opened(path, os.O_RDONLY) as node:
            content = bytearray()
            while True:
                wanted = min(length - len(content), LONGEST_DATA)
                piece = self.ask("read", node, 0, offset + len(content), wanted, 0, 0, 0, 0) if wanted else b""
                content += piece
                if len(piece) < LONGEST_DATA:
                    return bytes(content)

    def write(self, path: Path, offset: int, data: bytes) -> int:
        with self.opened(path, os.O_WRONLY) as node:
            done = 0
            while done < len(data):
                piece = data[done : done + MOST_WRITTEN]
                done += WRITTEN.unpack(self.ask("write", node, 0, offset + done, len(piece), 0, 0, 0, 0, piece))[0]
            return done

    def set(self, node: int, valid: int, mode: int = 0, size: int = 0, content: int = 0) -> Found:
        """Attributes are set. The times are that of the content, and of a last look 7 seconds."""
        seconds, rest = divmod(content, 10**9)
        told = self.ask("setattr", node, valid, 0, 0, size, 0, 7, seconds, 0, 0, rest, 0, mode, 0, 0, 0, 0)
        return found_in(node, told[VALID.size:])

    def truncate(self, path: Path, size: int) -> None:
        with self.opened(path, os.O_WRONLY) as node:
            self.set(node, SIZE, size=size)

    def create(self, path: Path) -> None:
        with self.forgetting():
            node, name = self.above(path, "create")
            mode = stat.S_IFREG | MODES[False]
            found = self.entry(self.ask("create", node, os.O_WRONLY | os.O_EXCL, mode, 0, 0, name))
            self.ask("release", found.node, 0, 0, 0, 0)

    def chmod(self, path: Path, executable: bool) -> None:
        with self.forgetting():
            found = self.at(path)
            if stat.S_ISLNK(found.mode):
                raise OSError(errno.ELOOP, "a link")
            self.set(found.node, MODE, mode=stat.S_IFMT(found.mode) | MODES[executable])

    def set_content_time(self, path: Path, valid: int, content: int = 0) -> Found:
        with self.forgetting():
            return self.set(self.at(path).node, valid, content=content)

    def mkdir(self, path: Path) -> None:
        with self.forgetting():
            node, name = self.above(path, "mkdir")
            self.entry(self.ask("mkdir", node, stat.S_IFDIR | MODES[True], 0, name))

    def symlink(self, path: Path, target: bytes) -> None:
        if not target or len(target) > LONGEST_PATH:
            raise OSError(errno.ENAMETOOLONG if target else errno.ENOENT, "as Linux says before it looks up the path")
        with self.forgetting():
            node, name = self.above(path, "symlink")
            self.entry(self.ask("symlink", node, name, target))

    def readlink(self, path: Path) -> bytes:
        with self.forgetting():
            return self.ask("readlink", self.at(path).node)

    def unlink(self, path: Path) -> None:
        with self.forgetting():
            node, name = self.above(path, "unlink")
            self.ask("unlink", node, name)

    def rmdir(self, path: Path) -> None:
        with self.forgetting():
            node, name = self.above(path, "rmdir")
            self.ask("rmdir", node, name)

    def rename(self, source: Path, target: Path) -> None:
        with self.forgetting():
            if not source:
                # Where it is to go is looked for before the top is refused.
                self.above(target, "rename")
            (node, name), (head, new) = self.above(source, "rename"), self.above(target, "rename")
            # What isn't there is told before a new name that is too long.
            self.entry(self.ask("lookup", node, name))
            self.ask("rename", node, head, name, new)
