"""Prints how what a folder shows, that another run of `mount-git` has mounted, differs from the mounted tree.

That is the tree that the mount was opened with, also after a commit of what the folder shows. A line a path: A, D, M or
T as `git diff --name-status` has them, and the path from the top of the folder, quoted as Git quotes it. A directory
ends in a slash. One that was moved, added or removed as a whole has one line: what is below is as it was, or isn't
there, and nothing of it is fetched. The folder may be in use: who comes meanwhile waits, and what was written to a file
that isn't closed yet isn't listed.
"""

import argparse
import contextlib
import sys
from collections.abc import Iterator
from typing import NamedTuple
from urllib.parse import unquote_to_bytes

from yakembi.control import Connection
from yakembi.git import DOT_GIT
from yakembi.git_folder import tell_of_left

# How each byte stands in a quoted path (Git's `quote_c_style`).
ESCAPES = {7: "\\a", 8: "\\b", 9: "\\t", 10: "\\n", 11: "\\v", 12: "\\f", 13: "\\r", 34: '\\"', 92: "\\\\"}
# So a name at the top begins by which mountd keeps what was removed while it is open.
HIDDEN = b"\xff" * 4
QUOTED = {byte: ESCAPES.get(byte, chr(byte) if 32 <= byte < 127 else f"\\{byte:03o}") for byte in range(256)}


class Change(NamedTuple):
    """What was changed at a path, which has no slash at its front. `kind` is `file`, `exec`, `link`, `dir` or
    `submodule`. Below what is listed whole no change is listed."""

    letter: str
    kind: str
    path: bytes
    is_whole: bool


def changes_in(lines: Iterator[bytes]) -> Iterator[Change]:
    """The changes of the lines that `mountd changes` prints, but what nobody sees, and a file by which Git finds the
    repository."""
    for line in lines:
        letter, kind, path, *whole = line.decode().split()
        name = unquote_to_bytes(path)[1:]
        if letter != "A" or not name.startswith(HIDDEN) and (name != DOT_GIT.encode() or kind == "dir"):
            yield Change(letter, kind, name, bool(whole))


def quoted(path: bytes) -> str:
    """The path as Git prints it: in quotes, with escapes, if it has a byte that is no plain letter."""
    text = "".join(QUOTED[byte] for byte in path)
    return text if len(text) == len(path) else f'"{text}"'


def changes(words: argparse.Namespace) -> None:
    with contextlib.closing(Connection(words.folder)) as mount:
        told = mount.ask("changes")
        tell_of_left(told)
        with open(told["lines"], "rb") as lines:
            for change in changes_in(lines):
                sys.stdout.buffer.write(printed(change, words.null))
    sys.stdout.flush()


def printed(change: Change, is_null: bool) -> bytes:
    """A change as `git diff --name-status` prints it, or as it does with `-z`."""
    path = change.path + (b"/" if change.kind == "dir" else b"")
    letter = change.letter.encode()
    return letter + b"\0" + path + b"\0" if is_null else letter + f"\t{quoted(path)}\n".encode()


def changes_parser() -> argparse.ArgumentParser:
    found = argparse.ArgumentParser(prog="mount-git changes", description=__doc__,
                                    formatter_class=argparse.RawDescriptionHelpFormatter)
    found.add_argument("folder", metavar="FOLDER", help="a folder that `mount-git` shows, or one below it")
    found.add_argument("-z", "--null", action="store_true", help="print a zero byte after each letter and each path, "
                       "and quote no path, as `git diff --name-status -z` does")
    return found
