"""Wrong bodies: where they stand, and what each makes of its crate's files.

An edit is a file of lines: `file: src/NAME.rt`, and then pairs of `old: TEXT` and `new: TEXT`, each text on one line.
The pairs are applied in turn, and each old text stands exactly once in what the pairs before it made of the file.
"""

import os
import pathlib
import re
import signal
import sys
from collections.abc import Iterator

# What the gate tries, and what `make wrong-bodies` tries.
GATE, REST = "must-fail", "wrong-bodies"
FOLDERS = (GATE, REST)
NAME = re.compile(r"[A-Za-z0-9_-][A-Za-z0-9_.-]*\.edit")
PARTS = ("src/", "specs/", "proofs/")


class Unfit(Exception):
    """An edit that can't be applied, and why."""


def lines_of(edit: pathlib.Path) -> Iterator[tuple[str, str]]:
    """Each line of the edit: its word and its text."""
    for number, line in enumerate(edit.read_text().split("\n"), 1):
        word, colon, text = line.partition(":")
        if colon and word in ("file", "old", "new"):
            yield word, text.removeprefix(" ")
        elif line:
            raise Unfit(f"its line {number} begins with none of file, old and new")


def changed_files(edit: pathlib.Path, crate: pathlib.Path) -> dict[pathlib.Path, str]:
    """The files of the crate's directory that the edit changes, and their texts after it."""
    found: dict[pathlib.Path, str] = {}
    file: pathlib.Path | None = None
    old: str | None = None
    pairs = 0
    for word, text in lines_of(edit):
        if (word == "new") != (old is not None):
            raise Unfit("its old and new lines don't come in pairs")
        if word == "file":
            file = crate / os.path.normpath(text)
            if not text.startswith(PARTS) or str(file.relative_to(crate)) != text:
                raise Unfit(f"it names no file below {', '.join(PARTS)}: {text}")
            if not file.is_file():
                raise Unfit(f"there is no file {text}")
            found.setdefault(file, file.read_text())
        elif file is None:
            raise Unfit("it names no file before its first pair")
        elif word == "old":
            old = text
        else:
            found[file], old, pairs = replaced(found[file], old or "", text), None, pairs + 1
    if old is not None or pairs == 0:
        raise Unfit("its old and new lines don't come in pairs")
    if all(file.read_text() == text for file, text in found.items()):
        raise Unfit("it changes nothing")
    return found


def replaced(text: str, old: str, new: str) -> str:
    """The text with the new in the place of the old, which stands there once."""
    count = text.count(old) if old else 0
    if count != 1:
        raise Unfit(f"it stands {count} times and not once: {old}")
    return text.replace(old, new)


def end_by_exit() -> None:
    """A terminal that is closed, or a kill, ends us by an exit, so that everything is put back first."""
    def end(number: int, _frame: object) -> None:
        sys.exit(128 + number)

    for number in (signal.SIGTERM, signal.SIGHUP):
        signal.signal(number, end)
