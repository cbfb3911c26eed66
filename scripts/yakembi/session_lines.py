"""The lines of a session as requests: the line protocol of docs/MOUNTD.md, read strictly.

`read_line` gives what a line is: a request; one that is refused for its names before any tree is asked, with the reply;
or no request at all, which ends the session.
"""

import re
from collections.abc import Callable
from typing import NamedTuple
from urllib.parse import unquote_to_bytes

from yakembi.client import GREATEST_NUMBER, LONGEST_NAME, LONGEST_PATH, MOST_NAMES, name_text
from yakembi.tree_model import Path

LONGEST_LINE = 150_000
BAD_LINE = b"err 71 EPROTO"
INVALID, TOO_LONG = b"err 22 EINVAL", b"err 36 ENAMETOOLONG"

Field = Path | int | bytes | None


class Line(NamedTuple):
    """A request's word and its fields; or the one reply that it can have, whatever the tree is."""

    word: str
    fields: tuple[Field, ...]
    reply: bytes | None = None
    # Whether the session ends with it.
    ends: bool = False


class NotSpelled(Exception):
    """The line is no request's spelling."""


class RefusedName(Exception):
    """The request has names that are none."""

    def __init__(self, reply: bytes) -> None:
        super().__init__(reply)
        self.reply = reply


def need(condition: object) -> None:
    if not condition:
        raise NotSpelled


def component_in(text: bytes) -> bytes:
    """The bytes that a text between two slashes spells."""
    name = unquote_to_bytes(text)
    need(name and name_text(name) == text)
    return name


def path_in(text: bytes) -> Path:
    need(text.startswith(b"/"))
    return tuple(component_in(part) for part in text[1:].split(b"/")) if text != b"/" else ()


def number_in(text: bytes) -> int:
    need(re.fullmatch(b"0|[1-9][0-9]*", text) and int(text) <= GREATEST_NUMBER)
    return int(text)


def bit_in(text: bytes) -> bool:
    need(text in (b"0", b"1"))
    return text == b"1"


def data_in(text: bytes) -> bytes:
    need(text == b"-" or re.fullmatch(b"([0-9a-f]{2})+", text))
    return b"" if text == b"-" else bytes.fromhex(text.decode())


def after_in(text: bytes) -> bytes | None:
    return None if text == b"-" else component_in(text)


SHAPES: dict[bytes, list[Callable[[bytes], Field]]] = {
    b"kind": [path_in], b"stat": [path_in], b"read": [path_in, number_in, number_in], b"readlink": [path_in],
    b"list": [path_in, after_in, number_in], b"write": [path_in, number_in, data_in], b"truncate": [path_in, number_in],
    b"create": [path_in], b"setexec": [path_in, bit_in], b"mkdir": [path_in], b"symlink": [path_in, data_in],
    b"unlink": [path_in], b"rmdir": [path_in], b"rename": [path_in, path_in],
}


def refuse_name(name: bytes) -> None:
    if name in (b".", b"..") or b"/" in name or b"\0" in name:
        raise RefusedName(INVALID)
    if len(name) > LONGEST_NAME:
        raise RefusedName(TOO_LONG)


def refuse_path(path: Path) -> None:
    """Raises the first refusal of a path's names, and then its own."""
    for name in path:
        refuse_name(name)
    if len(path) > MOST_NAMES or sum(len(name) + 1 for name in path) > LONGEST_PATH:
        raise RefusedName(TOO_LONG)


def refuse_field(field: Field, read: Callable[[bytes], Field]) -> None:
    """Raises the first refusal of a field's names."""
    if isinstance(field, tuple):
        refuse_path(field)
    elif read is after_in and isinstance(field, bytes):
        refuse_name(field)


def read_line(line: bytes) -> Line:
    """What a line is, without its line feed."""
    word, *texts = line.split(b" ")
    shape = SHAPES.get(word, [])
    try:
        need(len(line) <= LONGEST_LINE and shape and len(shape) == len(texts))
        fields = [read(text) for read, text in zip(shape, texts)]
        for field, read in zip(fields, shape):
            refuse_field(field, read)
    except NotSpelled:
        return Line("", (), BAD_LINE, True)
    except RefusedName as refusal:
        return Line("", (), refusal.reply)
    return Line(word.decode(), tuple(fields))
