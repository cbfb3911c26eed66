"""Git's objects as a pack, which Git reads by its own plumbing (Git's pack format, version 2)."""

import hashlib
import pathlib
import struct
import zlib
from collections.abc import Iterator
from typing import IO

from yakembi.git import PIECE

KINDS = {b"tree": 2, b"blob": 3}


def objects_in(folder: pathlib.Path) -> list[pathlib.Path]:
    """The files of a directory of framed objects."""
    return sorted(path for path in folder.glob("??/*") if path.is_file())


def write_pack(pack: IO[bytes], objects: list[pathlib.Path]) -> None:
    """Writes a pack of these framed objects."""
    digest = hashlib.sha1()
    for piece in pieces_of(objects):
        digest.update(piece)
        pack.write(piece)
    pack.write(digest.digest())


def pieces_of(objects: list[pathlib.Path]) -> Iterator[bytes]:
    yield struct.pack(">4sII", b"PACK", 2, len(objects))
    for path in objects:
        yield from entry_of(path)


def entry_of(path: pathlib.Path) -> Iterator[bytes]:
    """A framed object as the pack has it. No more than a piece of it is held at a time."""
    deflater = zlib.compressobj()
    with path.open("rb") as file:
        header, _, piece = file.read(PIECE).partition(b"\0")
        word, _, length = header.partition(b" ")
        yield entry_header(KINDS[word], int(length))
        while piece:
            yield deflater.compress(piece)
            piece = file.read(PIECE)
    yield deflater.flush()


def entry_header(kind: int, length: int) -> bytes:
    """The kind and the length, seven bits a byte after the first four, the lowest first."""
    byte, rest = kind << 4 | length & 15, length >> 4
    found = bytearray()
    while rest:
        found.append(byte | 128)
        byte, rest = rest & 127, rest >> 7
    found.append(byte)
    return bytes(found)
