"""Clients of `mountd serve`, which never wait without an end, and the whole tree as one of them sees it."""

import time
import urllib.parse
from collections.abc import Iterator

import paths  # before what stands in scripts/
from helpers.clients import ENDED, LONGEST_RUN, NO_REPLY, Client, Service, serving, start_serve
from helpers.running import PATIENCE, Ending
from protocol import path_text
from yakembi.tree_model import LONGEST_DATA, MOST_ENTRIES, Node, Nodes, Path

__all__ = ["ENDED", "ENDS_WELL", "LONGEST_RUN", "NO_REPLY", "Client", "Odd", "Service", "ask_all", "asked_again",
           "leaves_seen_by", "page_of", "rows_of", "seen_by", "serving", "start_serve"]

# A good end of `Service.end`.
ENDS_WELL: Ending = (0, b"", b"")


# ---- what a client sees


class Odd(Exception):
    """A reply that isn't of the kind that what was seen before allows."""


def page_of(reply: bytes) -> bytes:
    """The bytes of a reply of data."""
    if not reply.startswith(b"data "):
        raise Odd(reply)
    return bytes.fromhex(reply.partition(b" ")[2].partition(b" ")[2].decode())


def rows_of(reply: bytes) -> list[tuple[bytes, bytes]]:
    """The kinds and names of a reply of entries that are all."""
    if not reply.startswith(b"entries ") or not reply.endswith(b" end"):
        raise Odd(reply)
    fields = reply.split(b" ")[2:-1]
    return [(kind, urllib.parse.unquote_to_bytes(name)) for kind, name in zip(fields[::2], fields[1::2])]


def ask_all(client: Client, lines: list[bytes]) -> list[bytes]:
    """The replies to lines that are sent ahead; a line that met a failed fetch is asked again."""
    client.send(*lines)
    replies = client.replies(len(lines))
    return [asked_again(client, line) if reply.startswith(b"fault fetch ") else reply
            for line, reply in zip(lines, replies)]


def asked_again(client: Client, line: bytes) -> bytes:
    """The reply, once no fetch fails any more, or some time is over."""
    end = time.monotonic() + PATIENCE
    reply = client.ask(line)
    while reply.startswith(b"fault fetch ") and time.monotonic() < end:
        reply = client.ask(line)
    return reply


def seen_by(client: Client) -> Nodes:
    """The whole tree as a client sees it, one level after another."""
    nodes: Nodes = {(): ("dir", True)}
    folders: list[Path] = [()]
    while folders:
        lines = [b"list %s - %d" % (path_text(path), MOST_ENTRIES) for path in folders]
        listed = [(path + (name,), kind) for path, reply in zip(folders, ask_all(client, lines))
                  for kind, name in rows_of(reply)]
        folders = [path for path, kind in listed if kind == b"dir"]
        nodes.update((path, ("dir", True)) for path in folders)
        nodes.update(leaves_seen_by(client, [(path, kind) for path, kind in listed if kind != b"dir"]))
    return nodes


def leaves_seen_by(client: Client, leaves: list[tuple[Path, bytes]]) -> Iterator[tuple[Path, Node]]:
    lines = [b"readlink " + path_text(path) if kind == b"link" else b"read %s 0 %d" % (path_text(path), LONGEST_DATA)
             for path, kind in leaves]
    for (path, kind), reply in zip(leaves, ask_all(client, lines)):
        content = page_of(reply)
        if kind != b"link" and len(content) == LONGEST_DATA:
            content += rest_of(client, path)
        yield path, ("link", content) if kind == b"link" else ("file", kind == b"exec", content)


def rest_of(client: Client, path: Path) -> bytes:
    """What stands in a file after its first page."""
    content = b""
    while True:
        line = b"read %s %d %d" % (path_text(path), LONGEST_DATA + len(content), LONGEST_DATA)
        page = page_of(ask_all(client, [line])[0])
        content += page
        if len(page) < LONGEST_DATA:
            return content
