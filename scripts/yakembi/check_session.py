"""Whether what a mount told its clients is what a commit's whole tree tells, in one order of all their requests.

    check-session [--overlay DIR] [--states N] [--order] RECORD REPOSITORY REVISION

RECORD is a folder of what clients sent and got: for each a file NAME.sent with its lines and a file NAME.got with the
replies, as two `tee`s write them or `record` of yakembi.client, which writes NAME.times beside them. The tree is that
of the revision, or what the overlay DIR shows over it, as it was before the first request.

A `stat` gives one inode number of a thing, wherever that is moved to, and of nothing else after it. That is the one
that the files of DIR have, or else any that isn't spent by then: below what they give next, or told before.

The order keeps each client's own; if there are times, also that of requests of which one was answered before the
other was sent. Faults change nothing. The last line is an order, none, or that the search gave up after N states; the
status is 0, 1 or 3, and 2 if there is nothing to judge. With --order each request is printed in its turn.
"""

import argparse
import pathlib
import sys
from collections.abc import Callable
from typing import NamedTuple

from yakembi.git import FOLDERS, SUBMODULE, Objects, Refusal, Repository, entries
from yakembi.overlay_files import Damaged, Shown, state_of, stored
from yakembi.session_lines import read_line
from yakembi.session_order import MOST_STATES, Asked, Search, Undecided
from yakembi.tree_model import Node, Numbers, Path

FOUND, NONE, UNJUDGED, UNDECIDED = range(4)
SHOWN_BYTES = 200
LEAVES: dict[bytes, Callable[[bytes], Node]] = {
    b"100644": lambda content: ("file", False, content),
    b"100664": lambda content: ("file", False, content),
    b"100755": lambda content: ("file", True, content),
    b"120000": lambda content: ("link", content),
}


# ---- the tree


class Contents(dict[str, bytes]):
    """The bodies of objects by their ids, each asked for once."""

    def __init__(self, objects: Objects) -> None:
        super().__init__()
        self.objects = objects

    def __missing__(self, object_id: str) -> bytes:
        found = self.objects.ask(object_id)
        if found is None:
            raise Refusal(f"the repository lacks the object {object_id}")
        self[object_id] = b"".join(self.objects.pieces(found[1]))
        return self[object_id]


class GitCommit:
    """A commit's whole tree, as Git has it."""

    def __init__(self, repository: Repository, revision: str) -> None:
        self.root = repository.tree_of(revision)
        self.contents = Contents(repository.objects())

    def below(self, tree_id: str) -> dict[Path, Node]:
        """What stands below a directory of that tree object, by the paths from there."""
        nodes: dict[Path, Node] = {}
        folders: list[tuple[Path, str]] = [((), tree_id)]
        for path, folder in folders:
            for mode, name, object_id in entries(folder, self.contents[folder]):
                if mode in FOLDERS:
                    folders.append((path + (name,), object_id))
                nodes[path + (name,)] = self.node(mode, object_id)
        return nodes

    def node(self, mode: bytes, object_id: str) -> Node:
        if mode in FOLDERS or mode == SUBMODULE:
            return "dir", True
        if mode not in LEAVES:
            raise Refusal(f"an entry of the commit has the mode {mode.decode()}")
        return LEAVES[mode](self.contents[object_id])


def first_tree(commit: GitCommit, overlay: pathlib.Path | None) -> tuple[dict[Path, Node], Numbers]:
    """The nodes that stand before the first request, and the inode numbers that the overlay's files show of them."""
    files = stored(overlay) if overlay else {}
    if 0 in files and state_of(files[0])[0] != commit.root:
        raise Refusal(f"the overlay stands on the tree {state_of(files[0])[0]}, and the revision's is {commit.root}")
    shown = Shown(commit, files)
    following = state_of(files[0])[1] if 0 in files else shown.next_number
    return shown.nodes, Numbers(shown.places, following)


# ---- what clients sent and got

# When a line was sent, and when its reply was heard.
Times = tuple[int | None, int | None]


class ClientRecord(NamedTuple):
    """A client's lines with their replies, of which the last may lack theirs, and the times of each."""

    name: str
    lines: list[bytes]
    replies: list[bytes]
    times: list[Times]

    def reply(self, number: int) -> bytes | None:
        """The reply to the line of that number."""
        return self.replies[number - 1] if number <= len(self.replies) else None


def ended_lines(path: pathlib.Path) -> tuple[list[bytes], bytes]:
    """The lines of a file, and what is after the last line feed."""
    *lines, rest = path.read_bytes().split(b"\n")
    return lines, rest


def read_client(path: pathlib.Path) -> ClientRecord:
    """What the client of that file of sent lines sent and got."""
    lines, rest = ended_lines(path)
    replies, _ = ended_lines(path.with_suffix(".got"))
    # A last line that isn't ended is no request, whatever it says.
    lines += [rest + b"\n"] if rest else []
    if len(replies) > len(lines):
        raise Refusal(f"{path.stem} got {len(replies)} replies to {len(lines)} lines")
    return ClientRecord(path.stem, lines, replies, read_times(path.with_suffix(".times"), len(lines)))


def read_times(path: pathlib.Path, count: int) -> list[Times]:
    """When each line was sent and its reply heard; None, None for each if there is no such file."""
    if not path.exists():
        return [(None, None)] * count
    rows = [[int(word) for word in row.split()] for row in path.read_bytes().splitlines()]
    if len(rows) != count or not all(1 <= len(row) <= 2 for row in rows):
        raise Refusal(f"{path.name} has not the times of {count} lines")
    return [(row[0], row[1] if len(row) == 2 else None) for row in rows]


class Wrong(Exception):
    """A reply that no tree gives."""


def requests_of(client: ClientRecord) -> list[tuple[int, Asked]]:
    """The client's requests that a tree answers, each with the number of its line. Other lines have the reply that they
    can have alone, and after one that ends the session nothing is read."""
    asked: list[tuple[int, Asked]] = []
    for number, line in enumerate(client.lines, 1):
        read = read_line(line)
        reply = client.reply(number)
        if read.reply is None:
            sent, heard = client.times[number - 1]
            asked.append((number, Asked(read.word, read.fields, sent, heard if reply is not None else None, reply)))
        elif reply not in (None, read.reply):
            raise Wrong(f"{told(client, number)}, and is answered {text(read.reply)} by any tree")
        if read.ends:
            if len(client.replies) > number:
                raise Wrong(f"{client.name} got replies behind line {number}, which ends a session")
            break
    return asked


# ---- what is said


def text(line: bytes) -> str:
    shown = line.decode(errors="replace").rstrip("\n")
    return shown if len(shown) <= SHOWN_BYTES else f"{shown[:SHOWN_BYTES]}.."


def told(client: ClientRecord, number: int) -> str:
    """The line of that number, and what the client was told."""
    reply = client.reply(number)
    got = "was not answered" if reply is None else f"was told {text(reply)}"
    return f"{client.name} line {number}: {text(client.lines[number - 1])}: {got}"


def judge(clients: list[ClientRecord], nodes: dict[Path, Node], numbers: Numbers, options: argparse.Namespace) -> int:
    asked = [requests_of(client) for client in clients]
    search = Search([[row for _, row in rows] for rows in asked], nodes, most_states=options.states, numbers=numbers)
    count = sum(len(rows) for rows in asked)
    try:
        order = search.run()
    except Undecided:
        print(f"undecided after {options.states} states")
        return UNDECIDED
    if order is None:
        for client, at, reply in search.stuck:
            print(f"{told(clients[client], asked[client][at][0])}, and the tree replies {text(reply or b'nothing')}")
        print(f"none: no order of the {count} requests gives every reply; one has the first {search.longest}, and then"
              " none of the above")
        return NONE
    if options.order:
        places = [iter(rows) for rows in asked]
        for client in order:
            print(told(clients[client], next(places[client])[0]))
    print(f"an order of the {count} requests of {len(clients)} clients gives every reply")
    return FOUND


def main() -> int:
    words = argparse.ArgumentParser(description=__doc__.partition("\n")[0])
    words.add_argument("--overlay", metavar="DIR", type=pathlib.Path, help="the overlay, as it was before the session")
    words.add_argument("--states", metavar="N", type=int, default=MOST_STATES,
                       help=f"after how many states the search gives up (default: {MOST_STATES})")
    words.add_argument("--order", action="store_true", help="prints the requests in the order that is found")
    words.add_argument("record", metavar="RECORD", type=pathlib.Path, help="the folder of what clients sent and got")
    words.add_argument("repository", metavar="REPOSITORY")
    words.add_argument("revision", metavar="REVISION")
    options = words.parse_args()
    try:
        clients = [read_client(path) for path in sorted(options.record.glob("*.sent"))]
        if not clients:
            raise Refusal(f"{options.record} has no file NAME.sent")
        commit = GitCommit(Repository(options.repository), options.revision)
        nodes, numbers = first_tree(commit, options.overlay)
        commit.contents.objects.end()
        return judge(clients, nodes, numbers, options)
    except Wrong as wrong:
        print(f"{wrong}\nnone: no order gives that reply")
        return NONE
    except Damaged as damage:
        print(f"check-session: the overlay is damaged: {damage.args[0]}", file=sys.stderr)
    except (Refusal, OSError) as problem:
        print(f"check-session: {problem}", file=sys.stderr)
    return UNJUDGED

