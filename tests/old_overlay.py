"""The overlay of examples/overlay-version-1, byte for byte, and the tree that it shows.

The program wrote it when its stored files had version 1, over the sample commit, for the requests of
examples/overlay-version-1.txt. What stands here was written from docs/FORMATS.md and these requests.
"""

from programs import SAMPLE_ROOT
from yakembi.overlay_files import (DIRECTORY, EXECUTABLE, FILE, FOLDER, LINK, OWN, PLAIN, directory_body, entry_bytes,
                                   old_file_bytes, state_body)
from yakembi.tree_model import Nodes, Path

NEXT_NUMBER = 23
CONTENTS = {2: b"version 1\n\0\0!", 4: b"read this\n", 6: b"\0\0notes", 7: b"guide.txt", 9: b"main", 11: b"", 12: b"b",
            15: b"\0\xff\0\xff", 19: b"", 20: b"", 21: b"../elsewhere", 22: bytes(300)}
# Each directory's entries, all in files of their own: kind, number, name.
DIRECTORIES: dict[int, list[tuple[int, int, bytes]]] = {
    1: [(PLAIN, 22, b"big"), (FOLDER, 3, b"docs"), (FOLDER, 16, b"empty"), (FOLDER, 8, b"src"), (PLAIN, 2, b"test.txt"),
        (LINK, 21, b"to"), (PLAIN, 20, b"\xff-")],
    3: [(PLAIN, 4, b"guide"), (LINK, 7, b"link"), (FOLDER, 5, b"old")],
    5: [(PLAIN, 6, b"notes")],
    8: [(FOLDER, 10, b"lib"), (EXECUTABLE, 9, b"main"), (FOLDER, 18, b"moved")],
    10: [(PLAIN, 11, b"a"), (PLAIN, 12, b"b"), (FOLDER, 13, b"deep")],
    13: [(FOLDER, 14, b"er")],
    14: [(PLAIN, 15, b"file")],
    16: [],
    18: [(PLAIN, 19, b"here")],
}


def old_files() -> dict[int, bytes]:
    """The files of the overlay, by their numbers."""
    files = {0: old_file_bytes(FILE, state_body(SAMPLE_ROOT, NEXT_NUMBER))}
    for number, entries in DIRECTORIES.items():
        rows = [entry_bytes(kind, OWN, entry_number, name) for kind, entry_number, name in entries]
        files[number] = old_file_bytes(DIRECTORY, directory_body(*rows))
    files.update({number: old_file_bytes(FILE, content) for number, content in CONTENTS.items()})
    return files


def old_nodes(path: Path = (), number: int = 1) -> Nodes:
    """The nodes of the tree that it shows, by their paths."""
    nodes: Nodes = {path: ("dir", True)}
    for kind, entry_number, name in DIRECTORIES[number]:
        below = path + (name,)
        if kind == FOLDER:
            nodes.update(old_nodes(below, entry_number))
        elif kind == LINK:
            nodes[below] = ("link", CONTENTS[entry_number])
        else:
            nodes[below] = ("file", kind == EXECUTABLE, CONTENTS[entry_number])
    return nodes
