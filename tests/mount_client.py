"""The client library, in a session with the program: what is never sent, what is refused, and long data."""

import contextlib
import pathlib
import random

from checks import check
from mount_differences import tried
from programs import MOUNTD, SAMPLE_OBJECTS, SAMPLE_ROOT
from yakembi import client
from yakembi.client import Session

UNSPOKEN = [
    ("no path", "kind", (b"",), "EINVAL"),
    ("a path that isn't from the root", "kind", (b"test.txt",), "EINVAL"),
    ("an empty name", "kind", (b"/a//b",), "EINVAL"),
    ("an empty name at the end", "kind", (b"/a/",), "EINVAL"),
    ("the folder itself", "read", (b"/.", 0, 1), "EINVAL"),
    ("the folder above", "list", (b"/a/..",), "EINVAL"),
    ("a NUL", "create", (b"/a\0b",), "EINVAL"),
    ("a name of 256 bytes", "mkdir", (b"/" + b"n" * 256,), "ENAMETOOLONG"),
    ("257 names", "unlink", (b"/n" * 257,), "ENAMETOOLONG"),
    ("a path of 4,096 bytes", "rmdir", (b"/" + b"n" * 254 + (b"/" + b"n" * 255) * 15 + b"/",), "EINVAL"),
    ("a path of 4,097 bytes", "stat", ((b"/" + b"n" * 240) * 17,), "ENAMETOOLONG"),
    ("the first of two bad names", "kind", (b"/" + b"n" * 256 + b"/..",), "ENAMETOOLONG"),
    ("a rename from a bad name", "rename", (b"/..", b"/a"), "EINVAL"),
    ("a rename to a long name", "rename", (b"/a", b"/" + b"n" * 256), "ENAMETOOLONG"),
    ("a target of 4,096 bytes", "symlink", (b"/a", b"t" * 4_096), "ENAMETOOLONG"),
    ("an offset below 0", "read", (b"/test.txt", -1, 1), "EINVAL"),
    ("a size below 0", "truncate", (b"/test.txt", -1), "EINVAL"),
    ("an offset over 64 bits", "write", (b"/test.txt", 1 << 64, b"x"), "EINVAL"),
    ("a bad name to go on from", "list", (b"/", b".."), "EINVAL"),
]

REFUSED = [
    ("nothing there", "kind", (b"/no",), "ENOENT"),
    ("a file as a folder", "kind", (b"/test.txt/a",), "ENOTDIR"),
    ("a folder's listing of no entries", "list", (b"/", None, 0), "EINVAL"),
    ("a link to nothing", "symlink", (b"/a", b""), "ENOENT"),
    ("a file over 2^30 bytes", "truncate", (b"/test.txt", (1 << 30) + 1), "EFBIG"),
    ("a write beyond 2^30", "write", (b"/test.txt", 1 << 30, b"x"), "EFBIG"),
    ("something over a file", "create", (b"/test.txt",), "EEXIST"),
    ("the root away", "rmdir", (b"/",), "EBUSY"),
    ("the root as a file", "unlink", (b"/",), "EISDIR"),
    ("a file as a link", "readlink", (b"/test.txt",), "EINVAL"),
]


def check_client(folder: pathlib.Path) -> None:
    """What can't be spelled is never sent, what is refused has its number, and long reads and listings come whole."""
    words = [MOUNTD, "stdio", "--root", SAMPLE_ROOT, "--objects", SAMPLE_OBJECTS]
    with client.start([str(word) for word in words]) as session:
        session.record(folder, "client")
        for name, word, fields, error in UNSPOKEN:
            told = tried(getattr(session, word), *fields)
            check(f"client: {name}, unsent", (told, (folder / "client.sent").read_bytes()), (error, b""))
        for name, word, fields, error in REFUSED:
            check(f"client: {name}", tried(getattr(session, word), *fields), error)
        check_client_data(session)
        session.exchange(b"no request\n")
        with contextlib.suppress(client.SessionEnded):
            check("client: a session that is over", session.kind(b"/"), "no answer")
        check("client: the child's end", session.close(), 0)


def check_client_data(session: Session) -> None:
    data = random.Random(1).randbytes(200_001)
    session.create(b"/\xff\n %41")
    check("client: a long write", session.write(b"/\xff\n %41", 70_000, data), len(data))
    check("client: a long read", session.read(b"/\xff\n %41", 69_998, 1 << 20), b"\0\0" + data)
    check("client: its length", session.stat(b"/\xff\n %41")[:2], ("file", 270_001))
    check("client: a read of nothing", session.read(b"/\xff\n %41", 0, 0), b"")
    check("client: a write of nothing", session.write(b"/\xff\n %41", 5, b""), 0)
    session.mkdir(b"/many")
    names = sorted(b"%d" % number for number in range(2_001))
    for name in names[:-1]:
        session.create(b"/many/" + name)
    check("client: two full pages", [name for name, _ in session.entries(b"/many")], names[:-1])
    session.symlink(b"/many/" + names[-1], b"t" * 4_095)
    check("client: a page of one", list(session.entries(b"/many"))[-1], (names[-1], "link"))
    check("client: a long target", session.readlink(b"/many/" + names[-1]), b"t" * 4_095)
    session.setexec(b"/test.txt", True)
    rows = [(b"many", "dir"), (b"test.txt", "exec"), (b"\xff\n %41", "file")]
    check("client: kinds", list(session.entries(b"/")), rows)
