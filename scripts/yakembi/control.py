"""What another run of `mount-git` may ask of the one that shows a folder, over a socket of the folder's own.

The socket lies in a folder that its user alone may enter, under a name that is reckoned from the shown folder's path,
so that whoever knows the folder finds it. Requests and replies are lines of JSON. What a request makes is there until
its connection ends.
"""

import contextlib
import functools
import hashlib
import json
import os
import pathlib
import socket
import stat
import sys
import tempfile
import threading
from collections.abc import Callable, Iterator
from typing import Any

from yakembi.addresses import (LONGEST_NAME, LONGEST_PATH, AddressServer, ConnectionHandler, connected,
                               temporary_place)
from yakembi.git import Refusal

Fields = dict[str, Any]
# What answers a request, by its name. The folder is the connection's own.
Answers = dict[str, Callable[[Fields, pathlib.Path], Fields]]
LONGEST_LINE = 1 << 20
# A commit of many changed files takes its time.
SECONDS_TO_ANSWER = 3_600
# Who asked takes the reply so soon, or never: others wait to be answered meanwhile.
SECONDS_TO_TAKE = 10
# How long a mount's end may wait until what a connection left is removed.
SECONDS_TO_REMOVE = 60


def tell(line: str) -> None:
    """Prints a line of `mount-git`'s on standard error, in one piece, since threads print side by side. If nobody can
    read it, as on a full disk, all continues."""
    with contextlib.suppress(OSError, AttributeError):
        sys.stderr.write(f"mount-git: {line}\n")
        sys.stderr.flush()


def said_of(problem: Refusal | OSError) -> str:
    """What is wrong, in one line."""
    if isinstance(problem, OSError):
        if problem.filename:
            return f"{os.fsdecode(problem.filename)}: {problem.strerror}"
        return problem.strerror or str(problem)
    return str(problem)


def places() -> list[str]:
    """Where the folder of this user's sockets may lie: the run that shows a folder and another one may have other
    variables."""
    above = [f"/run/user/{os.getuid()}", os.environ.get("XDG_RUNTIME_DIR", ""), tempfile.gettempdir(), "/tmp"]
    found = [os.path.join(place, f"mount-git.{os.getuid()}") for place in dict.fromkeys(above) if os.path.isdir(place)]
    return [place for place in found if len(os.fsencode(place)) <= LONGEST_PATH - LONGEST_NAME]


def is_ours(place: str) -> bool:
    """Whether the folder is there, and nobody else may enter it."""
    try:
        found = os.lstat(place)
    except OSError:
        return False
    return stat.S_ISDIR(found.st_mode) and found.st_uid == os.getuid() and stat.S_IMODE(found.st_mode) == 0o700


def made_place(is_to_stay: bool) -> str:
    """The first such folder that can be made, or is there. One that is to stay after its user has left the system is
    looked for from the end."""
    for place in reversed(places()) if is_to_stay else places():
        with contextlib.suppress(OSError):
            os.mkdir(place, 0o700)
        if is_ours(place):
            return place
    raise Refusal(f"no folder can be made for this user's sockets, as {places()[-1]}")


def name_for(folder: str | os.PathLike[str]) -> str:
    """A name for what lies at that path, as for the folder's socket."""
    return hashlib.sha256(os.fsencode(os.path.realpath(folder))).hexdigest()[:32]


class Ended(Refusal):
    """The run that was asked ended before it answered."""


class Server(AddressServer):
    """Answers one request at a time, and none while somebody else has the turn."""

    def __init__(self, path: str, answers: Answers, turn: threading.Lock) -> None:
        self.answers = answers
        self.turn = turn
        # Held while what a connection left is removed.
        self.removing = threading.Lock()
        super().__init__(path, Asked)

    @contextlib.contextmanager
    def folder(self) -> Iterator[pathlib.Path]:
        """A folder for the block, with which it is gone at once, though what it has may take long to be removed."""
        temporary = tempfile.TemporaryDirectory(prefix="mount-git.", dir=temporary_place(), ignore_cleanup_errors=True)
        made = pathlib.Path(temporary.name) / "made"
        made.mkdir(0o700)
        try:
            yield made
        finally:
            with contextlib.suppress(OSError):
                made.rename(made.with_name("gone"))
            with self.removing:
                temporary.cleanup()


class Asked(ConnectionHandler):
    """One connection, and a folder for what its requests make."""

    server: Server

    def handle(self) -> None:
        with contextlib.ExitStack() as self.stack, contextlib.suppress(ConnectionError, TimeoutError):
            while line := self.rfile.readline(LONGEST_LINE):
                with self.server.turn:
                    reply = json.dumps(self.answer(line)).encode() + b"\n"
                    self.connection.settimeout(SECONDS_TO_TAKE)
                    self.wfile.write(reply)
                    self.connection.settimeout(None)

    def answer(self, line: bytes) -> Fields:
        """The reply to the request, or why there is none, whatever it is that went wrong."""
        try:
            fields = fields_in(line)
            found = self.server.answers.get(text_of(fields, "do"))
            if found is None:
                raise Refusal(f"this mount doesn't know the request {fields['do']}")
            return found(fields, self.folder)
        except (Refusal, OSError) as problem:
            return {"refusal": said_of(problem)}
        except Exception as problem:
            # Nobody foresaw it, and who asked gets an answer all the same.
            return {"refusal": f"the mount failed: {problem!r}"}

    @functools.cached_property
    def folder(self) -> pathlib.Path:
        return self.stack.enter_context(self.server.folder())


def fields_in(line: bytes) -> Fields:
    """The fields of a request's line. A Refusal, if it is none."""
    try:
        found = json.loads(line)
    except (ValueError, RecursionError):
        found = None
    if not isinstance(found, dict):
        raise Refusal("a request is a line of JSON, an object")
    return found


def text_of(fields: Fields, name: str) -> str:
    """The text that a request has in that field. A Refusal, if it has none."""
    found = fields.get(name)
    if not isinstance(found, str):
        raise Refusal(f"the request has no text named {name}")
    return found


@contextlib.contextmanager
def serving(folder: str, answers: Answers, is_to_stay: bool = False,
            turn: "threading.Lock | None" = None) -> Iterator[None]:
    """Answers what is asked at the folder's socket, until the block ends, and then still who has asked by then. Whoever
    has the turn lets nobody be answered meanwhile."""
    server = Server(os.path.join(made_place(is_to_stay), name_for(folder)), answers, turn or threading.Lock())
    thread = threading.Thread(target=server.serve_forever, kwargs={"poll_interval": 0.05}, daemon=True)
    try:
        thread.start()
    except RuntimeError as problem:
        server.server_close()
        raise Refusal(f"no thread can be started: {problem}") from None
    try:
        yield
    finally:
        if server.turn.acquire(timeout=SECONDS_TO_TAKE):
            server.turn.release()
        server.shutdown()
        server.server_close()
        thread.join()
        if server.removing.acquire(timeout=SECONDS_TO_REMOVE):
            server.removing.release()


class Connection:
    """A connection to the run that shows a folder, whose top may be above it."""

    def __init__(self, folder: str) -> None:
        self.folder = folder
        self.socket, self.top = reached(folder)
        self.lines = self.socket.makefile("rb")

    def ask(self, what: str, **fields: str) -> Fields:
        """The reply to that request. A Refusal, if there is one, or none comes."""
        try:
            self.socket.sendall(json.dumps({"do": what, **fields}).encode() + b"\n")
            line = self.lines.readline()
        except OSError as problem:
            raise Ended(f"the mount at {self.folder} doesn't answer: {problem.strerror or problem}") from None
        if not line.endswith(b"\n"):
            raise Ended(f"the mount at {self.folder} ended before it answered")
        found: Fields = json.loads(line)
        if "refusal" in found:
            raise Refusal(found["refusal"])
        return found

    def wait_for_end(self) -> None:
        """Waits until the run that shows the folder has ended."""
        with contextlib.suppress(OSError):
            self.lines.read()

    def close(self) -> None:
        self.lines.close()
        self.socket.close()


def reached(folder: str) -> tuple[socket.socket, str]:
    """The socket of the folder, or of the nearest one above it that has one, and which folder that is."""
    at = os.path.realpath(folder)
    while True:
        for place in filter(is_ours, places()):
            with contextlib.suppress(FileNotFoundError, ConnectionRefusedError):
                return connected(os.path.join(place, name_for(at)), SECONDS_TO_ANSWER), at
        if os.path.dirname(at) == at:
            raise Refusal(f"no mount-git of this user shows {folder}")
        at = os.path.dirname(at)
