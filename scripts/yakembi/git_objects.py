"""Serves the trees, blobs and links of a Git repository, as they are asked for.

What a partial clone lacks is fetched from its remote, many objects at once. With a tree its subtrees come along; once
files of one folder are asked for one after another its other files; and once folders are gone through side by side what
lies after them: each time up to this many bytes (--ahead).

A client sends `get ID` and a line feed, ID being 40 lower-case hexadecimal digits, and is answered `object N`, a line
feed and the N framed bytes; `missing`; or `fault` if Git can't read the object or it is over 2^30 bytes. Another
line ends the connection. The first line printed is `listening 127.0.0.1:PORT`, or `listening PATH` with --socket.
Connections are served side by side.

Every user of this machine can reach the port, and read every object of the repository through it. A socket is this
user's alone.
"""

import argparse
import contextlib
import io
import os
import re
import signal
import sys
import threading
from collections.abc import Iterable

from yakembi.addresses import AddressServer, ConnectionHandler
from yakembi.git import Objects, Refusal, Repository, framed
from yakembi.partial_clone import AHEAD, SILENCE, PartialClone, Unreachable

LINE = re.compile(rb"get ([0-9a-f]{40})\n")
LONGEST_LINE = 64
LONGEST_BODY = 1 << 30
# A longer tree teaches nothing: it is passed on as it comes.
LONGEST_TREE = 1 << 26
SERVED = ("tree", "blob")
# How often it looks whether it is to end, in seconds.
POLL = 0.1


def tell(text: str) -> None:
    """In one piece, since threads print side by side."""
    with contextlib.suppress(OSError):
        sys.stderr.write(f"git-objects: {text}\n")
        sys.stderr.flush()


class ClientConnection(ConnectionHandler):
    """One connection, and one `git cat-file` for it."""

    wbufsize = 1 << 16
    server: "Server"

    def handle(self) -> None:
        self.objects: Objects | None = None
        try:
            while line := LINE.fullmatch(self.rfile.readline(LONGEST_LINE)):
                self.answer(line.group(1).decode())
                self.wfile.flush()
        except ConnectionError:
            pass
        finally:
            self.restart()

    def restart(self) -> None:
        if self.objects is not None:
            self.objects.end()
        self.objects = None

    def answer(self, object_id: str) -> None:
        if self.server.log:
            tell(f"get {object_id}")
        try:
            answer = self.found(object_id)
        except (Refusal, OSError) as problem:
            tell(str(problem))
            self.restart()
            self.wfile.write(b"fault\n")
            return
        except Unreachable:
            self.wfile.write(b"fault\n")
            return
        if answer is None:
            if self.server.log:
                tell(f"missing {object_id}")
            self.wfile.write(b"missing\n")
            return
        self.send(*answer)

    def found(self, object_id: str) -> tuple[Objects, str, str, int] | None:
        """The object, whose body must be read next: it is there, or it comes from the remote of a partial clone."""
        clone = self.server.clone
        if self.objects is None:
            self.objects = self.server.objects()
        if clone is not None:
            clone.asked_blob(object_id)
        answer = self.objects.ask(object_id)
        if answer is None and clone is not None and clone.bring(object_id):
            answer = self.objects.ask(object_id)
        return None if answer is None else (self.objects, object_id, *answer)

    def send(self, objects: Objects, object_id: str, word: str, length: int) -> None:
        """An object's answer. A Git that ends in the middle ends the connection, so that no cut object looks whole."""
        if word not in SERVED or length > LONGEST_BODY:
            if word == "commit":
                tree = self.server.repository.tree_of(object_id)
                tell(f"{object_id} is a commit; mountd wants the id of its tree, {tree}")
            self.restart()
            self.wfile.write(b"fault\n" if word in SERVED else b"missing\n")
            return
        header = f"{word} {length}\0".encode()
        try:
            pieces = self.noted(object_id, word, length, objects.pieces(length))
            self.wfile.write(b"object %d\n" % (len(header) + length))
            for piece in framed(word, length, pieces):
                self.wfile.write(piece)
        except Refusal as problem:
            tell(str(problem))
            raise ConnectionAbortedError from None

    def noted(self, object_id: str, word: str, length: int, pieces: Iterable[bytes]) -> Iterable[bytes]:
        """An object's pieces, of which a partial clone learns what may be asked for next."""
        clone = self.server.clone
        if clone is None:
            return pieces
        if word == "blob":
            clone.served_blob(object_id, length)
        elif length <= LONGEST_TREE:
            pieces = [b"".join(pieces)]
            clone.served_tree(object_id, pieces[0])
        return pieces


class Server(AddressServer):
    def __init__(self, words: argparse.Namespace) -> None:
        self.repository = Repository(words.repository)
        self.log: bool = words.log
        self.clone = clone_of(self.repository, words)
        super().__init__(words.port if words.socket is None else words.socket, ClientConnection)

    def objects(self) -> Objects:
        return self.repository.objects() if self.clone is None else self.clone.objects()

    def server_close(self) -> None:
        super().server_close()
        if self.clone is not None:
            self.clone.end()

    def handle_error(self, request: object, client_address: object) -> None:
        """A connection that fails costs itself alone."""
        tell(f"a connection failed: {sys.exc_info()[1]}")


def clone_of(repository: Repository, words: argparse.Namespace) -> PartialClone | None:
    """The repository as a partial clone; None if it is a whole one."""
    remotes = repository.remotes()
    if not remotes:
        return None
    log = tell if words.log else (lambda _: None)
    return PartialClone(repository, remotes, words.tree, words.ahead, words.silence, tell, log)


def end_with_input(server: Server) -> None:
    """So that whoever holds the input's other end never leaves a server, however it ends."""
    while os.read(sys.stdin.fileno(), LONGEST_LINE):
        pass
    server.shutdown()


def port_number(text: str) -> int:
    port = int(text)
    if not 0 <= port <= 65_535:
        raise ValueError
    return port


def number_of_seconds(text: str) -> float:
    number = float(text)
    if not 0 < number < float("inf"):
        raise ValueError
    return number


def tree_id(text: str) -> str:
    if not re.fullmatch("[0-9a-f]{40}", text):
        raise ValueError
    return text


def number_of_bytes(text: str) -> int:
    with contextlib.suppress(ValueError):
        if int(text) >= 0:
            return int(text)
    raise argparse.ArgumentTypeError(f"{text!r} is no number of bytes")


def parser() -> argparse.ArgumentParser:
    found = argparse.ArgumentParser(prog="git-objects", description=__doc__,
                                    formatter_class=argparse.RawDescriptionHelpFormatter)
    found.add_argument("repository", metavar="REPO")
    address = found.add_mutually_exclusive_group()
    address.add_argument("--port", type=port_number, default=0, help="0, the default, lets the machine choose")
    address.add_argument("--socket", metavar="PATH", help="a socket for this user alone, in the place of --port")
    found.add_argument("--tree", metavar="ID", type=tree_id, help="the id of the tree that is shown, if it is known")
    found.add_argument("--ahead", metavar="BYTES", type=number_of_bytes, default=AHEAD,
                       help=f"fetch at most this many bytes before they are asked for; 0: none; {AHEAD} if left out")
    found.add_argument("--silence", metavar="SECONDS", type=number_of_seconds, default=SILENCE,
                       help=f"give a remote up after this long a silence; {SILENCE:g} if left out")
    found.add_argument("--log", action="store_true",
                       help="print each id that is asked for, and each that is fetched, on standard error")
    found.add_argument("--with-input", action="store_true", help="end when standard input does")
    return found


def main() -> int:
    words = parser().parse_args()
    # A socket's path may be any bytes.
    if isinstance(sys.stdout, io.TextIOWrapper):
        sys.stdout.reconfigure(errors="surrogateescape")
    try:
        server = Server(words)
    except (Refusal, OSError) as problem:
        tell(str(problem))
        return 1
    for number in (signal.SIGTERM, signal.SIGINT):
        signal.signal(number, lambda *_: threading.Thread(target=server.shutdown).start())
    if words.with_input:
        threading.Thread(target=end_with_input, args=(server,), daemon=True).start()
    print(server.says(), flush=True)
    server.serve_forever(POLL)
    server.server_close()
    return 0
