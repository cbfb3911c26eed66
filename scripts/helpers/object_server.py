"""A server of objects for tests, whose answers are a function of the id."""

import contextlib
import pathlib
import threading
import time
from collections.abc import Callable, Iterator
from contextlib import AbstractContextManager

from yakembi.addresses import Address, AddressServer, ConnectionHandler, socket_path

# How long an object is held back at most, in seconds: mountd takes 30 of silence for a failure.
LONGEST_HELD = 25


# What is answered to an id, and whether the connection continues.
Answer = Callable[[str], tuple[bytes, bool]]


class Answers:
    """A server on this machine. What it answers may be changed meanwhile."""

    def __init__(self, answer: Answer) -> None:
        self.answer: Answer = answer

    @contextlib.contextmanager
    def served(self) -> Iterator[Address]:
        """Its address, which nobody else can reach."""
        with socket_path() as path:
            server = Server(path, self)
            threading.Thread(target=server.serve_forever, args=(0.01,), daemon=True).start()
            try:
                yield path
            finally:
                server.shutdown()
                server.server_close()


class Server(AddressServer):
    def __init__(self, path: str, answers: Answers) -> None:
        self.answers = answers
        super().__init__(path, Connection)


class Connection(ConnectionHandler):
    server: Server

    def handle(self) -> None:
        with contextlib.suppress(ConnectionError):
            while line := self.rfile.readline(64):
                answer, goes_on = self.server.answers.answer(line[4:-1].decode())
                self.wfile.write(answer)
                if not goes_on:
                    return


class Stored:
    """A directory of objects to be served: it notes what it is asked for, and may fail or wait before it answers."""

    def __init__(self, folder: pathlib.Path, delay: float = 0, fails_each: int | None = None) -> None:
        self.folder = folder
        self.delay = delay
        self.fails_each = fails_each
        self.asked: list[str] = []
        self.failed: list[tuple[bytes, float]] = []
        self.held: dict[str, threading.Event] = {}
        self.lock = threading.Lock()

    def served(self) -> AbstractContextManager[Address]:
        return Answers(self.answer).served()

    def hold(self, object_id: str) -> threading.Event:
        """From now on this object is kept back until the event is set."""
        self.held[object_id] = threading.Event()
        return self.held[object_id]

    def answer(self, object_id: str) -> tuple[bytes, bool]:
        with self.lock:
            self.asked.append(object_id)
            fails = self.fails_each is not None and len(self.asked) % self.fails_each == 0
        if object_id in self.held:
            self.held[object_id].wait(LONGEST_HELD)
        time.sleep(self.delay)
        if fails:
            self.failed.append((object_id.encode(), time.monotonic()))
            return b"fault\n", True
        framed = (self.folder / object_id[:2] / object_id[2:]).read_bytes()
        return b"object %d\n" % len(framed) + framed, True
