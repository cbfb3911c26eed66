"""Runs of `mountd serve` and their clients, none of which waits without an end."""

import contextlib
import select
import subprocess
import threading
import time
from collections.abc import Iterator, Sequence
from typing import Any

from helpers.programs import MOUNTD
from helpers.running import PATIENCE, Ending, Process, ending_of
from yakembi.addresses import Address, connected, socket_path, told

# How long a whole run may take, in seconds.
LONGEST_RUN = 300
NO_REPLY = b"(no reply)"
ENDED = b"(the session ended)"


class Client:
    """One session over a socket."""

    def __init__(self, address: Address) -> None:
        self.socket = connected(address, PATIENCE)
        self.heard = bytearray()

    def send(self, *lines: bytes) -> None:
        """Sends the lines. A session that ended takes none, which its missing replies show."""
        with contextlib.suppress(OSError):
            self.socket.sendall(b"".join(line + b"\n" for line in lines))

    def has_reply(self) -> bool:
        """Whether a whole reply came, or the session's end; what comes is taken in without waiting."""
        while b"\n" not in self.heard and select.select([self.socket], [], [], 0)[0]:
            if not self.receive():
                return True
        return b"\n" in self.heard

    def receive(self) -> bool:
        with contextlib.suppress(OSError):
            if piece := self.socket.recv(1 << 18):
                self.heard += piece
                return True
        return False

    def reply(self) -> bytes:
        """The next reply without its line feed, or why there is none."""
        began = time.monotonic()
        while (end := self.heard.find(b"\n")) < 0:
            if not self.receive():
                return NO_REPLY if time.monotonic() - began >= PATIENCE else ENDED
        line = bytes(self.heard[:end])
        del self.heard[: end + 1]
        return line

    def replies(self, count: int) -> list[bytes]:
        return [self.reply() for _ in range(count)]

    def ask(self, line: bytes) -> bytes:
        self.send(line)
        return self.reply()

    def close(self) -> None:
        self.socket.close()


def start_serve(*words: object, before: Sequence[object] = (), **more: Any) -> Process:
    """The program with these options, started by the words before it."""
    return subprocess.Popen([str(word) for word in [*before, MOUNTD, "serve", *words]], stdin=subprocess.DEVNULL,
                            stdout=subprocess.PIPE, stderr=subprocess.PIPE, **more)


class Service:
    """A run of `mountd serve` that takes this many seconds at most, and its clients."""

    def __init__(self, root: str, source: Sequence[object], *more: object, at: Sequence[object],
                 before: Sequence[object] = (), longest: float = LONGEST_RUN) -> None:
        self.process = start_serve("--root", root, *source, *at, *more, before=before)
        self.alarm = threading.Timer(longest, self.process.kill)
        self.alarm.daemon = True
        self.alarm.start()
        assert self.process.stdout is not None
        line = self.process.stdout.readline().decode()
        if not line:
            raise SystemExit(f"mountd serve said nothing, and then {self.end()}")
        self.address = told(line)

    def client(self) -> Client:
        return Client(self.address)

    def clients(self, count: int) -> list[Client]:
        return [self.client() for _ in range(count)]

    def end(self, *clients: Client) -> Ending:
        """Closes these clients, and says how the program ended, and what it printed after its first line."""
        for client in clients:
            client.close()
        return ending_of(self.process)

    def kill(self) -> None:
        self.alarm.cancel()
        self.process.kill()
        self.process.communicate()


@contextlib.contextmanager
def serving(root: str, source: Sequence[object], *more: object, at: Sequence[object] | None = None,
            before: Sequence[object] = (), longest: float = LONGEST_RUN) -> Iterator[Service]:
    """A run of `mountd serve` that is over with the block: at a socket of its own, unless `at` says where."""
    with socket_path() as path:
        at = ["--socket", path] if at is None else at
        service = Service(root, source, *more, at=at, before=before, longest=longest)
        try:
            yield service
        finally:
            service.kill()
