"""Where programs of one machine meet: a port of 127.0.0.1, or the path of a Unix socket.

A socket's file lets its user alone connect. It goes with its server; what a killed one left, the next removes. Beside
it lies a file with `.lock` after its name, which `mountd` locks too, so that one server at a time has the path.
"""

import contextlib
import errno
import fcntl
import os
import re
import socket
import socketserver
import stat
import tempfile
from collections.abc import Iterator
from typing import Any

# A port's number, or a path.
Address = int | str
# The most bytes of a path, and of what a temporary socket's adds to its folder's.
LONGEST_PATH = 107
LONGEST_NAME = 40
WAITING = 128
TOLD = re.compile(r"listening (?:127\.0\.0\.1:(\d+)|(.+))\n")


def told(line: str) -> Address:
    """The address in the line that a server prints first. A ValueError if it is no such line."""
    found = TOLD.fullmatch(line)
    if found is None:
        raise ValueError(line)
    return int(found[1]) if found[1] else found[2]


def is_socket(path: str) -> bool:
    """Whether a socket is at the path."""
    try:
        return stat.S_ISSOCK(os.lstat(path).st_mode)
    except OSError:
        return False


def connected(address: Address, timeout: float | None = None) -> socket.socket:
    """A connection, on which what is written goes out at once. `timeout` is that of each of its calls, in seconds."""
    connection = socket.socket(socket.AF_INET if isinstance(address, int) else socket.AF_UNIX)
    try:
        connection.settimeout(timeout)
        if isinstance(address, int):
            connection.connect(("127.0.0.1", address))
            connection.setsockopt(socket.IPPROTO_TCP, socket.TCP_NODELAY, 1)
        else:
            connection.connect(address)
    except OSError:
        connection.close()
        raise
    return connection


def is_text(path: str) -> bool:
    """Whether the path's bytes are UTF-8, as mountd's words are."""
    try:
        path.encode()
    except UnicodeEncodeError:
        return False
    return True


def temporary_place() -> str:
    """The directory for temporary files, or /tmp if mountd can't be given its path."""
    place = tempfile.gettempdir()
    return place if is_text(place) else "/tmp"


@contextlib.contextmanager
def socket_path() -> Iterator[str]:
    """The path of a socket to be, in a folder that nobody else may enter and that goes with the block."""
    above = temporary_place()
    place = above if len(os.fsencode(above)) <= LONGEST_PATH - LONGEST_NAME else "/tmp"
    with tempfile.TemporaryDirectory(prefix="yakembi.", dir=place, ignore_cleanup_errors=True) as folder:
        yield os.path.join(folder, "socket")


def remove_left(path: str) -> None:
    """Removes a socket at which nobody listens. An OSError, EADDRINUSE, if somebody does."""
    if not is_socket(path):
        return
    try:
        connected(path).close()
    except ConnectionRefusedError:
        os.unlink(path)
    else:
        raise in_use(path)


def in_use(path: str) -> OSError:
    return OSError(errno.EADDRINUSE, os.strerror(errno.EADDRINUSE), path)


def held(path: str) -> int:
    """The lock of a path, without a socket that a killed server left there. EADDRINUSE, if another has it."""
    lock = os.open(path + ".lock", os.O_RDWR | os.O_CREAT | os.O_CLOEXEC, 0o600)
    try:
        fcntl.flock(lock, fcntl.LOCK_EX | fcntl.LOCK_NB)
        remove_left(path)
    except BlockingIOError:
        os.close(lock)
        raise in_use(path) from None
    except OSError:
        os.close(lock)
        raise
    return lock


class AddressServer(socketserver.ThreadingTCPServer):
    """A server with a thread for each connection. `address` is where it is, `0` becomes the port that it was given."""

    allow_reuse_address = True
    daemon_threads = True
    request_queue_size = WAITING

    def __init__(self, address: Address, handler: type["ConnectionHandler"]) -> None:
        self.address = address
        self.lock: int | None = None
        if isinstance(address, int):
            super().__init__(("127.0.0.1", address), handler)
            self.address = self.server_address[1]
        else:
            self.address_family = socket.AF_UNIX
            self.lock = held(address)
            place: Any = address
            super().__init__(place, handler)

    def server_bind(self) -> None:
        super().server_bind()
        if isinstance(self.address, str):
            # Before anybody can connect.
            os.chmod(self.address, 0o600)

    def server_close(self) -> None:
        super().server_close()
        if self.lock is not None:
            with contextlib.suppress(OSError):
                remove_left(str(self.address))
            os.close(self.lock)
            self.lock = None

    def says(self) -> str:
        """The line that a server prints first."""
        return f"listening {self.address if isinstance(self.address, str) else f'127.0.0.1:{self.address}'}"


class ConnectionHandler(socketserver.StreamRequestHandler):
    """One connection, on which what is written goes out at once."""

    def setup(self) -> None:
        super().setup()
        if self.request.family == socket.AF_INET:
            self.request.setsockopt(socket.IPPROTO_TCP, socket.TCP_NODELAY, 1)
