"""A client of an object server."""

import hashlib

import paths  # before what stands in scripts/
from helpers.running import PATIENCE
from yakembi.addresses import Address, connected


class ObjectClient:
    def __init__(self, address: Address) -> None:
        self.socket = connected(address, PATIENCE)
        self.file = self.socket.makefile("rwb")

    def get(self, line: bytes) -> bytes:
        """The whole answer to a line."""
        self.send(line)
        return self.answer()

    def send(self, line: bytes) -> None:
        self.file.write(line)
        self.file.flush()

    def answer(self) -> bytes:
        answer = self.file.readline()
        return answer + self.file.read(int(answer.split()[1])) if answer.startswith(b"object ") else answer

    def body(self, object_id: str) -> bytes | str:
        """The body of an object, or the word that came in its place."""
        return body_of(object_id, self.get(b"get %s\n" % object_id.encode()))

    def close(self) -> None:
        self.file.close()
        self.socket.close()

    def __enter__(self) -> "ObjectClient":
        return self

    def __exit__(self, *_: object) -> None:
        self.close()


def body_of(object_id: str, answer: bytes) -> bytes | str:
    """An answer's body, or its word: that of bytes with another digest than the id is `wrong`."""
    line, _, framed = answer.partition(b"\n")
    if not line.startswith(b"object "):
        return line.decode()
    return framed.partition(b"\0")[2] if hashlib.sha1(framed).hexdigest() == object_id else "wrong"
