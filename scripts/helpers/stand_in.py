"""A commit's mount without FUSE, which answers what other runs of `mount-git` ask of the one that shows a folder."""

import contextlib
import pathlib
import threading
from collections.abc import Callable, Sequence
from typing import Self

from helpers.programs import MOUNTD
from yakembi import client, control
from yakembi.client import Fields
from yakembi.git import Refusal, Repository
from yakembi.kernel import Result, Unclosed
from yakembi.mount_git import Asked, tree_to_show
from yakembi.overlay import OverlayFolder
from yakembi.standing import standing_still


class Requests(client.Requests):
    """The requests of a session with a `mountd stdio`, which ends, or stands still, while its overlay is worked on."""

    def __init__(self, words: Sequence[object]) -> None:
        self.words = [str(word) for word in words]
        self.turn = threading.Lock()
        self.session = client.start(self.words)

    def ask(self, head: bytes, *fields: bytes) -> Fields:
        with self.turn:
            return self.session.ask(head, *fields)

    def while_closed(self, work: Callable[[], Result]) -> Result:
        with self.turn:
            self.close()
            try:
                return work()
            finally:
                self.session = client.start(self.words)

    def while_still(self, work: Callable[[], Result]) -> Result:
        assert self.session.child is not None
        with self.turn, standing_still(self.session.child):
            return work()

    def finish(self, by_force: bool) -> None:
        raise Refusal("who began what stands in for a mount ends it")

    def close(self) -> None:
        status = self.session.close()
        if status != 0:
            raise Unclosed(f"mountd ended with status {status}")


class StandIn:
    """Stands in for a mount of a repository's revision at the folder `shown`, in which nothing is mounted. What it
    holds is asked for and changed by `requests`; its changes are in the folder `overlay` beside that."""

    def __init__(self, repository: pathlib.Path, place: pathlib.Path, revision: str = "HEAD") -> None:
        found = Repository(str(repository))
        source = ["--git", found.common_folder]
        self.folder = place / "shown"
        self.folder.mkdir(exist_ok=True)
        self.overlay = OverlayFolder(place / "overlay")
        self.tree = tree_to_show(found, revision, self.overlay).tree
        self.requests = Requests([MOUNTD, "stdio", "--root", self.tree, *source, "--overlay", self.overlay.path,
                                  "--history", "none"])
        self.asked = Asked(self.requests, MOUNTD, source, found, revision, self.overlay)

    def __enter__(self) -> Self:
        self.stack = contextlib.ExitStack()
        self.stack.callback(self.overlay.close)
        self.stack.callback(self.requests.close)
        self.stack.enter_context(control.serving(str(self.folder), self.asked.answers()))
        return self

    def __exit__(self, *_: object) -> None:
        self.stack.close()
