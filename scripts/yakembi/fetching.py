"""One question to a remote: a run of `git fetch` for objects by their ids, which brings all of them or none.

What comes is kept apart, in a folder of its own beside the repository's objects, until Git has checked it; then it is
moved among them. So nothing is left of a question that fails, is broken off, or is answered by something else. Such a
folder is named as Git names its own, so that `git gc` removes what a kill leaves.
"""

import contextlib
import os
import pathlib
import resource
import signal
import subprocess
import tempfile
import threading
import time
from collections.abc import Sequence
from typing import NamedTuple

from yakembi.git import Remote, Repository, remote_environment, said

# As `git fetch` names what it keeps apart; `git gc` removes what is old and begins so.
APART = "tmp_objdir-git-objects-"
# By ids alone: no reference is read or written, nothing is said of what is there, and no one else's work is done.
FETCH = ["-c", "protocol.version=2", "-c", "fetch.negotiationAlgorithm=noop", "-c", "core.alternateRefsCommand=true",
         "fetch", "--no-tags", "--no-prune", "--no-write-fetch-head", "--no-recurse-submodules",
         "--no-auto-maintenance", "--no-write-commit-graph"]
# How often it is looked how much has come, in seconds.
BETWEEN = 0.1


class Unanswered(Exception):
    """Why a question brought nothing, in a line; `errors` is all that Git said."""

    def __init__(self, line: str, errors: str = "") -> None:
        super().__init__(line)
        self.errors = errors


class TooSlow(Unanswered):
    """It continued, and took longer than it may."""


class Bounds(NamedTuple):
    """What a question may take: this many seconds in which nothing comes, this many in all, and this many bytes."""

    silence: float
    seconds: float = float("inf")
    bytes: int | None = None


class Question:
    """A run of `git fetch`. Another thread may stop it."""

    def __init__(self, repository: Repository, remote: Remote, ids: Sequence[str]) -> None:
        self.repository = repository
        self.objects = repository.objects_folder
        self.remote = remote
        self.ids = ids
        self.lock = threading.Lock()
        self.process: subprocess.Popen[bytes] | None = None
        self.stopped = False

    def ask(self, bounds: Bounds) -> int:
        """Brings the objects, and gives the bytes that came."""
        with tempfile.TemporaryDirectory(prefix=APART, dir=self.objects, ignore_cleanup_errors=True) as name:
            apart = pathlib.Path(name)
            process = self.start(apart, bounds.bytes)
            try:
                self.watch(process, apart, bounds)
            finally:
                self.stop()
                process.wait()
            came = bytes_in(apart / "pack")
            if process.returncode != 0:
                if bounds.bytes is not None and came >= bounds.bytes:
                    raise Unanswered(f"more than {bounds.bytes} bytes came")
                raise unanswered((apart / "errors").read_bytes())
            self.move(apart / "pack")
            return came

    def start(self, apart: pathlib.Path, most_bytes: int | None) -> subprocess.Popen[bytes]:
        (apart / "info").mkdir()
        (apart / "info" / "alternates").write_text("..\n")
        (apart / "asked").write_text("".join(f"{object_id}\n" for object_id in self.ids))
        words = ["git", "-C", self.repository.path, *FETCH, f"--filter={self.remote.filter}", "--stdin",
                 self.remote.name]
        environment = {**remote_environment(), "GIT_OBJECT_DIRECTORY": str(apart)}
        with self.lock, open(apart / "asked", "rb") as asked, open(apart / "errors", "wb") as errors:
            if self.stopped:
                raise Unanswered("it is over")
            # In a session of its own, so that it is ended with all that it starts, and none of it has a terminal.
            self.process = subprocess.Popen(words, stdin=asked, stdout=subprocess.DEVNULL, stderr=errors,
                                            env=environment, start_new_session=True)
            if most_bytes is not None:
                # The system ends whatever writes a larger pack. Who may not write one as large anyway keeps that bound.
                with contextlib.suppress(OSError, ValueError):
                    resource.prlimit(self.process.pid, resource.RLIMIT_FSIZE, (most_bytes, most_bytes))
        return self.process

    def watch(self, process: subprocess.Popen[bytes], apart: pathlib.Path, bounds: Bounds) -> None:
        """Waits for its end, which it sees at once."""
        over = threading.Event()

        def wait() -> None:
            process.wait()
            over.set()

        threading.Thread(target=wait, daemon=True).start()
        began = heard = time.monotonic()
        size = 0
        while not over.wait(BETWEEN):
            now = time.monotonic()
            if (grown := bytes_in(apart)) != size:
                size, heard = grown, now
            if now - heard > bounds.silence:
                raise Unanswered(f"nothing came for {bounds.silence:g} s")
            if now - began > bounds.seconds:
                raise TooSlow(f"it took more than {bounds.seconds:g} s")

    def stop(self) -> None:
        """Ends it, and whatever it started, where it stands."""
        with self.lock:
            self.stopped = True
            if self.process is not None and self.process.poll() is None:
                with contextlib.suppress(ProcessLookupError):
                    os.killpg(self.process.pid, signal.SIGKILL)

    def move(self, packs: pathlib.Path) -> None:
        """Puts the packs among the repository's, each index last, since by it a pack is found."""
        names = sorted(os.listdir(packs), key=lambda name: name.endswith(".idx")) if packs.exists() else []
        os.makedirs(os.path.join(self.objects, "pack"), exist_ok=True)
        for name in names:
            os.rename(packs / name, os.path.join(self.objects, "pack", name))


def unanswered(errors: bytes) -> Unanswered:
    return Unanswered(said(errors).removeprefix(": ") or "git ended", errors.decode(errors="replace"))


def bytes_in(folder: pathlib.Path) -> int:
    """The bytes of all files below a folder, some of which may be gone by now."""
    found = 0
    for path in folder.rglob("*"):
        with contextlib.suppress(OSError):
            found += path.stat().st_size
    return found
