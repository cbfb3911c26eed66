"""Runs of `mount-git` that ask a mount of a commit, which stands in for one by FUSE."""

import os
import pathlib
import subprocess
import sys

from helpers.git import environment
from helpers.stand_in import StandIn
from programs import MOUNT_GIT

__all__ = ["StandIn", "mount_git", "shown"]

AUTHOR = {"GIT_AUTHOR_NAME": "A", "GIT_AUTHOR_EMAIL": "a@example.org", "GIT_AUTHOR_DATE": "1700000000 +0100",
          "GIT_COMMITTER_NAME": "C", "GIT_COMMITTER_EMAIL": "c@example.org", "GIT_COMMITTER_DATE": "1700000001 +0000"}
# No file of a commit here is longer.
MOST_BYTES = 1 << 20


def mount_git(*words: str | pathlib.Path) -> tuple[int, str, str]:
    done = subprocess.run([sys.executable, MOUNT_GIT, *words], capture_output=True, env={**environment(), **AUTHOR})
    return done.returncode, os.fsdecode(done.stdout), done.stderr.decode()


def shown(mount: StandIn, folder: bytes = b"/") -> dict[bytes, tuple[str, bytes]]:
    """All that a mount shows: the kinds, and what files and links hold."""
    found = {}
    for name, kind in mount.requests.entries(folder):
        path = folder.rstrip(b"/") + b"/" + name
        found[path] = kind, content_at(mount, path, kind)
        if kind == "dir":
            found |= shown(mount, path)
    return found


def content_at(mount: StandIn, path: bytes, kind: str) -> bytes:
    if kind == "dir":
        return b""
    return mount.requests.readlink(path) if kind == "link" else mount.requests.read(path, 0, MOST_BYTES)
