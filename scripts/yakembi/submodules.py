"""Submodules that Git has filled in a mounted folder, and places that they name.

The repository of each lies below the overlay's directory `git`, in `modules`, and says where its working tree is
(`core.worktree`); there a file `.git` says where the repository is, each from where it lies itself. If the mounted
folder or the overlay lies elsewhere than before, both are put right.
"""

import contextlib
import os
import pathlib
import subprocess
from collections.abc import Iterator

from yakembi.git import DOT_GIT, environment

WORKTREE = "core.worktree"


def put_right(git_folder: pathlib.Path, was_at: str, top: str, was_top: str) -> None:
    """What was right while the overlay's directory lay at `was_at`, and the mounted one at `was_top`."""
    for module in modules_in(git_folder):
        old_module = os.path.join(was_at, os.path.relpath(module, git_folder))
        told = config(module, "--get", WORKTREE)
        if not told:
            continue
        path = os.path.relpath(os.path.join(old_module, told), was_top)
        if path.split(os.sep)[0] != os.pardir:
            place = os.path.join(top, path)
            config(module, WORKTREE, os.path.relpath(place, module))
            with contextlib.suppress(OSError):
                write_over(os.path.join(place, DOT_GIT), b"gitdir: " + os.fsencode(os.path.relpath(module, place)))


def modules_in(folder: pathlib.Path) -> Iterator[pathlib.Path]:
    """The repositories below `modules` there, and those of their own submodules."""
    for at, folders, files in os.walk(folder / "modules"):
        if {"HEAD", "config"} <= set(files):
            folders.clear()
            yield pathlib.Path(at)
            yield from modules_in(pathlib.Path(at))


def config(module: pathlib.Path, *words: str) -> str:
    done = subprocess.run(["git", "config", "--file", str(module / "config"), *words], capture_output=True,
                          env=environment())
    return os.fsdecode(done.stdout.removesuffix(b"\n"))


def write_over(file: str, text: bytes) -> None:
    """Over a file that is there, in one piece: to Git line feeds at its end say nothing."""
    with open(os.open(file, os.O_RDWR | os.O_NOFOLLOW | os.O_CLOEXEC), "r+b") as found:
        before = found.read()
        found.seek(0)
        found.write(text.ljust(len(before) - 1, b"\n") + b"\n")
