"""The programs below `mount-git`: `mountd`, and the `git-objects` that fetches objects for it."""

import argparse
import contextlib
import os
import pathlib
import subprocess
import sys
from collections.abc import Iterator, Sequence
from typing import BinaryIO

from yakembi.addresses import is_text, socket_path
from yakembi.git import Refusal, Repository, said

# The folder of the commands, which has the package.
SCRIPTS = pathlib.Path(__file__).resolve().parent.parent
IS_INSTALLED = SCRIPTS.parent.name == "lib"
# As `make install` puts it, or as `make run` builds it.
BESIDE = SCRIPTS.parents[1] / "bin/mountd" if IS_INSTALLED else SCRIPTS.parent / "crates/mountd/out/mountd"
MOUNTD = os.environ.get("MOUNTD", BESIDE)
# How long git-objects may take to end.
SECONDS_TO_END = 10


def add_mountd(parser: argparse.ArgumentParser) -> None:
    """The option that names mountd."""
    parser.add_argument("--mountd", metavar="PROGRAM", default=MOUNTD,
                        help="instead of $MOUNTD, or of the one that `make run` builds or `make install` installed")


def run_mountd(output: int | BinaryIO, *words: str | os.PathLike[str],
               held: Sequence[int] = ()) -> subprocess.CompletedProcess[bytes]:
    """A run of mountd, by these words, whose output goes there, and which holds locks of these descriptors as long as
    it runs, also if we are killed. A Refusal with what it said, if it doesn't end well."""
    try:
        done = subprocess.run(words, stdin=subprocess.DEVNULL, stdout=output, stderr=subprocess.PIPE, pass_fds=held)
    except FileNotFoundError as problem:
        raise Refusal(f"{os.fspath(words[0])} can't be run ({problem.strerror}): `make run` builds it") from None
    if done.returncode != 0:
        raise Refusal(f"mountd ended with status {done.returncode}{said(done.stderr)}")
    return done


def check_text(overlay: str) -> None:
    """A Refusal, if mountd can't be given the overlay's path."""
    if not is_text(overlay):
        raise Refusal("the overlay's path isn't UTF-8, as mountd's words are")


@contextlib.contextmanager
def source_of(repository: Repository, root: str, ahead: int, log: bool) -> Iterator[list[str]]:
    """Where mountd has its objects from: the repository itself; a git-objects, if objects are to be fetched or printed,
    or the repository's path is no text, as mountd's words are."""
    folder = repository.common_folder
    if not repository.remotes() and not log and is_text(folder):
        yield ["--git", folder]
        return
    with socket_path() as path, objects_at(path, repository.path, root, ahead, log) as server:
        yield ["--remote", server]


@contextlib.contextmanager
def objects_at(path: str, repository: str, root: str, ahead: int, log: bool) -> Iterator[str]:
    """The socket of a git-objects that ends with us, whatever ends us: its input does."""
    options = ["--socket", path, "--with-input", "--tree", root, "--ahead", str(ahead), *(["--log"] if log else [])]
    words = [sys.executable, str(SCRIPTS / "git-objects"), *options, "--", repository]
    child = subprocess.Popen(words, stdin=subprocess.PIPE, stdout=subprocess.PIPE, start_new_session=True)
    assert child.stdin is not None and child.stdout is not None
    try:
        if not child.stdout.readline():
            raise Refusal("git-objects ended before it served")
        yield path
    finally:
        # It ends what it has started; if that takes too long it is ended as it stands.
        child.stdin.close()
        with contextlib.suppress(subprocess.TimeoutExpired):
            child.wait(SECONDS_TO_END)
        child.kill()
        child.stdout.close()
        child.wait()
