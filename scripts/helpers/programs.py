"""Where the programs are that tests and measurements run, and the sample commit.

MOUNTD is crates/mountd/out/mountd unless the script's first word names it.
"""

import contextlib
import pathlib
import subprocess
import sys
from collections.abc import Iterator, Sequence
from typing import Any

from helpers.running import Ending, Process, finished, watched
from yakembi.addresses import Address, socket_path, told

TOP = pathlib.Path(__file__).resolve().parents[2]
BUILT = TOP / "crates/mountd/out/mountd"
MOUNTD = pathlib.Path(sys.argv[1] if len(sys.argv) > 1 and not sys.argv[1].startswith("-") else BUILT).resolve()
EXPORTER = TOP / "scripts/objects-from-git"
GIT_OBJECTS = TOP / "scripts/git-objects"
MOUNT_GIT = TOP / "scripts/mount-git"
SHELL = TOP / "scripts/eden-shell"
SAMPLE_ROOT = "d8329fc1cc938780ffdd9f94e0d364e0ea74f579"
EXAMPLES = TOP / "examples"
SAMPLE_OBJECTS = EXAMPLES / "objects"
# The one file of the sample commit.
SAMPLE_BLOB = "83baae61804e65cc73a7201a7252750c76066a30"
# A port that the machine chooses, where a socket would do.
A_PORT = ["--port", 0]


def mountd(*words: object) -> Ending:
    """How the program ends."""
    done = finished([MOUNTD, *words], stdin=subprocess.DEVNULL, capture_output=True)
    return done.returncode, done.stdout, done.stderr


@contextlib.contextmanager
def listening(words: Sequence[object], at: Sequence[object] | None = None,
              **more: Any) -> Iterator[tuple[Process, Address]]:
    """A server, and the address that it prints: a socket that nobody else can reach, unless `at` says another."""
    with socket_path() as path:
        texts = [str(word) for word in [*words, *(["--socket", path] if at is None else at)]]
        process = subprocess.Popen(texts, stdout=subprocess.PIPE, **more)
        try:
            with watched(process):
                assert process.stdout is not None
                line = process.stdout.readline().decode()
            yield process, told(line)
        finally:
            process.kill()
            process.communicate()
