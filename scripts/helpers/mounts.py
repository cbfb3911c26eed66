"""A commit as a directory, by `mount-git`, for measurements."""

import contextlib
import pathlib
import subprocess
from collections.abc import Iterator

from helpers.programs import MOUNT_GIT, MOUNTD
from helpers.running import Process
from yakembi import kernel

PATIENCE = 60


class NotThere(Exception):
    """Why there is no mount, in a line."""


@contextlib.contextmanager
def mounted(repository: pathlib.Path, place: pathlib.Path, *more: object) -> Iterator[pathlib.Path]:
    """The repository's `HEAD` at this place, which is made; `more` are options of `mount-git`."""
    place.mkdir()
    words = [MOUNT_GIT, "--mountd", MOUNTD, *more, repository, "HEAD", place]
    mount = subprocess.Popen([str(word) for word in words], stdout=subprocess.PIPE, stderr=subprocess.STDOUT)
    try:
        assert mount.stdout is not None
        line = mount.stdout.readline().decode().strip()
        if line != f"mounted {place}":
            raise NotThere(line)
        yield place
    finally:
        end(mount, place)


def end(mount: Process, place: pathlib.Path) -> None:
    """Ends it well, or else by force, so that nothing stays mounted."""
    mount.terminate()
    try:
        mount.communicate(timeout=PATIENCE)
    except subprocess.TimeoutExpired:
        mount.kill()
        kernel.unmount(str(place))
        raise
