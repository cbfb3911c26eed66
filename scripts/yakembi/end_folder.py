"""Ends a mount of another run of `mount-git`, and waits until that has closed the overlay and ended.

A folder in which somebody stands, or of which a file is open, stays mounted, and a line says so; with --force it is
ended all the same, and who uses it gets errors from then on. (For others than root that takes fusectl to be mounted at
/sys/fs/fuse/connections; without it the folder is unmounted, and the mount ends when the last file is closed.)
"""

import argparse
import contextlib
import os

from yakembi import kernel
from yakembi.control import Connection, Ended
from yakembi.git import Refusal


def end(words: argparse.Namespace) -> None:
    top = os.path.realpath(words.folder)
    try:
        mount = Connection(top)
    except Refusal:
        if kernel.connection_of(top) is None:
            raise
        raise Refusal(f"no mount-git of this user answers for {top}: unmount it as who mounted it, by "
                      "`fusermount3 -u` or `umount`") from None
    with contextlib.closing(mount):
        if mount.top != top:
            raise Refusal(f"{top} isn't the top of a mount: that is {mount.top}")
        # Who ends it at the same time is answered.
        with contextlib.suppress(Ended):
            mount.ask("end", **({"by_force": "yes"} if words.force else {}))
        mount.wait_for_end()


def end_parser() -> argparse.ArgumentParser:
    found = argparse.ArgumentParser(prog="mount-git end", description=__doc__,
                                    formatter_class=argparse.RawDescriptionHelpFormatter)
    found.add_argument("folder", metavar="FOLDER", help="a folder that `mount-git` shows")
    found.add_argument("--force", action="store_true", help="end it though it is in use")
    return found
