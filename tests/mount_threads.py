"""A commit that several threads of one `mountd fuse` show: who waits for whom, and programs at once."""

import errno
import os
import pathlib
import signal
import subprocess
import threading
import time
from collections.abc import Callable
from concurrent.futures import ThreadPoolExecutor

from checks import PATIENCE, check, git, make_repository
from mount_differences import tried
from mount_folder import MountGit
from mount_kernel import run_files
from programs import GIT_OBJECTS, MOUNTD, listening

from yakembi import kernel
from yakembi.standing import stop

THREADS = 4


class Shown:
    """A commit's folder over a server of objects, and the server."""

    def __init__(self, folder: pathlib.Path, repository: pathlib.Path) -> None:
        self.top = folder / "mounted"
        self.top.mkdir()
        root = git(repository, "rev-parse", "HEAD^{tree}")
        self.listening = listening([GIT_OBJECTS, repository], stderr=subprocess.DEVNULL)
        self.server, address = self.listening.__enter__()
        words = [MOUNTD, "fuse", "--root", root, "--remote", address, "--overlay", folder / "overlay",
                 "--threads", THREADS]
        self.shown = kernel.Shown([str(word) for word in words], str(self.top))

    def __enter__(self) -> "Shown":
        return self

    def __exit__(self, *_: object) -> None:
        self.server.send_signal(signal.SIGCONT)
        kernel.unmount(str(self.top))
        self.listening.__exit__(None, None, None)

    def end(self) -> str | None:
        """What mountd said of its end, if that wasn't good."""
        self.shown.end()
        return self.shown.wait()


def in_thread(call: Callable[[], object], seen: list[object]) -> threading.Thread:
    thread = threading.Thread(target=lambda: seen.append(tried(call)), daemon=True)
    thread.start()
    return thread


def check_slow_object(folder: pathlib.Path) -> None:
    """While a server of objects stands still, those that need none of it are answered, and then the others do."""
    repository = make_repository(folder)
    with Shown(folder, repository) as shown:
        names = sorted(os.listdir(shown.top))
        check("threads: before", (len(os.listdir(shown.top / "many")), (shown.top / "plain.txt").read_bytes()),
              (30, b"plain\n"))
        stop(shown.server)
        goes_on = threading.Timer(PATIENCE, shown.server.send_signal, [signal.SIGCONT])
        goes_on.start()
        seen: list[object] = []
        # In a directory of its own, since the kernel lets nobody make a file where a name is looked up.
        waiting = in_thread((shown.top / "many" / "7").read_bytes, seen)
        time.sleep(0.2)
        (shown.top / "new").write_bytes(b"")
        told = []
        for turn in range(100):
            with open(shown.top / "new", "ab") as file:
                file.write(b"x")
            told.append(((shown.top / "new").stat().st_size, (shown.top / "plain.txt").read_bytes()))
        check("threads: who needs nothing is answered", told, [(turn + 1, b"plain\n") for turn in range(100)])
        check("threads: a listing too", sorted(os.listdir(shown.top)), sorted([*names, "new"]))
        check("threads: the other still waits", (seen, waiting.is_alive()), ([], True))
        shown.server.send_signal(signal.SIGCONT)
        waiting.join(PATIENCE)
        check("threads: then it is answered", seen, [b"7\n"])
        goes_on.cancel()
        check("threads: the end", shown.end(), None)


def check_lost_server(folder: pathlib.Path) -> None:
    """Without a server, what isn't there yet is refused with EIO, by each message that needs it; the rest is there."""
    repository = make_repository(folder)
    with Shown(folder, repository) as shown:
        os.listdir(shown.top)
        check("lost server: before", (shown.top / "plain.txt").read_bytes(), b"plain\n")
        shown.server.kill()
        shown.server.wait(PATIENCE)

        def read(_: int) -> object:
            told: object = tried((shown.top / "empty").read_bytes)
            return told

        with ThreadPoolExecutor(THREADS) as pool:
            told = list(pool.map(read, range(8)))
        check("lost server: what isn't there", told, [errno.errorcode[errno.EIO]] * 8)
        (shown.top / "made").write_bytes(b"made")
        check("lost server: what is", [(shown.top / name).read_bytes() for name in ("plain.txt", "made")],
              [b"plain\n", b"made"])
        check("lost server: the end", shown.end(), None)


def check_programs_at_once(folder: pathlib.Path, repository: pathlib.Path, seed: int, operations: int) -> None:
    """Four programs, each in a folder of its own, do the same as in plain folders; so does what is mounted again."""
    plain = [folder / f"plain {number}" for number in range(THREADS)]
    for top in plain:
        top.mkdir()
    for life, count in enumerate([operations, 0]):
        with MountGit(repository, "HEAD", folder / "mounted", "--overlay", folder / "overlay") as mount:
            pairs = [[mount.folder / top.name, top] for top in plain]
            for made, _ in pairs:
                made.mkdir(exist_ok=True)
            logs = [folder / f"log {number}" for number in range(THREADS)]
            with ThreadPoolExecutor(THREADS) as pool:
                list(pool.map(run_files, pairs, range(seed, seed + THREADS), [count] * THREADS, logs))
            check(f"programs at once: the end of {life}", (mount.end("SIGTERM"), mount.said()), (0, []))


def check_searches_at_once(folder: pathlib.Path, repository: pathlib.Path) -> None:
    """As many searches as threads, over a folder of which nothing was read yet."""
    words = ["grep", "-rn", "needle", "."]
    wanted = sorted(subprocess.run(words, cwd=repository, capture_output=True, timeout=PATIENCE).stdout.splitlines())
    wanted = [line for line in wanted if not line.startswith(b"./.git/")]
    with MountGit(repository, "HEAD", folder / "mounted", "--overlay", folder / "overlay") as mount:
        searches = [subprocess.Popen(words, cwd=mount.folder, stdout=subprocess.PIPE) for _ in range(THREADS)]
        found = [sorted(search.communicate(timeout=PATIENCE)[0].splitlines()) for search in searches]
        check("searches at once", found, [wanted] * THREADS)
        check("searches at once: the end", (mount.end("SIGTERM"), mount.said()), (0, []))
