"""A mount whose messages `mountd fuse` answers itself, over the descriptor of /dev/fuse that it is given.

Root mounts by mount(2), and others by fusermount3, which hands the descriptor over. No copy of it is kept here, so that
the kernel ends the mount when mountd does; once the folder is unmounted mountd closes the overlay and ends. What is
answered over a closed overlay so takes an unmount and another mount: the kernel begins a connection once, and only the
mountd that it began with knows its nodes.
"""

import array
import contextlib
import ctypes
import errno
import os
import pathlib
import re
import select
import shutil
import socket
import subprocess
import threading
import time
from collections.abc import Callable, Iterator, Mapping, Sequence
from typing import NamedTuple, TypeVar

from yakembi.control import said_of
from yakembi.git import Refusal, said
from yakembi.standing import standing_still

CACHE_ENTRIES = 65_536
# The kind of a mount of ours, as the kernel lists it with all others; and where it has a folder for each connection.
KIND = b"fuse.mount-git"
MOUNTS = pathlib.Path("/proc/self/mountinfo")
CONNECTIONS = pathlib.Path("/sys/fs/fuse/connections")
# The statuses of mountd that come with a line on standard error.
WITH_A_LINE = (2, 3, 4)
MS_NOSUID, MS_NODEV, MNT_FORCE, MNT_DETACH = 2, 4, 1, 2
# A read has at most what the mount takes in one, and the kernel looks at permissions.
OPTIONS = ["default_permissions", "max_read=65536"]
# How long a mount that is unmounted may take to end before who asked for that is told.
SECONDS_TO_CLOSE = 60
# By it the C library learns how to allocate.
TUNABLES = "GLIBC_TUNABLES"
# How long a signal may go unheeded that comes in an unlucky moment.
SECONDS_UNHEEDED = 1
LIBC = ctypes.CDLL(None, use_errno=True)
# As many as `mountd fuse` takes.
MOST_THREADS = 63
Result = TypeVar("Result")


class Mount(NamedTuple):
    """A mount as the kernel lists it: its path, the number of its device, its kind, and what it is of."""

    path: bytes
    number: int
    kind: bytes
    source: bytes


class Control(NamedTuple):
    """The kernel's file that ends a connection, and its inode number. Once a folder is unmounted the connection's own
    number, by which that file is named, may be another's, though mountd still runs; the inode number isn't."""

    file: pathlib.Path
    inode: int


class Unopened(Exception):
    """mountd's own word for why it didn't open the overlay, as `Locked`, or the line that it ended with."""


class Ends(Refusal):
    """The mount ends already, or somebody else unmounted the folder."""


class Unclosed(Exception):
    """mountd's own word for why it didn't close the overlay well, or the line that it ended with."""


def our_name() -> str:
    """What the kernel says that our mounts are of. No other run that is there has the same."""
    return f"mount-git.{os.getpid()}"


def mount(folder: str) -> int:
    """Mounts the folder, and the descriptor by which its messages come."""
    return mount_as_root(folder) if os.geteuid() == 0 else mount_by_helper(folder)


def mount_as_root(folder: str) -> int:
    descriptor = os.open("/dev/fuse", os.O_RDWR | os.O_CLOEXEC)
    words = [f"fd={descriptor}", "rootmode=40000", f"user_id={os.getuid()}", f"group_id={os.getgid()}", *OPTIONS]
    if LIBC.mount(our_name().encode(), os.fsencode(folder), KIND, MS_NOSUID | MS_NODEV,
                  ",".join(words).encode()) != 0:
        number = ctypes.get_errno()
        os.close(descriptor)
        raise OSError(number, os.strerror(number), folder)
    return descriptor


def mount_by_helper(folder: str) -> int:
    ours, theirs = socket.socketpair()
    with ours, theirs:
        words = ["fusermount3", "-o", ",".join([*OPTIONS, "subtype=mount-git", f"fsname={our_name()}"]), "--", folder]
        done = subprocess.run(words, env={**os.environ, "_FUSE_COMMFD": str(theirs.fileno())},
                              pass_fds=[theirs.fileno()], capture_output=True)
        if done.returncode != 0:
            raise OSError(1, f"fusermount3 couldn't mount it{said(done.stderr)}", folder)
        # With its end closed here too, what it didn't send isn't waited for.
        theirs.close()
        descriptors = array.array("i")
        _, rows, _, _ = ours.recvmsg(1, socket.CMSG_LEN(descriptors.itemsize))
        for level, kind, data in rows:
            if level == socket.SOL_SOCKET and kind == socket.SCM_RIGHTS:
                descriptors.frombytes(data[:descriptors.itemsize])
        if not descriptors:
            raise OSError(errno.EPROTO, "fusermount3 handed no mount over", folder)
        return descriptors[0]


def unmount(folder: str) -> None:
    """Takes the folder's mount away, also if it is in use or dead; what isn't mounted stays as it is."""
    if os.geteuid() == 0:
        LIBC.umount2(os.fsencode(folder), MNT_DETACH)
    else:
        subprocess.run(["fusermount3", "-u", "-z", "--", folder], capture_output=True)


def unmount_unused(folder: str) -> bool:
    """Unmounts the folder, unless somebody stands in it or has a file of it open; whether it did."""
    if os.geteuid() == 0:
        return bool(LIBC.umount2(os.fsencode(folder), 0) == 0)
    return subprocess.run(["fusermount3", "-u", "--", folder], capture_output=True).returncode == 0


def abort(folder: str, known: Control | None = None) -> None:
    """Ends the connection of our mount at the folder, or else the one that was known, so that mountd ends also while a
    program has a file open, or another namespace the mount; of what else the folder lies on nothing is ended. This
    takes the kernel's file of the connection, which is there if fusectl is mounted; without it root can do so at the
    folder, and for others nothing happens."""
    control = control_of(folder) or known
    with contextlib.suppress(OSError):
        if control is not None:
            with open(control.file, "w") as file:
                if os.fstat(file.fileno()).st_ino == control.inode:
                    file.write("1")
            return
    if os.geteuid() == 0 and is_own(folder):
        LIBC.umount2(os.fsencode(folder), MNT_FORCE)


def control_of(folder: str) -> Control | None:
    """What ends the connection of our mount at the folder; None if ours isn't there, or fusectl."""
    found = last_at(folder)
    if found is not None and is_of_us(found):
        file = CONNECTIONS / str(found.number) / "abort"
        with contextlib.suppress(OSError):
            return Control(file, file.stat().st_ino)
    return None


def mounts() -> Iterator[Mount]:
    """Each mount, in the order in which they came."""
    for row in MOUNTS.read_bytes().splitlines():
        head, _, tail = row.partition(b" - ")
        _, _, device, _, place, *_ = head.split(b" ")
        kind, of, *_ = tail.split(b" ")
        path = re.sub(rb"\\([0-7]{3})", lambda code: bytes([int(code[1], 8)]), place)
        yield Mount(path, int(device.partition(b":")[2]), kind, of)


def mounts_at(folder: str) -> list[Mount]:
    """The mounts at the folder, whose path has no links. Nobody is asked but the kernel, who may have to be waited for.
    """
    return [found for found in mounts() if found.path == os.fsencode(folder)]


def last_at(folder: str) -> Mount | None:
    found = mounts_at(folder)
    return found[-1] if found else None


def is_of_us(found: Mount) -> bool:
    """Whether this run made that mount."""
    return (found.kind, found.source) == (KIND, our_name().encode())


def is_own(folder: str) -> bool:
    """Whether what is mounted at the folder, last of all, is ours: another one may have come since."""
    found = last_at(folder)
    return found is not None and is_of_us(found)


def connection_of(folder: str) -> int | None:
    """The number by which the kernel names the connection of the last mount at the folder, if a `mount-git` made it;
    None if none is."""
    found = last_at(folder)
    return found.number if found is not None and found.kind == KIND else None


def mounted_inside(folder: str) -> str | None:
    """The last mount below the folder, whose path has no links; None if none is."""
    below = [found.path for found in mounts() if found.path.startswith(os.fsencode(folder) + b"/")]
    return os.fsdecode(below[-1]) if below else None


def can_mount() -> bool:
    return os.geteuid() == 0 or shutil.which("fusermount3") is not None


def with_huge_pages(environment: Mapping[str, str]) -> dict[str, str]:
    """That environment, by which the C library asks for pages of 2 MiB for large memory: a file that is written whole
    waits in memory, and small pages for it would take longer than to copy it. Who has set that variable keeps it."""
    return {TUNABLES: "glibc.malloc.hugetlb=1", **environment}


class Shown:
    """One `mountd fuse` that shows a folder."""

    def __init__(self, words: Sequence[str], folder: str, descriptor: int | None = None) -> None:
        """In a process group of its own, so that a terminal's Ctrl-C doesn't reach it, and in our session, as
        `standing_still` wants it. `Unopened`, if it opens nothing. The descriptor is that of a folder that was mounted
        already."""
        self.folder = folder
        descriptor = mount(folder) if descriptor is None else descriptor
        try:
            # As we ignore SIGXFSZ, mountd does: a file over its user's limit is an error like a full disk.
            self.child = subprocess.Popen(words, stdin=descriptor, stdout=descriptor, stderr=subprocess.PIPE,
                                          env=with_huge_pages(os.environ), process_group=0, restore_signals=False)
        except OSError:
            unmount(folder)
            raise
        finally:
            os.close(descriptor)
        try:
            # It is answered once the mount is open, or if somebody unmounted it; or fails once mountd ended.
            os.stat(folder)
        except OSError:
            unmount(folder)
            raise Unopened(self.last_words().removeprefix("mountd: open ")) from None
        except BaseException:
            unmount(folder)
            raise

    def last_words(self) -> str:
        assert self.child.stderr is not None
        with self.child.stderr:
            end = select.poll()
            end.register(self.child.stderr)
            # A signal that comes just before the wait is heeded after it.
            while not end.poll(1_000 * SECONDS_UNHEEDED):
                pass
            lines = self.child.stderr.read().decode(errors="replace").splitlines()
        status = self.child.wait()
        return lines[-1] if status in WITH_A_LINE and lines else f"mountd ended with status {status}"

    def wait(self) -> str | None:
        """Waits until it ended, after an unmount or without; what it said, if that wasn't its good end."""
        said = self.last_words()
        unmount(self.folder)
        return None if self.child.returncode == 0 else said

    def end(self) -> None:
        """Unmounts the folder, upon which mountd closes the overlay and ends."""
        unmount(self.folder)


class Showing:
    """A folder that one `mountd fuse` after another shows, over one overlay."""

    def __init__(self, mountd: str | os.PathLike[str], root: str, source: Sequence[object], overlay: str, folder: str,
                 seconds_locked: float, since: int, threads: int) -> None:
        """What was never changed has the time `since`, in seconds."""
        self.words = [os.fspath(mountd), "fuse", "--root", root, *[str(word) for word in source], "--overlay", overlay,
                      "--cache-entries", str(CACHE_ENTRIES), "--since", str(since), "--threads", str(threads)]
        self.folder = folder
        # As the kernel lists it. To look for links in it later could take an answer of mountd's.
        self.place = os.path.realpath(folder)
        self.seconds_locked = seconds_locked
        self.is_ended = False
        # Whoever has it may put another mountd in the place of the one that shows the folder.
        self.turn = threading.Lock()
        self.shown: Shown | None = None
        # What ends the connection of the mount, also if that isn't at the folder any more.
        self.control: Control | None = None
        # Set once the last mountd has ended; `fault` is what was wrong with that.
        self.done = threading.Event()
        self.fault: str | None = None
        # Why nothing shows the folder any more, though each mountd closed the overlay well.
        self.lost: str | None = None

    def open(self, descriptor: int | None = None) -> None:
        """Shows it, by the descriptor if it is mounted already. `Unopened`, with mountd's own word, if the overlay
        isn't opened."""
        self.shown = self.opened(descriptor)
        self.control = control_of(self.place)
        if self.is_ended:
            self.end()

    def opened(self, descriptor: int | None) -> Shown:
        """A mountd that shows the folder. What a killed one left is rescanned. It waits a little for one that still
        has the overlay."""
        end = time.monotonic() + self.seconds_locked
        more: list[str] = []
        while True:
            try:
                return Shown([*self.words, *more], self.folder, descriptor)
            except Unopened as refusal:
                if str(refusal) == "NotClean" and not more:
                    more = ["--rescan"]
                elif str(refusal) != "Locked" or self.is_ended or time.monotonic() > end:
                    raise
                else:
                    time.sleep(0.1)
            descriptor = None

    def wait(self) -> None:
        """Waits until the folder is unmounted, or nothing shows it. `Unclosed`, if the last mountd didn't end well;
        `Unopened`, if none could be started after it and nobody ended the mount."""
        try:
            self.wait_for_last()
        except (Unclosed, Unopened) as problem:
            self.fault = str(problem)
            raise
        finally:
            self.done.set()

    def wait_for_last(self) -> None:
        while True:
            shown = self.shown
            assert shown is not None
            said = shown.last_words()
            with self.turn:
                if self.shown is shown:
                    if is_own(self.place):
                        unmount(self.folder)
                    break
        if shown.child.returncode != 0:
            raise Unclosed(said)
        if self.lost is not None:
            raise Unopened(self.lost)

    def while_closed(self, work: Callable[[], Result]) -> Result:
        """What the work gives, over an overlay that is closed meanwhile. A `Refusal`, if the folder is in use: then it
        stays as it is. Programs that come once it is mounted again wait for the next mountd. `Unopened`, if there is
        none: then nothing is mounted any more, and the work may have been done."""
        with self.turn:
            self.leave("it is unmounted for a moment for this, so leave the folder and close its files")
            with self.or_lost():
                descriptor = self.mounted_again()
            try:
                return work()
            finally:
                with self.or_lost():
                    self.open(descriptor)

    def while_still(self, work: Callable[[], Result]) -> Result:
        """What the work gives, over an overlay that isn't changed meanwhile, whoever uses the folder: whose message
        comes then waits. A `Refusal`, if mountd is at work all the time, or has ended."""
        with self.turn:
            assert self.shown is not None
            with standing_still(self.shown.child):
                return work()

    def leave(self, what_to_do: str) -> None:
        """Unmounts the folder. A Refusal, if it is in use, which says what to do then, or what is mounted in it.
        `Ends`, if somebody else unmounted it, or ends the mount."""
        with contextlib.suppress(OSError):
            # Answered after the closes before it, of which the last one of a removed file takes that away.
            os.statvfs(self.folder)
        if not self.is_ended and is_own(self.place) and unmount_unused(self.folder):
            return
        if self.is_ended or not any(map(is_of_us, mounts_at(self.place))):
            raise Ends(f"the mount at {self.folder} ends")
        if not is_own(self.place):
            what_to_do = "unmount what is mounted over it"
        elif (inside := mounted_inside(self.place)) is not None:
            what_to_do = f"unmount {inside}, which is mounted in it"
        raise Refusal(f"{self.folder} is in use: {what_to_do}")

    @contextlib.contextmanager
    def or_lost(self) -> Iterator[None]:
        """What fails here leaves nothing mounted, which `wait` tells too, unless somebody ended the mount."""
        try:
            yield
        except (Unopened, OSError) as problem:
            why = said_of(problem) if isinstance(problem, OSError) else str(problem)
            if not self.is_ended:
                self.lost = why
            raise Unopened(why) from None

    def mounted_again(self) -> int:
        """Mounts the folder, which was just unmounted, at once; the descriptor that the next mountd is given."""
        descriptor = mount(self.folder)
        assert self.shown is not None
        status = self.shown.child.wait()
        if status != 0 or self.is_ended:
            os.close(descriptor)
            unmount(self.folder)
            raise Unclosed("it is ended" if self.is_ended else f"mountd ended with status {status}")
        return descriptor

    def finish(self, by_force: bool) -> None:
        """Unmounts the folder, by force also if it is in use, and waits until mountd has closed the overlay.
        `Unclosed`, if it isn't closed well. A `Refusal`, if that takes long, as when something holds the mount that
        can't be said from here."""
        with self.turn:
            if by_force:
                self.end()
            else:
                # Who was faster wanted the same.
                with contextlib.suppress(Ends):
                    self.leave("leave the folder and close its files, or end it by --force")
                self.is_ended = True
        if not self.done.wait(SECONDS_TO_CLOSE):
            raise Refusal(f"{self.folder} is unmounted, but mountd goes on: it stores what it has, or something holds "
                          "the mount elsewhere or has a file open, which --force ends")
        if self.fault is not None:
            raise Unclosed(self.fault)

    def end(self) -> None:
        """Unmounts the folder, be it in use, upon which mountd closes the overlay and ends. Once all has ended nothing
        is done, so that signals which come without a pause don't keep this program from going."""
        if self.done.is_set():
            return
        self.is_ended = True
        if is_own(self.place):
            unmount_unused(self.folder)
        # If it is in use it runs on, and if another namespace has it too.
        abort(self.place, self.control)
        if is_own(self.place):
            unmount(self.folder)
