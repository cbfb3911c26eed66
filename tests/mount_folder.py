"""A commit that `mount-git` shows at a folder, a plain checkout beside it, and commands that are run in both."""

import contextlib
import itertools
import os
import pathlib
import re
import shutil
import signal
import subprocess
import tempfile
import threading
import time
from collections.abc import Callable
from typing import Self

from checks import PATIENCE, check, git, make_repository, skip, whole_tree
from helpers.git import DEEP, content_of, environment, make_large_repository
from programs import MOUNT_GIT, MOUNTD
from yakembi import kernel, mount_git

LONGEST_MOUNT = 280
UNMOUNT = shutil.which("fusermount3") or ""
NUMBERS = itertools.count()
FOLDERS, FILES_IN_A_FOLDER = 50, 100
# The status and the lines of a program; the status, the output and the errors of a command.
Said = tuple[int, list[str]]
Told = tuple[int | str, bytes, bytes]
HELLO = {
    "Makefile": "hello: main.o greet.o\n\t$(CC) -o $@ main.o greet.o\n\nmain.o greet.o: greet.h\n",
    "main.c": '#include "greet.h"\n\nint main(void)\n{\n    return greet("needle");\n}\n',
    "greet.h": "int greet(const char *name);\n",
    "greet.c": '#include <stdio.h>\n#include "greet.h"\n\nint greet(const char *name)\n{\n'
               '    return printf("hello, %s\\n", name) < 0;\n}\n',
}


def missing() -> str | None:
    """What this machine lacks for a mount through FUSE, in words; None if nothing is."""
    try:
        os.close(os.open("/dev/fuse", os.O_RDWR))
    except OSError as problem:
        return f"/dev/fuse can't be opened: {problem.strerror}"
    if not kernel.can_mount():
        return "fusermount3, of Debian's fuse3, isn't there"
    return mount_refused()


def mount_refused() -> str | None:
    """Why nothing may be mounted here, as in some containers; None if it may. A mount that nobody serves shows it."""
    with tempfile.TemporaryDirectory() as folder:
        try:
            os.close(kernel.mount(folder))
        except OSError as problem:
            return f"nothing may be mounted: {problem.strerror}"
        kernel.unmount(folder)
    return None


# ---- a repository, and its checkout


def make_project(folder: pathlib.Path) -> pathlib.Path:
    """A repository of a few hundred files: one of everything, notes, a program in C, and links to files and folders."""
    repository = make_repository(folder)
    for number in range(160):
        place = repository / f"notes/{number % 8}/{number}.txt"
        place.parent.mkdir(parents=True, exist_ok=True)
        place.write_text(f"note {number}\n" + "needle\n" * (number % 10 == 0) + "old words\n" * (number % 7))
    hello = repository / "hello"
    hello.mkdir()
    for name, text in HELLO.items():
        (hello / name).write_text(text)
    (repository / "run.sh").write_text('#!/bin/sh\necho "run with $*"; ls\n')
    for link, target in [("first", "notes/0/0.txt"), ("notes/above", ".."), ("notes/1/other", "../2")]:
        (repository / link).symlink_to(target)
    git(repository, "add", "-A")
    git(repository, "commit", "-qm", "project")
    return repository


def checkout(repository: pathlib.Path, folder: pathlib.Path, revision: str = "HEAD") -> pathlib.Path:
    """Writes the commit's files into a folder, as Git does."""
    folder.mkdir()
    git(repository, f"--work-tree={folder}", "checkout", "-qf", revision, "--", ".")
    return folder


def make_many_files(folder: pathlib.Path) -> tuple[pathlib.Path, list[str]]:
    """A repository of 5,000 files in 50 folders, and the paths of all that its commit has but the root."""
    repository = folder / "many files"
    paths = []
    for number in range(FOLDERS):
        (repository / f"d{number:02}").mkdir(parents=True)
        paths.append(f"/d{number:02}")
        for file in range(FILES_IN_A_FOLDER):
            (repository / f"d{number:02}" / f"f{file:02}").write_text("one content\n")
            paths.append(f"/d{number:02}/f{file:02}")
    git(repository, "init", "-q")
    git(repository, "add", "-A")
    git(repository, "commit", "-qm", "many files")
    return repository, paths


def renamed(path: str) -> str:
    """Where a path lies once /d00 was renamed to /e."""
    return "/e" + path[4:] if path.startswith("/d00") else path


def check_own(name: str, numbers: dict[str, int]) -> None:
    """No two paths have one number, and none has the root's."""
    check(f"{name}: numbers of their own", len({1, *numbers.values()}), len(numbers) + 1)


class Large:
    """The repository of 50,000 files, and the objects that one deep file (`deep`) and a folder (`beside`) may cost."""

    path = tuple(DEEP.encode().split(b"/"))
    content = content_of(DEEP).encode()
    folder = b"d18"

    def __init__(self, folder: pathlib.Path) -> None:
        self.repository = make_large_repository(folder)
        self.root = git(self.repository, "rev-parse", "HEAD^{tree}")
        rows = whole_tree(self.repository)
        self.deep = {self.root, *(rows[b"/".join(self.path[:count])][1] for count in range(1, len(self.path) + 1))}
        self.beside = {row[1] for path, row in rows.items() if (path + b"/").startswith(self.folder + b"/")}


def asked_for(log: pathlib.Path) -> list[str]:
    """The ids that an object server was asked for, as often as it was."""
    return sorted(re.findall("get ([0-9a-f]{40})", log.read_text()))


# ---- mount-git


def heed_signals() -> None:
    """What a shell starts in the background ignores Ctrl-C, and what `nohup` starts SIGHUP; so does all that these
    start."""
    for number in (signal.SIGINT, signal.SIGHUP):
        signal.signal(number, signal.SIG_DFL)


class MountGit:
    """A run of `mount-git`, all of whose lines are kept in a file. It is killed if it takes too long."""

    # Options of each.
    way: tuple[str, ...] = ()

    @classmethod
    def words(cls, *more: object) -> list[str]:
        return [str(word) for word in [MOUNT_GIT, "--mountd", MOUNTD, *cls.way, *more]]

    def __init__(self, repository: pathlib.Path, revision: str, folder: pathlib.Path, *options: object) -> None:
        self.folder = folder
        self.log = folder.parent / f"{folder.name}.{next(NUMBERS)}.log"
        words = self.words(*options, repository, revision, folder)
        with contextlib.suppress(FileExistsError):
            os.mkdir(folder)
        with open(self.log, "wb") as log:
            self.process = subprocess.Popen(words, stdin=subprocess.DEVNULL, stdout=log, stderr=log,
                                            start_new_session=True, preexec_fn=heed_signals)

    def wait_until_shown(self) -> None:
        end = time.monotonic() + PATIENCE
        while f"mounted {self.folder}" not in self.lines():
            if self.process.poll() is not None or time.monotonic() > end:
                raise RuntimeError(f"mount-git shows nothing: {self.lines()}")
            time.sleep(0.01)

    def lines(self) -> list[str]:
        return self.log.read_text(errors="replace").splitlines()

    def said(self) -> list[str]:
        """The lines that report something that went wrong."""
        return [line for line in told_anywhere(self.lines()) if line.startswith("mount-git: ")]

    def is_mounted(self) -> bool:
        """Whether the folder is a mount, be it one that nobody serves any more."""
        return f" {self.folder} " in pathlib.Path("/proc/self/mountinfo").read_text()

    def status(self) -> int | None:
        """The status with which it ends by itself; None if it doesn't."""
        try:
            return self.process.wait(PATIENCE)
        except subprocess.TimeoutExpired:
            return None

    def end(self, how: str) -> int | None:
        """Ends it in one of the ways that `ENDINGS` names, and gives its status."""
        ENDINGS[how](self)
        return self.status()

    def signal_until_it_ends(self) -> None:
        """Sends it all signals that end it, again and again, at whatever it is."""
        end = time.monotonic() + PATIENCE
        while self.process.poll() is None and time.monotonic() < end:
            for number in (signal.SIGTERM, signal.SIGINT, signal.SIGHUP):
                self.process.send_signal(number)
            time.sleep(0.001)

    def kill(self) -> None:
        """Kills it and all that it started, at once, and leaves the dead mount."""
        if self.process.poll() is not None:
            return
        for process in [self.process.pid, *children(self.process.pid)]:
            with contextlib.suppress(ProcessLookupError):
                os.kill(process, signal.SIGKILL)
        self.process.wait()

    def __enter__(self) -> Self:
        self.watch = threading.Timer(LONGEST_MOUNT, self.kill)
        self.watch.daemon = True
        self.watch.start()
        try:
            self.wait_until_shown()
        except BaseException:
            self.__exit__()
            raise
        return self

    def __exit__(self, *_: object) -> None:
        """Leaves nothing mounted, whatever happened."""
        self.watch.cancel()
        self.kill()
        if self.is_mounted():
            kernel.unmount(str(self.folder))


def unmount(folder: pathlib.Path) -> None:
    words = [UNMOUNT, "-u"] if UNMOUNT else ["umount"]
    subprocess.run([*words, folder], capture_output=True, timeout=PATIENCE)


ENDINGS: dict[str, Callable[[MountGit], object]] = {
    "Ctrl-C": lambda mount: os.killpg(mount.process.pid, signal.SIGINT),
    "SIGTERM": lambda mount: mount.process.terminate(),
    "SIGHUP": lambda mount: mount.process.send_signal(signal.SIGHUP),
    "signals again and again": MountGit.signal_until_it_ends,
    "fusermount3 -u": lambda mount: unmount(mount.folder),
}


def children(process: int) -> list[int]:
    """The processes that it started and that are there, and theirs."""
    found = []
    for task in pathlib.Path(f"/proc/{process}/task").glob("*/children"):
        with contextlib.suppress(OSError):
            for child in map(int, task.read_text().split()):
                found += [child, *children(child)]
    return found


# ---- programs


def said_by(*words: object) -> Said:
    """The status and the lines of a program."""
    done = subprocess.run([str(word) for word in words], stdin=subprocess.DEVNULL, stdout=subprocess.PIPE,
                          stderr=subprocess.STDOUT, timeout=PATIENCE)
    return done.returncode, told_anywhere(done.stdout.decode(errors="replace").splitlines())


def told_anywhere(lines: list[str]) -> list[str]:
    """The lines but for one that `mount-git` prints if an overlay isn't soon open, as on a machine that is busy."""
    return [line for line in lines if not line.endswith(mount_git.SLOW)]


# ---- commands in both folders


class Both:
    """The mounted folder and the plain one. A command finds what it takes at $IN and leaves what it makes at $OUT."""

    def __init__(self, repository: pathlib.Path, mounted: pathlib.Path, plain: pathlib.Path,
                 place: pathlib.Path) -> None:
        self.folders = [mounted, plain]
        self.environment = {**environment(), "LC_ALL": "C", "REPOSITORY": str(repository), "IN": str(place / "in")}
        self.outs = [place / "out of the mounted", place / "out of the plain"]
        for out in self.outs:
            out.mkdir()

    def run(self, command: str) -> list[Told]:
        """What each run of the command says: its status, its output and its errors."""
        return [told(command, folder, {**self.environment, "OUT": str(out)})
                for folder, out in zip(self.folders, self.outs)]

    def check(self, name: str, command: str, program: str | None = None) -> None:
        """It succeeds in both, and says the same."""
        if program is not None and shutil.which(program) is None:
            skip(name, f"{program} isn't there")
            return
        mounted, plain = self.run(command)
        check(f"{name}, on the plain folder", plain[0], 0)
        check(name, mounted, plain)


def told(command: str, folder: pathlib.Path, environment: dict[str, str]) -> Told:
    try:
        done = subprocess.run(["sh", "-euc", command], cwd=folder, env=environment, stdin=subprocess.DEVNULL,
                              capture_output=True, timeout=PATIENCE)
    except subprocess.TimeoutExpired:
        return "no end", b"", b""
    return done.returncode, done.stdout, done.stderr


LOOKS = [
    ("every name", "find . -print0 | sort -z"),
    ("every listing with its dots", "ls -aR"),
    ("every kind, mode, length and target", r"find . ! -type d -printf '%y %m %s %p %l\0' | sort -z"),
    ("find by kind and mode", "find . -type l | sort; find . -type f -perm -u+x | sort; find . -type d -empty | sort"),
    ("grep -r", "grep -rn needle . | sort"),
    ("a sum of each file", "find . -type f -print0 | sort -z | xargs -0 sha1sum"),
    ("tar out", 'tar -cf - . | tar -xf - -C "$OUT"'),
    ("cp -r out", 'cp -r notes "$OUT/notes by cp -r"'),
    ("cp -a out", 'cp -a . "$OUT/all by cp -a"'),
    ("a program of the commit", "./run.sh one two"),
    ("git status", 'cp "$REPOSITORY/.git/index" "$OUT.index" && GIT_INDEX_FILE="$OUT.index" '
                   'git --git-dir="$REPOSITORY/.git" --work-tree=. status --porcelain'),
]

CHANGES = [
    ("tar in", 'mkdir untarred && tar -xf "$IN/notes.tar" -C untarred'),
    ("cp -r in", 'cp -r "$IN/notes" copied'),
    ("cp -a in", 'cp -a "$IN/notes" "copied with all"'),
    ("sed -i", "sed -i s/old/new/ notes/*/*.txt && cat notes/*/*.txt"),
    ("sed -i with a backup", "sed -i.bak s/new/newer/ notes/3/*.txt && cat notes/3/*"),
    ("mv of a file over another", "mv notes/3/3.txt notes/3/11.txt && ls -A notes/3 && cat notes/3/11.txt"),
    ("mv of a folder", "mv notes/4 moved && mv moved dir/ && ls -A dir/moved && cat dir/moved/*"),
    ("mv of a folder over an empty one", "mkdir empty-now && mv -T copied/5 empty-now && ls -A empty-now copied"),
    ("mv of a folder over a full one", "! mv -T copied/6 copied/7 2>&1"),
    ("a save by rename", "cp notes/0/8.txt notes/0/.8.txt.new && echo saved >> notes/0/.8.txt.new && "
                         "mv notes/0/.8.txt.new notes/0/8.txt && cat notes/0/8.txt"),
    ("a save with a backup by link, or by copy", "{ ln notes/0/16.txt notes/0/16.txt~ 2> \"$OUT.said\" || "
     "cp notes/0/16.txt notes/0/16.txt~; } && echo saved > notes/0/new && mv notes/0/new notes/0/16.txt && "
     "cat notes/0/16.txt notes/0/16.txt~"),
    ("dd in pieces", 'dd if="$IN/notes.tar" of=pieces bs=3000 status=none && '
                     'dd if="$IN/notes.tar" of=pieces bs=777 seek=5 count=20 conv=notrunc status=none && '
                     'dd if="$IN/notes.tar" of=pieces bs=10k count=2 oflag=append conv=notrunc status=none && '
                     'sha1sum pieces'),
    ("ln -s", "ln -s notes/0/0.txt here && ln -sfn notes/1 there && cat here && ls there/ && readlink here there"),
    ("ln -sf over a link", "ln -sfn notes/2 there && readlink there && ls there/"),
    ("chmod +x", "printf '#!/bin/sh\\necho new program\\n' > program && ! ./program 2>&1 && "
                 "chmod +x program && ./program"),
    ("chmod -x", "chmod -x run.sh && ! ./run.sh 2>&1 && stat -c %a run.sh"),
    ("truncate", "truncate -s 5 notes/0/24.txt && truncate -s +7 notes/0/24.txt && od -c notes/0/24.txt"),
    ("appending", "echo one >> notes/0/32.txt; echo two >> notes/0/32.txt; cat notes/0/32.txt; "
                  "echo first > fresh; cat fresh"),
    ("a large file", 'cp "$IN/bytes" large && cmp large "$IN/bytes"'),
    ("small writes", 'head -c 300000 "$IN/bytes" > small && sha1sum small'),
    ("sort into itself", "sort -r -o notes/0/40.txt notes/0/40.txt && cat notes/0/40.txt"),
    ("folders in folders", "mkdir -p a/b/c/d && rmdir -p a/b/c/d && mkdir -p a/b && ls -R a"),
    ("odd names", "printf 1 > \"$(printf 'tab\\there')\" && printf 2 > '*' && printf 3 > ./-r && mkdir '%41 %' && "
                  "ls -A | od -c"),
    ("find and remove", "find notes -name '*9.txt' -delete && find notes | sort"),
    ("rm -r", "rm -r many && ! ls many 2>&1"),
    ("a link where a folder was", "ln -s notes many && ls many/"),
]

# A program of two dozen parts, whose sum it looks at.
PARTS = (
    "mkdir parts && cd parts && for n in $(seq 24); do echo \"int f$n(void) { return $n; }\" > $n.c; done && "
    "{ seq -f 'int f%g(void);' 24; echo 'int main(void) { return 0'; seq -f ' + f%g()' 24; echo ' != 300; }'; } "
    r"> sum.c && printf 'O := $(patsubst %%.c,%%.o,$(wildcard *.c))\nsum: $(O)\n\t$(CC) -o sum $(O)\n' > Makefile && "
    "make -s -j4 && ./sum && ls"
)

BUILDS = [
    ("make", "make -s -C hello && hello/hello"),
    ("make -j4", PARTS),
    ("make -j4, with nothing to do", "make --no-print-directory -j4 -C parts"),
    ("make -j4 after a change", "touch parts/7.c && make --no-print-directory -j4 -C parts && parts/sum"),
    ("make, with nothing to do", "make --no-print-directory -C hello"),
    ("make after a change", "sed -i s/needle/haystack/ hello/main.c && make --no-print-directory -C hello && "
                            "hello/hello"),
]

COPIES = [
    ("rsync out", 'rsync -a notes "$OUT/by rsync"'),
    ("rsync in", 'rsync -a "$IN/notes" rsynced && find rsynced | sort'),
    ("rsync in again", 'echo more >> rsynced/notes/1/1.txt && rsync -a --checksum "$IN/notes" rsynced && '
                       'cat rsynced/notes/1/1.txt'),
]
