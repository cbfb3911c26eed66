"""The small shell on a mount, with its commands on standard input, or typed."""

import contextlib
import os
import pathlib
import pty
import subprocess
from collections.abc import Iterator, Sequence

from checks import PATIENCE, check, ending_of, git, make_repository
from helpers.running import Process
from programs import GIT_OBJECTS, MOUNTD, SAMPLE_OBJECTS, SAMPLE_ROOT, SHELL, listening
from yakembi.addresses import Address

STRICT = {**os.environ, "PYTHONIOENCODING": "utf-8:strict"}
MARKS = {b"100644": b"", b"100755": b"*", b"120000": b"@", b"040000": b"/", b"160000": b"/"}


def shell(mount: Sequence[object], *lines: bytes) -> tuple[int, bytes, list[bytes]]:
    """Status, output and the lines of errors of a shell on these commands, where texts are strict about their bytes."""
    words = [str(word) for word in [SHELL, *mount]]
    data = b"".join(line + b"\n" for line in lines)
    done = subprocess.run(words, input=data, env=STRICT, capture_output=True, timeout=PATIENCE)
    return done.returncode, done.stdout, done.stderr.splitlines()


def typed(mount: Sequence[object], *lines: bytes) -> tuple[int, bytes]:
    """The status of such a shell whose commands are typed, and all that its terminal shows."""
    words = [str(word) for word in [SHELL, *mount]]
    ours, theirs = pty.openpty()
    process = subprocess.Popen(words, stdin=theirs, stdout=theirs, stderr=theirs, env=STRICT, start_new_session=True)
    os.close(theirs)
    os.write(ours, b"".join(line + b"\n" for line in lines))
    shown = b""
    # Once nobody has the other end a terminal can't be read.
    with contextlib.suppress(OSError):
        while piece := os.read(ours, 65_536):
            shown += piece
    os.close(ours)
    return process.wait(PATIENCE), shown


def listing(repository: pathlib.Path, folder: str, sizes: bool = False) -> bytes:
    """What `ls` says of a folder, by what Git says of it."""
    rows = []
    for row in git(repository, "ls-tree", "-lz", f"HEAD:{folder}", text=False).split(b"\0")[:-1]:
        head, name = row.split(b"\t", 1)
        mode, _, _, size = head.split()
        length = b"%12d  " % (0 if size == b"-" else int(size)) if sizes else b""
        rows.append((name, length + name + MARKS[mode] + b"\n"))
    return b"".join(line for _, line in sorted(rows))


def content(repository: pathlib.Path, path: str) -> bytes:
    return git(repository, "cat-file", "blob", f"HEAD:{path}", text=False)


@contextlib.contextmanager
def served(repository: pathlib.Path, at: Sequence[object] | None = None) -> Iterator[tuple[Process, Address]]:
    """The address of a mount for one session, and its process."""
    root = git(repository, "rev-parse", "HEAD^{tree}")
    with listening([GIT_OBJECTS, repository], stderr=subprocess.DEVNULL) as (_, objects):
        words = ["serve", "--root", root, "--remote", objects, "--sessions", 1]
        with listening([MOUNTD, *words], at, stderr=subprocess.PIPE) as (process, address):
            yield process, address


def check_shell(folder: pathlib.Path) -> None:
    """A shell says what Git has, changes what it is told to, and says in plain words what can't be done."""
    repository = make_repository(folder)
    with listening([GIT_OBJECTS, repository], stderr=subprocess.DEVNULL) as (_, objects):
        words = [MOUNTD, "stdio", "--root", git(repository, "rev-parse", "HEAD^{tree}"), "--remote", objects]
        check_looks("shell on a program", words, repository)
    for name, at in [("shell on a port", ["--port", 0]), ("shell on a socket", None)]:
        with served(repository, at) as (process, address):
            check_looks(name, [address], repository)
            check(f"{name}: the end of mountd", ending_of(process), (0, b"", b""))
    with served(repository) as (process, address):
        check_changes([address], folder)
    with served(repository) as (process, address):
        check_refusals([address])
    check("shell: no such port", shell([1], b"ls")[0], 1)
    check("shell: no such program", shell([folder / "nothing"], b"ls")[0], 1)


def check_prompt(folder: pathlib.Path) -> None:
    """The prompt shows the folder, also one whose name is no text."""
    words = [MOUNTD, "stdio", "--root", SAMPLE_ROOT, "--objects", SAMPLE_OBJECTS]
    status, shown = typed(words, b"mkdir \xff", b"cd \xff", b"exit")
    check("shell: a prompt that is no text", (status, b"\n/\xff> " in shown), (0, True))


def check_looks(name: str, mount: Sequence[object], repository: pathlib.Path) -> None:
    deep = "/".join(f"d{number}" for number in range(60))
    target = content(repository, "dir/dangling")
    looks = [
        (b"ls", listing(repository, "")),
        (b"ls -l /dir", listing(repository, "dir", sizes=True)),
        (b"# nothing", b""),
        (b"cd many", b""),
        (b"pwd", b"/many\n"),
        (b"cat 7 ../plain.txt", content(repository, "many/7") + content(repository, "plain.txt")),
        (b"ls ../dir", listing(repository, "dir")),
        (b"cd ..", b""),
        (b"cat large.bin", content(repository, "large.bin")),
        (b"cat 'with space' per%cent", content(repository, "with space") + content(repository, "per%cent")),
        (b"cat \xff\xfe", b"no text\n"),
        (b"cat '\xc3\xa9t\xc3\xa9'", b"ete\n"),
        (b"cat /%s/deep" % deep.encode(), b"deep\n"),
        (b"stat run.sh /", b"exec %d /run.sh\ndir 0 /\n" % len(content(repository, "run.sh"))),
        (b"stat dir/dangling", b"link %d /dir/dangling -> %s\n" % (len(target), target)),
        (b"pwd", b"/\n"),
    ]
    status, output, errors = shell(mount, *[line for line, _ in looks])
    check(f"{name}: what it says", (status, output, errors), (0, b"".join(wanted for _, wanted in looks), []))


def check_changes(mount: Sequence[object], folder: pathlib.Path) -> None:
    """Each change, and what is there afterwards."""
    data = bytes(range(256)) * 800
    program = folder / "program"
    program.write_bytes(data)
    program.chmod(0o755)
    commands = [
        b"mkdir new", b"put %s new" % os.fsencode(program), b"ls new", b"cat new/program",
        b"put %s new/program" % os.fsencode(folder / "outer/plain.txt"), b"ls new", b"cat new/program",
        b"mv new/program 'new/a b'", b"mv plain.txt new", b"ls new", b"ln -s ../dir new/there", b"stat new/there",
        b"chmod +x 'new/a b'", b"ls new", b"chmod -x 'new/a b'", b"mv new newer", b"cd newer",
        b"rm 'a b' there plain.txt", b"ls", b"cd", b"rmdir newer", b"put %s" % os.fsencode(program), b"stat program",
    ]
    wanted = [b"program*\n", data, b"program\n", b"plain\n", b"a b\nplain.txt\n", b"link 6 /new/there -> ../dir\n",
              b"a b*\nplain.txt\nthere@\n", b"exec %d /program\n" % len(data)]
    check("shell: changes", shell(mount, *commands), (0, b"".join(wanted), []))


def check_refusals(mount: Sequence[object]) -> None:
    """Each is a line with the command in it, and no more; what follows is run."""
    commands = [b"cat nothing", b"ls nothing/below", b"cat dir", b"cat link", b"mkdir dir", b"rmdir many", b"rm many",
                b"cd plain.txt", b"mv dir dir/below", b"rmdir /", b"mkdir " + b"n" * 256, b"put /no/such/file",
                b"ln plain.txt other", b"cat", b"mv one", b"unknown", b"cat 'open", b"chmod 755 plain.txt"]
    status, output, errors = shell(mount, *commands, b"pwd")
    check("shell: what is refused", (status, output), (1, b"/\n"))
    check("shell: a line for each", [line.partition(b": ")[0] for line in errors], commands)
