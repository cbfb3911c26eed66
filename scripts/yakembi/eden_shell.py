"""A small shell on a mount.

    eden-shell PORT|SOCKET              on the `mountd serve` that listens at the port, or at the socket of that path
    eden-shell PROGRAM [WORD ..]        on a session with a program, as `mountd stdio --root ID --objects DIR`

Commands come from standard input, one a line, with quotes as in a shell; a line that begins with # is passed over.
`help` lists them. What goes wrong is printed in a line, and the next command is read; the status is 1 if anything did.
"""

import argparse
import cmd
import errno
import io
import os
import shlex
import stat
import sys
from collections.abc import Iterable
from typing import Any

from yakembi import client
from yakembi.addresses import is_socket
from yakembi.client import DIR, EXEC, FILE, LINK, LONGEST_DATA, Session

WORDS = {
    errno.ENOENT: "there is no such file or folder",
    errno.EEXIST: "there is something already",
    errno.ENOTDIR: "a part of the path, or what stands there, is no folder",
    errno.EISDIR: "it is a folder",
    errno.ENOTEMPTY: "the folder isn't empty",
    errno.EINVAL: "this can't be done to it, or the name can't be",
    errno.EBUSY: "the top can't be moved or taken away",
    errno.EFBIG: "a file has at most 2^30 bytes",
    errno.ENAMETOOLONG: "the name or path is too long",
}
MARKS = {FILE: b"", EXEC: b"*", LINK: b"@", DIR: b"/"}


class Misused(Exception):
    """A command that was called otherwise than its help says."""


def plain(problem: Exception) -> str:
    """What went wrong, in plain words."""
    match problem:
        case OSError(errno=int(number), filename=None) if number in WORDS:
            return WORDS[number]
        case OSError(filename=str(name), strerror=why):
            return f"{name} (on this machine): {why}"
        case client.Fault(words=["fetch", object_id, cause]):
            return f"the object {object_id} can't be had ({cause})"
        case client.Fault():
            return f"the mount couldn't do it ({problem})"
    return str(problem)


class Shell(cmd.Cmd):
    doc_header = "Commands (help COMMAND tells of each; names may be completed by the tab key):"

    def __init__(self, session: Session, interactive: bool) -> None:
        super().__init__()
        self.session = session
        self.here: tuple[bytes, ...] = ()
        self.failed = False
        self.use_rawinput = interactive
        self.prompt = "/> " if interactive else ""

    # ---- paths

    def names(self, text: str) -> tuple[bytes, ...]:
        """The names of a path, from the top or from the current folder."""
        names = [] if text.startswith("/") else list(self.here)
        for name in os.fsencode(text).split(b"/"):
            if name == b"..":
                del names[-1:]
            elif name not in (b"", b"."):
                names.append(name)
        return tuple(names)

    def path(self, text: str) -> bytes:
        return joined(self.names(text))

    def into(self, text: str, name: bytes) -> bytes:
        """The path, or if it is a folder that name in it."""
        path = self.path(text)
        try:
            kind = self.session.kind(path)
        except FileNotFoundError:
            return path
        return joined((*self.names(text), name)) if kind == DIR else path

    # ---- the loop

    def onecmd(self, line: str) -> bool:
        """Runs a command, and prints what goes wrong; a session that ended ends the shell."""
        if line.lstrip().startswith("#"):
            return False
        try:
            return super().onecmd(line)
        except client.SessionEnded as end:
            self.complain(line, end)
            return True
        except Misused:
            self.complain(line, f"use it so: {getattr(self, f'do_{self.parseline(line)[0]}').__doc__}")
        except (OSError, ValueError, client.Fault) as problem:
            self.complain(line, problem)
        return False

    def complain(self, line: str, problem: Exception | str) -> None:
        self.failed = True
        told = plain(problem) if isinstance(problem, Exception) else problem
        print(f"{line.strip()}: {told}", file=sys.stderr, flush=True)

    def default(self, line: str) -> bool:  # type: ignore[override]  # what `onecmd` returns, by the library's page
        if line == "EOF":
            self.show(b"\n" if self.use_rawinput else b"")
            return True
        self.complain(line, "there is no such command; help tells those that there are")
        return False

    def emptyline(self) -> bool:
        return False

    def show(self, *pieces: bytes) -> None:
        sys.stdout.buffer.write(b"".join(pieces))
        sys.stdout.buffer.flush()

    # ---- commands

    def do_ls(self, line: str) -> None:
        """ls [-l] [PATH ..]: the names in a folder, folders marked by /, programs by *, links by @; -l shows sizes"""
        words = shlex.split(line)
        long = "-l" in words
        for word in [word for word in words if word != "-l"] or [""]:
            path = self.path(word)
            if self.session.kind(path) != DIR:
                self.show_entry(path, os.fsencode(word), self.session.kind(path), long)
                continue
            for name, kind in self.session.entries(path):
                self.show_entry(joined((*self.names(word), name)), name, kind, long)

    def show_entry(self, path: bytes, name: bytes, kind: str, long: bool) -> None:
        size = b"%12d  " % self.session.stat(path).size if long else b""
        self.show(size, name, MARKS[kind], b"\n")

    def do_cat(self, line: str) -> None:
        """cat PATH ..: the content of files"""
        for word in some(line):
            offset, path = 0, self.path(word)
            while piece := self.session.read(path, offset, LONGEST_DATA):
                self.show(piece)
                offset += len(piece)

    def do_stat(self, line: str) -> None:
        """stat PATH ..: what stands there, and its length"""
        for word in some(line):
            kind, size, _ = self.session.stat(self.path(word))
            target = b" -> " + self.session.readlink(self.path(word)) if kind == LINK else b""
            self.show(b"%s %d " % (kind.encode(), size), self.path(word), target, b"\n")

    def do_put(self, line: str) -> None:
        """put FILE [PATH]: copies a file of this machine to the path, or into that folder"""
        source, *rest = some(line, 1, 2)
        target = self.into(rest[0] if rest else "", os.fsencode(os.path.basename(source)))
        with open(source, "rb") as file:
            self.make_empty(target)
            offset = 0
            while piece := file.read(LONGEST_DATA):
                offset += self.session.write(target, offset, piece)
            self.session.setexec(target, bool(os.fstat(file.fileno()).st_mode & stat.S_IXUSR))

    def make_empty(self, path: bytes) -> None:
        try:
            self.session.create(path)
        except FileExistsError:
            self.session.truncate(path, 0)

    def do_mv(self, line: str) -> None:
        """mv FROM TO: moves a file, link or folder, to the path or into that folder"""
        source, target = some(line, 2, 2)
        self.session.rename(self.path(source), self.into(target, (self.names(source) or (b"",))[-1]))

    def do_rm(self, line: str) -> None:
        """rm PATH ..: takes files and links away"""
        for word in some(line):
            self.session.unlink(self.path(word))

    def do_rmdir(self, line: str) -> None:
        """rmdir PATH ..: takes empty folders away"""
        for word in some(line):
            self.session.rmdir(self.path(word))

    def do_mkdir(self, line: str) -> None:
        """mkdir PATH ..: makes folders"""
        for word in some(line):
            self.session.mkdir(self.path(word))

    def do_ln(self, line: str) -> None:
        """ln -s TARGET PATH: makes a link; there are no others"""
        option, target, path = some(line, 3, 3)
        if option != "-s":
            raise Misused
        self.session.symlink(self.into(path, os.fsencode(os.path.basename(target))), os.fsencode(target))

    def do_chmod(self, line: str) -> None:
        """chmod +x|-x PATH ..: makes files programs, or plain"""
        sign, *words = some(line, 2)
        if sign not in ("+x", "-x"):
            raise Misused
        for word in words:
            self.session.setexec(self.path(word), sign == "+x")

    def do_cd(self, line: str) -> None:
        """cd [PATH]: goes into a folder; without one to the top"""
        words = some(line, 0, 1)
        names = self.names(words[0]) if words else ()
        if self.session.kind(joined(names)) != DIR:
            raise NotADirectoryError(errno.ENOTDIR, os.strerror(errno.ENOTDIR))
        self.here = names
        if self.use_rawinput:
            self.prompt = os.fsdecode(joined(names)) + "> "

    def do_pwd(self, _line: str) -> None:
        """pwd: the current folder"""
        self.show(joined(self.here), b"\n")

    def do_exit(self, _line: str) -> bool:
        """exit: ends the shell, as the end of the input does"""
        return True

    def do_help(self, line: str) -> None:
        """help [COMMAND]: what the commands do"""
        words = some(line, 0, 1) or sorted(name[3:] for name in self.get_names() if name.startswith("do_"))
        for word in words:
            command = getattr(self, "do_" + word, None)
            self.show((command.__doc__ if command else f"{word}: there is no such command").encode(), b"\n")

    # ---- completion

    def completedefault(self, *told: Any) -> list[str]:
        """The paths that continue this one."""
        text: str = told[0]
        above, _, part = text.rpartition("/")
        folder = above + "/" if "/" in text else ""
        try:
            rows = list(self.session.entries(self.path(folder)))
        except (OSError, client.Fault):
            return []
        names = [(os.fsdecode(name), kind) for name, kind in rows]
        return [folder + name + ("/" if kind == DIR else "") for name, kind in names if name.startswith(part)]


def some(line: str, least: int = 1, most: int | None = None) -> list[str]:
    """The words of a command, of which it takes this many."""
    words = shlex.split(line)
    if len(words) < least or (most is not None and len(words) > most):
        raise Misused
    return words


def joined(names: Iterable[bytes]) -> bytes:
    return b"/" + b"/".join(names)


def session_with(mount: str, words: list[str]) -> Session:
    """A session on a port or a socket, or with a program that the terminal's Ctrl-C doesn't reach."""
    if not words and (mount.isdigit() or is_socket(mount)):
        return client.connect(int(mount) if mount.isdigit() else mount)
    return client.start([mount, *words], start_new_session=True)


def complete_whole_paths() -> None:
    """If readline is there, a path is one word to complete."""
    try:
        import readline
    except ImportError:
        return
    readline.set_completer_delims(" \t\n")


def parser() -> argparse.ArgumentParser:
    found = argparse.ArgumentParser(prog="eden-shell", description=__doc__,
                                    formatter_class=argparse.RawDescriptionHelpFormatter)
    found.add_argument("mount", metavar="PORT|SOCKET|PROGRAM")
    found.add_argument("words", metavar="WORD", nargs=argparse.REMAINDER)
    return found


def main() -> int:
    words = parser().parse_args()
    # Names are bytes, in what is read and in the prompt.
    for stream in (sys.stdin, sys.stdout):
        if isinstance(stream, io.TextIOWrapper):
            stream.reconfigure(errors="surrogateescape")
    try:
        session = session_with(words.mount, words.words)
    except OSError as problem:
        print(f"eden-shell: {words.mount}: {problem.strerror}", file=sys.stderr)
        return 1
    complete_whole_paths()
    shell = Shell(session, sys.stdin.isatty())
    try:
        shell.cmdloop()
    except KeyboardInterrupt:
        print()
    status = session.close()
    return 1 if shell.failed or status else 0
