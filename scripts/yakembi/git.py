"""A Git repository as a source of objects: what objects-from-git and git-objects share.

Git runs free of the caller's GIT_* variables, so that the repository is the named one, and without replaced objects, so
that an id gives the bytes that it names. A refusal carries what Git said.
"""

import functools
import os
import re
import subprocess
from collections.abc import Iterable, Iterator
from typing import NamedTuple

PIECE = 1 << 20
MODES = {b"40000", b"040000", b"100644", b"100664", b"100755", b"120000", b"160000"}
FOLDERS = {b"40000", b"040000"}
SUBMODULE = b"160000"
# What is in a working tree, and in no tree.
DOT_GIT = ".git"
# The head of a commit's text: its tree, and when it was committed.
COMMIT = re.compile(rb"tree ([0-9a-f]{40})\n(?:.+\n)*?committer .*> (\d+) [+-]\d+\n")
# How a remote is reached, as far as the caller's environment says it.
REACHING = re.compile(r"GIT_(SSH|SSH_COMMAND|SSH_VARIANT|ASKPASS|PROXY_COMMAND|ALLOW_PROTOCOL|SSL_\w+|HTTP_\w+)")


class Refusal(Exception):
    """What is wrong, in one line."""


def environment() -> dict[str, str]:
    clean = {name: value for name, value in os.environ.items() if not name.startswith("GIT_")}
    return {**clean, "GIT_NO_REPLACE_OBJECTS": "1", "LC_ALL": "C"}


def remote_environment() -> dict[str, str]:
    """The environment in which a remote is asked. Nobody is asked for a password: whoever mounted it may be gone."""
    reaching = {name: value for name, value in os.environ.items() if REACHING.fullmatch(name)}
    return {**environment(), **reaching, "GIT_TERMINAL_PROMPT": "0"}


def said(errors: bytes) -> str:
    """What a refusal adds of a program's errors: the first line by which Git says what went wrong, and the last one."""
    lines = [line.strip() for line in errors.decode(errors="replace").splitlines() if line.strip()]
    said = [line for line in lines if line.startswith(("fatal:", "error:"))][:1] + lines[-1:]
    return "".join(f": {line}" for line in dict.fromkeys(said))


def framed(word: str, length: int, pieces: Iterable[bytes]) -> Iterator[bytes]:
    """An object's bytes, in pieces: its header, and its body."""
    yield f"{word} {length}\0".encode()
    yield from pieces


class Commit(NamedTuple):
    """A commit's tree, and when it was committed, in seconds."""

    tree: str
    seconds: int


class Remote(NamedTuple):
    """A remote that has what a partial clone lacks, and the filter by which it gives what it is asked for by id."""

    name: str
    filter: str


class Repository:
    """A repository whose objects are named by SHA-1."""

    def __init__(self, path: str) -> None:
        self.path = path
        done = self.git("rev-parse", "--git-dir")
        if done.returncode != 0:
            raise Refusal(f"{path} can't be read as a Git repository{said(done.stderr)}")
        names = self.git("rev-parse", "--show-object-format")
        if names.stdout.strip() != b"sha1":
            raise Refusal(f"{path} names its objects by {names.stdout.decode().strip() or 'something'}, not by SHA-1")

    def check(self) -> None:
        """A Refusal, if it isn't there any more."""
        if self.git("rev-parse", "--git-dir").returncode != 0:
            raise Refusal(f"{self.path} isn't a Git repository any more")

    def known(self, ids: set[str]) -> set[str]:
        """Those objects that it has, all of them if that can't be said."""
        done = subprocess.run(["git", "-C", self.path, "cat-file", "--batch-check"], capture_output=True,
                              input="".join(f"{object_id}\n" for object_id in ids).encode(), env=environment())
        if done.returncode != 0:
            return ids
        rows = [row.split() for row in done.stdout.decode().splitlines()]
        return {row[0] for row in rows if row[-1:] != ["missing"]}

    def git(self, *words: str) -> subprocess.CompletedProcess[bytes]:
        return subprocess.run(["git", "-C", self.path, *words], stdin=subprocess.DEVNULL, capture_output=True,
                              env=environment())

    def commit_of(self, revision: str) -> Commit | None:
        """The commit that a revision names; None if it names none.

        It is read from the commit's own text: `rev-parse` and `show` have Git fetch the tree, and in a clone without
        trees all that lies below it.
        """
        named = self.git("rev-parse", "--verify", "--end-of-options", revision)
        done = self.git("cat-file", "commit", named.stdout.decode().strip()) if named.returncode == 0 else named
        found = COMMIT.match(done.stdout) if done.returncode == 0 else None
        return Commit(found[1].decode(), int(found[2])) if found else None

    def commit_id(self, revision: str) -> str | None:
        """The id of the commit that a revision names; None if it names none."""
        done = self.git("rev-parse", "--verify", "--quiet", "--end-of-options", f"{revision}^{{commit}}")
        return done.stdout.decode().strip() if done.returncode == 0 else None

    def branch_of(self, revision: str) -> str | None:
        """The full name of the branch that a revision names, as that of `HEAD`; None if it names none."""
        done = self.git("rev-parse", "--symbolic-full-name", "--verify", "--quiet", "--end-of-options", revision)
        name = os.fsdecode(done.stdout.removesuffix(b"\n"))
        return name if done.returncode == 0 and name.startswith("refs/heads/") else None

    def tree_of(self, revision: str) -> str:
        """The id of a commit's tree, or of a tree that is named itself, as `HEAD:folder`."""
        if commit := self.commit_of(revision):
            return commit.tree
        named = self.git("rev-parse", "--verify", "--end-of-options", revision)
        found = named
        if named.returncode == 0:
            found = self.git("rev-parse", "--verify", named.stdout.decode().strip() + "^{tree}")
        if found.returncode != 0:
            raise Refusal(f"{revision} names no commit or tree of {self.path}{said(found.stderr)}")
        return found.stdout.decode().strip()

    def remotes(self) -> list[Remote]:
        """The remotes that have what this repository lacks, in the order in which Git asks them; a whole has none."""
        rows = self.settings(r"^remote\..*\.promisor$", "--type=bool")
        names = [key.removeprefix("remote.").removesuffix(".promisor") for key, value in rows if value == "true"]
        last = [value for _, value in self.settings(r"^extensions\.partialclone$")][-1:]
        filters = dict(self.settings(r"^remote\..*\.partialclonefilter$"))
        order = [name for name in dict.fromkeys(names) if name not in last] + last
        specs = {name: filters.get(f"remote.{name}.partialclonefilter", "") for name in order}
        # Each is one that the remote took before. By the first what comes is what is named, and nothing below it.
        return [Remote(name, "tree:0" if "tree" in spec else "blob:none") for name, spec in specs.items()]

    def settings(self, pattern: str, *options: str) -> list[tuple[str, str]]:
        """Git's settings of such names, in their order."""
        done = self.git("config", "-z", *options, "--get-regexp", pattern)
        rows = [row.partition("\n") for row in os.fsdecode(done.stdout).split("\0")[:-1]]
        return [(key, value) for key, _, value in rows]

    @functools.cached_property
    def objects_folder(self) -> str:
        """Where its own objects lie."""
        done = self.git("rev-parse", "--path-format=absolute", "--git-path", "objects")
        return os.fsdecode(done.stdout.removesuffix(b"\n"))

    @functools.cached_property
    def common_folder(self) -> str:
        """What all its working trees share: its `.git`, or the bare repository."""
        done = self.git("rev-parse", "--path-format=absolute", "--git-common-dir")
        return os.fsdecode(done.stdout.removesuffix(b"\n"))

    def objects(self) -> "Objects":
        return Objects(self.path, environment())


class Objects:
    """One `git cat-file` that is asked for one object after another."""

    def __init__(self, path: str, environment: dict[str, str]) -> None:
        self.process = subprocess.Popen(["git", "-C", path, "cat-file", "--batch"], stdin=subprocess.PIPE,
                                        stdout=subprocess.PIPE, stderr=subprocess.DEVNULL, env=environment)
        assert self.process.stdin is not None and self.process.stdout is not None
        self.asks, self.answers = self.process.stdin, self.process.stdout

    def ask(self, object_id: str) -> tuple[str, int] | None:
        """The object's word and its length, and the body must be read next; None if the repository lacks it."""
        try:
            self.asks.write(object_id.encode() + b"\n")
            self.asks.flush()
        except BrokenPipeError:
            raise Refusal("git ended before it was asked for all objects") from None
        fields = self.answers.readline().split()
        if len(fields) == 3:
            return fields[1].decode(), int(fields[2])
        if fields[1:] == [b"missing"]:
            return None
        raise Refusal(f"git can't read the object {object_id}")

    def pieces(self, length: int) -> Iterator[bytes]:
        """The body, in pieces."""
        while length > 0:
            piece = self.answers.read(min(length, PIECE))
            if not piece:
                raise Refusal("git ended in the middle of an object")
            length -= len(piece)
            yield piece
        self.answers.read(1)

    def end(self) -> None:
        """Ends git, wherever it is."""
        self.process.kill()
        self.process.communicate()


ENTRY = re.compile(rb"([0-7]+) ([^\0]+)\0(.{20})", re.DOTALL)


def entries(tree_id: str, body: bytes) -> Iterator[tuple[bytes, bytes, str]]:
    """The mode, the name and the id of each entry of a tree's body."""
    at = 0
    while at < len(body):
        entry = ENTRY.match(body, at)
        if entry is None:
            raise Refusal(f"the tree {tree_id} is cut or damaged")
        yield entry.group(1), entry.group(2), entry.group(3).hex()
        at = entry.end()
