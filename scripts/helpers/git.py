"""Git for measurements and tests, free of the user's own settings, and a large repository."""

import hashlib
import os
import pathlib
import subprocess
from collections.abc import Iterable
from typing import Literal, overload

import yakembi.git

SETTINGS = ["-c", "user.name=Bench", "-c", "user.email=bench@example.org", "-c", "init.defaultBranch=main",
            "-c", "protocol.file.allow=always", "-c", "advice.detachedHead=false"]
FILES = 50_000
FOLDERS = 100
FOLDERS_IN_A_FOLDER = 25
DEEP = "d17/e17/f/g/h/deep"
# Git knows it without storing it.
EMPTY_TREE = "4b825dc642cb6eb9a060e54bf8d69288fbee4904"


def environment() -> dict[str, str]:
    """Without the caller's GIT_*, which in a hook name the repository that is worked in, and without settings."""
    return {**yakembi.git.environment(), "GIT_CONFIG_GLOBAL": os.devnull, "GIT_CONFIG_SYSTEM": os.devnull}


@overload
def git(repository: str | pathlib.Path, *words: str, data: bytes | None = None, text: Literal[True] = True) -> str: ...


@overload
def git(repository: str | pathlib.Path, *words: str, data: bytes | None = None, text: Literal[False]) -> bytes: ...


def git(repository: str | pathlib.Path, *words: str, data: bytes | None = None, text: bool = True) -> str | bytes:
    """What Git prints, as text without the line feed at its end, or as bytes."""
    done = subprocess.run(["git", *SETTINGS, "-C", str(repository), *words], input=data, capture_output=True,
                          check=True, env=environment())
    return done.stdout.decode().strip() if text else done.stdout


def blob_id(content: bytes) -> str:
    """The id of a blob, as Git reckons it."""
    return hashlib.sha1(b"blob %d\0" % len(content) + content).hexdigest()


def make_commit(repository: pathlib.Path, contents: Iterable[tuple[str, bytes]]) -> None:
    """Makes a repository of one commit, with these files."""
    for path, content in contents:
        place = repository / path
        place.parent.mkdir(parents=True, exist_ok=True)
        place.write_bytes(content)
    git(repository, "init", "-q")
    git(repository, "add", ".")
    git(repository, "commit", "-qm", "files")


def content_of(path: str) -> str:
    """What the large repository has at a path."""
    return f"{path}\n" * 20


def make_large_repository(folder: pathlib.Path) -> pathlib.Path:
    """A repository of FILES files in one pack, 500 below each of FOLDERS folders, and one of them deeper.

    They come by an import stream, so that the working tree is never written.
    """
    repository = folder / "large"
    repository.mkdir()
    git(repository, "init", "-q")
    git(repository, "config", "uploadpack.allowFilter", "true")
    numbers = ((i, *divmod(i // FOLDERS, FOLDERS_IN_A_FOLDER)) for i in range(FILES - 1))
    paths = [f"d{i % FOLDERS}/e{inner}/{name}" for i, name, inner in numbers] + [DEEP]
    stream = ["commit refs/heads/main\ncommitter Bench <bench@example.org> 0 +0000\ndata 0\n"]
    for path in paths:
        content = content_of(path)
        stream.append(f"M 100644 inline {path}\ndata {len(content)}\n{content}\n")
    git(repository, "fast-import", "--quiet", data="".join(stream).encode())
    return repository
