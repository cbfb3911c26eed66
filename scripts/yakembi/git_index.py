"""Git's index of a commit, as one that has looked at a folder has it, though nobody looked.

It says of each file, in its extension for fsmonitor, that it was looked at, and of each directory, in its untracked
cache, that it has nothing else. That is what `git read-tree`, `update-index` and `status` write over empty folders of
the same names; the cache then has to be told the place at which it holds.
"""

import hashlib
import os
import pathlib
import subprocess
import tempfile
from collections.abc import Mapping, Sequence

from yakembi.fetching import Bounds, Question, Unanswered
from yakembi.git import FOLDERS, Refusal, Remote, Repository, entries, environment, said
from yakembi.partial_clone import SILENCE, Plain

# Of Git's hook `fsmonitor-watchman`.
PROTOCOL = "2"
# What is answered if nothing was changed, with a token that is never looked at.
NOTHING_CHANGED = "printf 'made\\0' #"
# How an index is written, whatever the user's settings are.
PLAIN_INDEX = {"index.threads": "1", "index.sparse": "false", "index.skipHash": "false", "core.splitIndex": "false",
               "core.sparseCheckout": "false"}
# Where thousands of folders are made and removed in no time.
IN_MEMORY = "/dev/shm"
CHECKSUM = hashlib.sha1().digest_size
IGNORE = b".gitignore"
FILES = {b"100644", b"100755"}


def settings_as_variables(settings: Mapping[str, str]) -> dict[str, str]:
    """The environment by which Git has these settings."""
    found = {"GIT_CONFIG_COUNT": str(len(settings))}
    for number, (name, value) in enumerate(settings.items()):
        found |= {f"GIT_CONFIG_KEY_{number}": name, f"GIT_CONFIG_VALUE_{number}": value}
    return found


def variables(git_folder: str | os.PathLike[str], top: str, index: str | os.PathLike[str],
              settings: Mapping[str, str]) -> dict[str, str]:
    """The environment by which Git has that index of the folder `top`, and leaves the repository's own alone."""
    return {"GIT_DIR": os.fspath(git_folder), "GIT_WORK_TREE": top, "GIT_INDEX_FILE": os.fspath(index),
            "GIT_NO_REPLACE_OBJECTS": "1", **settings_as_variables(settings)}


def run(at: pathlib.Path, told: Mapping[str, str], *words: str, data: bytes = b"") -> bytes:
    """What Git says in that environment. It isn't run in the mounted folder, where paths would be those from there."""
    done = subprocess.run(["git", *words], input=data, capture_output=True, cwd=at, env={**environment(), **told})
    if done.returncode != 0:
        raise Refusal(f"there is no index for Git{said(done.stderr)}")
    return done.stdout


def write_index(git_folder: pathlib.Path, index: pathlib.Path, repository: Repository, top: str, commit: str) -> None:
    """Writes the index of that commit, as of a look at the folder `top`."""
    where = IN_MEMORY if os.access(IN_MEMORY, os.W_OK) else None
    with tempfile.TemporaryDirectory(prefix="mount-git.", dir=where) as name:
        empty = pathlib.Path(os.path.realpath(name))
        settings = {**PLAIN_INDEX, "core.fsmonitor": NOTHING_CHANGED, "core.fsmonitorHookVersion": PROTOCOL,
                    "core.untrackedCache": "true"}
        told = variables(git_folder, str(empty), index, settings)
        index.unlink(missing_ok=True)
        bring_trees(repository, repository.tree_of(commit))
        run(git_folder, told, "read-tree", commit)
        make_folders(empty, run(git_folder, told, "ls-files", "-sz"), repository)
        paths = run(git_folder, told, "ls-files", "-z")
        run(git_folder, told, "update-index", "--fsmonitor", "-z", "--fsmonitor-valid", "--stdin", data=paths)
        run(git_folder, told, "status", "--porcelain")
        index.write_bytes(moved(index.read_bytes(), str(empty), top))


def bring_trees(repository: Repository, top: str) -> None:
    """Brings what a partial clone lacks of a tree's trees, and of the files that say what Git ignores: a question for
    each level, where Git would ask for one after another."""
    remotes = repository.remotes()
    if not remotes:
        return
    here = Plain(repository)
    objects = here.objects()
    try:
        level, seen, rules = [top], {top}, set()
        while level:
            bring(here, repository, remotes, level)
            below: dict[str, None] = {}
            for tree in level:
                found = objects.ask(tree)
                body = b"".join(objects.pieces(found[1])) if found else b""
                for mode, name, object_id in entries(tree, body):
                    if mode in FOLDERS:
                        below[object_id] = None
                    elif name == IGNORE and mode in FILES:
                        rules.add(object_id)
            level = [tree for tree in below if tree not in seen]
            seen.update(level)
        bring(here, repository, remotes, sorted(rules))
    finally:
        objects.end()
        here.end()


def bring(here: Plain, repository: Repository, remotes: Sequence[Remote], ids: list[str]) -> None:
    """Asks one remote after another for those of the objects that aren't here."""
    why = ""
    for remote in remotes:
        if absent := here.absent(ids):
            try:
                Question(repository, remote, absent).ask(Bounds(SILENCE))
            except Unanswered as problem:
                why = f": {problem}"
    if here.absent(ids):
        raise Refusal(f"the repository lacks objects, and no remote gave them{why}")


def make_folders(at: pathlib.Path, rows: bytes, repository: Repository) -> None:
    """Makes the folders of an index's paths there, and in them the files alone that say what Git ignores."""
    made, objects = set(), repository.objects()
    try:
        for row in rows.split(b"\0")[:-1]:
            head, path = row.split(b"\t", 1)
            mode, object_id, _ = head.split()
            directory, name = os.path.split(os.path.join(os.fsencode(at), path))
            if directory not in made:
                os.makedirs(directory, exist_ok=True)
                made.add(directory)
            if name == IGNORE and mode in FILES:
                found = objects.ask(object_id.decode())
                if found is None:
                    raise Refusal(f"the repository lacks {object_id.decode()}, which is {os.fsdecode(path)}")
                with open(os.path.join(directory, name), "wb") as file:
                    file.writelines(objects.pieces(found[1]))
    finally:
        objects.end()


def moved(index: bytes, old: str, new: str) -> bytes:
    """The index, whose untracked cache holds at another place.

    The cache begins with its name, how long it is, and the place, before which stands how long that is, with its end.
    """
    head = b"Location " + os.fsencode(old)
    tail = b", system " + os.fsencode(os.uname().sysname) + b"\0"
    at = index.find(head + tail)
    place = b"Location " + os.fsencode(new)
    before, after = number(len(head + tail)), number(len(place + tail))
    start = at - len(before) - 8
    if at < 0 or index[start : start + 4] != b"UNTR":
        raise Refusal("this Git writes no untracked cache that can be read")
    length = int.from_bytes(index[start + 4 : start + 8], "big")
    body = after + place + index[at + len(head) : start + 8 + length]
    rest = index[start + 8 + length : -CHECKSUM]
    whole = index[:start] + b"UNTR" + len(body).to_bytes(4, "big") + body + rest
    return whole + hashlib.sha1(whole).digest()


def number(value: int) -> bytes:
    """A number as it stands in a pack before an offset, and in an index."""
    found = [value & 127]
    while value := value >> 7:
        value -= 1
        found.append(128 | value & 127)
    return bytes(reversed(found))
