"""The folder `git` of an overlay, by which Git works in the mounted folder as in any working tree.

It is to Git what the folder of a linked working tree is: `commondir` names the repository, `HEAD` what the mounted
folder stands on, `logs/HEAD` how that went, and `index` has each path of that commit, or what Git made of it. So Git's
own commands commit, switch and merge in it. Git looks at those paths alone that its hook for fsmonitor names; `told`
has the paths that the hook named ever: what was changed back has to be looked at once more. `made` says for which mount
it is, and `seen` what HEAD said when it was last looked at.

The repository has it among its linked working trees (`worktrees`), by a link: so `git gc` keeps what its index and its
log name, and Git lets nobody take the branch away on which it is. It is a locked one, or Git would tidy it up through
the link.
"""

import contextlib
import fcntl
import json
import os
import pathlib
import re
import secrets
import shlex
import subprocess
import sys
import time
from collections.abc import Iterator
from typing import NamedTuple

from yakembi import git_index
from yakembi.control import Fields, name_for, tell
from yakembi.git import DOT_GIT, SUBMODULE, Refusal, Repository, environment, said
from yakembi.kept_tree import LINKS, forget, is_forgotten, lead, leads_somewhere
from yakembi.overlay import sync_names
from yakembi.partial_clone import known_here
from yakembi.submodules import put_right

SCRIPT = pathlib.Path(__file__).resolve().parent.parent / "mount-git"
# By them Git asks the mount what was changed, and keeps its files as we read them, whatever else the repository is set
# to. Python is named by its place: what stands for it at another may take longer than all else.
SETTINGS = {"core.fsmonitor": f"{shlex.quote(sys.executable)} {shlex.quote(str(SCRIPT))} fsmonitor",
            "core.fsmonitorHookVersion": git_index.PROTOCOL, "core.untrackedCache": "keep",
            "core.sparseCheckout": "false", "core.logAllRefUpdates": "true", "core.preferSymlinkRefs": "false"}
# What `made` says.
MADE_FOR = "top", "tree", "of", "at"
# An index begins so (Git's index format).
INDEX_HEAD = b"DIRC"
# How long Git may hold HEAD, and how long we wait between two looks.
SECONDS_HELD = 1.0
SECONDS_BETWEEN = 0.02
# How long Git may take between the two steps of renaming a branch.
SECONDS_OF_A_RENAME = 0.2
# What HEAD says: a branch, or a commit.
HEAD = re.compile(rb"(?:ref: (refs/[^\0\n]+)|([0-9a-f]{40}))\n?")
NO_COMMIT = "0" * 40
# How a line of a log begins.
LOGGED = re.compile(rb"[0-9a-f]{40} [0-9a-f]{40} ")
# How the names of our links begin among the repository's working trees.
LINK = "mount-git-"
# What means something in a pattern. Git finds no section again whose name has a bracket: any character stands for it.
SPECIAL, BRACKET = re.compile(r"[*?\\]"), re.compile(r"[][]")
# What Git has in its folder while it is in the middle of something that ends in a commit.
UNDER_WAY = {"MERGE_HEAD": "merge", "CHERRY_PICK_HEAD": "cherry-pick", "REVERT_HEAD": "revert",
             "rebase-merge": "rebase", "rebase-apply": "rebase", "sequencer": "cherry-pick"}
# Those that name commits, and what goes with them.
MERGED = "MERGE_HEAD", "CHERRY_PICK_HEAD", "REVERT_HEAD"
BESIDE_MERGED = "MERGE_MSG", "MERGE_MODE", "AUTO_MERGE", "SQUASH_MSG"


class Stand(NamedTuple):
    """The commit that a mounted folder stands on, if its branch has one, and the branch that moves to the next
    one. `left` is the branch that it was on until it was looked at, if somebody else had moved that."""

    commit: str | None
    branch: str | None
    left: str | None = None


class GitFolder:
    """The directory of an overlay. `lock` has it for one run of `mount-git` at a time; Git has locks of its own."""

    def __init__(self, overlay: str | os.PathLike[str]) -> None:
        self.path = pathlib.Path(os.path.realpath(overlay), "git")
        self.index, self.told, self.made, self.head = (self.path / name for name in ("index", "told", "made", "HEAD"))
        self.log, self.seen, self.dot_git_text = (self.path / name for name in ("logs/HEAD", "seen", "dot-git"))

    @contextlib.contextmanager
    def lock(self) -> Iterator[None]:
        descriptor = os.open(self.path, os.O_RDONLY | os.O_DIRECTORY)
        try:
            fcntl.flock(descriptor, fcntl.LOCK_EX)
            yield
        finally:
            os.close(descriptor)

    def put(self, name: str, content: bytes) -> None:
        """A file of that content, old or new whatever happens meanwhile. It waits for the disk, as Git does."""
        file = self.path / name
        with contextlib.suppress(FileNotFoundError):
            if file.read_bytes() == content:
                return
        written = self.path / f"{name}.{secrets.token_hex(8)}"
        try:
            with open(written, "xb") as new:
                new.write(content)
                new.flush()
                os.fsync(new.fileno())
            written.replace(file)
        except OSError:
            written.unlink(missing_ok=True)
            raise

    def made_for(self) -> dict[str, str]:
        """The mount that it is for: `top`, the mounted folder, `tree`, against which changes are listed, `of`, the
        repository, and `at`, where the folder itself lay. Nothing, if it was never made, or a disk lost it."""
        found = {"at": str(self.path), **fields_of(self.made)}
        is_whole = all(isinstance(found.get(name), str) and "\0" not in found[name] for name in MADE_FOR)
        return {name: found[name] for name in MADE_FOR} if is_whole else {}

    def is_at(self, tree: str) -> bool:
        """Whether Git worked in the folder, with that tree mounted."""
        return self.made_for().get("tree") == tree

    def has_index(self) -> bool:
        """Whether it has an index that Git would read, as far as its first bytes show."""
        with contextlib.suppress(OSError), open(self.index, "rb") as file:
            return file.read(len(INDEX_HEAD)) == INDEX_HEAD
        return False

    def tell(self, paths: set[bytes]) -> set[bytes]:
        """Those paths, and all that were told before."""
        with self.lock(), open(self.told, "a+b") as file:
            file.seek(0)
            before = set(file.read().split(b"\0")) - {b""}
            # What a full disk cut ends before the first of these.
            file.write(b"".join(b"\0" + path for path in sorted(paths - before)) + b"\0")
        return paths | before

    # ---- Git in it

    def variables(self, held: str, top: str) -> dict[str, str]:
        """The environment in which Git asks the mount. What only looks writes no index. The folder is named from a path
        of the overlay that is gone with the mount, or Git would take all for removed that it had shown."""
        return {"GIT_DIR": str(self.linked()), "GIT_OPTIONAL_LOCKS": "0",
                "GIT_WORK_TREE": os.path.join(held, os.path.relpath(top, self.path.parent)),
                **git_index.settings_as_variables(SETTINGS)}

    def say(self, *words: str, fsmonitor: str = "false", index: str | os.PathLike[str] | None = None) -> list[bytes]:
        """What Git says of the folder's index, or of another one, in fields that end in zero bytes."""
        top = self.made_for()["top"]
        told = git_index.variables(self.path, top, index or self.index, {"core.fsmonitor": fsmonitor})
        return git_index.run(self.path, told, *words).split(b"\0")[:-1]

    def tracked(self) -> list[bytes]:
        """The paths in the index, in byte order."""
        return self.say("ls-files", "-z")

    def otherwise(self, *which: str, index: str | None = None) -> set[bytes]:
        """The paths that the index has otherwise than the tree against which changes are listed, or another index."""
        words = ["diff-index", "--cached", "--name-only", "--no-renames", "-z", *which, self.made_for()["tree"]]
        return set(self.say(*words, index=index))

    def under_way(self) -> str | None:
        """What Git is in the middle of, in a word."""
        found = next((word for name, word in UNDER_WAY.items() if (self.path / name).exists()), None)
        if found is None and self.made_for() and self.index.exists() and self.say("ls-files", "-uz"):
            return "conflict"
        return found

    def check_not_under_way(self) -> None:
        if under_way := self.under_way():
            raise Refusal(f"Git is in the middle of a {under_way} in the folder: end that first, by `mount-git git`")

    # ---- what the folder stands on

    def stands_on(self, repository: Repository) -> Stand | None:
        """What HEAD says; None if there is none yet, or it says nothing, as when a disk lost it.

        If HEAD's branch was moved from elsewhere, or the repository lacks the commit, the folder stands where it
        stood last that the repository knows, and on no branch, and HEAD says so from now on. A Refusal, if that
        can't be said, since Git holds HEAD, or the repository has none of these.
        """
        found = self.head_says(repository)
        if found is not None and found.commit is None and self.stood_on(found):
            # As while Git renames the branch.
            time.sleep(SECONDS_OF_A_RENAME)
        if self.stood_at(found) is not None:
            # Git holds HEAD from before it moves the branch until the log says so.
            with self.held("HEAD"):
                found = self.head_says(repository)
                stood = self.stood_at(found)
                if stood is not None:
                    known = self.left_at(repository, [stood])
                    if known is None:
                        raise Refusal(f"the repository lacks {stood}, on which the folder stood, and all before it")
                    found = Stand(known, None, found.branch if found and known == stood else stood)
        if found is not None:
            self.put("seen", json.dumps([found.commit, found.branch, self.logged()[-1:]]).encode())
        return found

    def left_at(self, repository: Repository, commits: list[str]) -> str | None:
        """Puts HEAD, which is held, on no branch: on the first of these commits that the repository knows, or else on
        the last of its log. None if it knows none, or nothing at all, as when it is away.

        What it lacks its log says no more, or Git would miss that.
        """
        repository.check()
        lines = self.log.read_bytes().split(b"\n")[:-1] if self.log.exists() else []
        ids = {line: set(line[:81].decode().split()) for line in lines if LOGGED.match(line)}
        there = known_here(repository, set(commits).union(*ids.values())) | {NO_COMMIT}
        known = next((commit for commit in [*commits, *self.stood_before()] if commit in there), None)
        if known is not None:
            kept = [line for line in lines if ids.get(line, set()) <= there]
            if kept != lines:
                line = f"{known} {known} ".encode() + who(repository) + b"\tmount-git"
                self.put("logs/HEAD", b"\n".join([*kept, line, b""]))
            self.put("HEAD", known.encode() + b"\n")
        return known

    def stood_at(self, found: Stand | None) -> str | None:
        """The commit that the folder stood on, if that isn't any more what HEAD says, as it was found; None if it
        is."""
        if found is not None:
            return self.stood_on(found)
        with contextlib.suppress(OSError):
            if (named := HEAD.fullmatch(self.head.read_bytes())) and named[2]:
                return named[2].decode()
        return None

    def stood_before(self) -> list[str]:
        """The commits on which it stood, as far as HEAD's log says, the last one first."""
        return [line.split()[0] for line in reversed(self.logged())]

    def head_says(self, repository: Repository) -> Stand | None:
        """What HEAD says, as `stands_on` has it, whoever moved the branch."""
        with contextlib.suppress(FileNotFoundError):
            if named := HEAD.fullmatch(self.head.read_bytes()):
                branch = os.fsdecode(named[1]) if named[1] else None
                commit = repository.commit_id(branch or named[2].decode())
                # What another repository had need not be here.
                if commit or branch and self.made_for().get("of") == repository.common_folder:
                    return Stand(commit, branch)
        return None

    def stood_on(self, found: Stand) -> str | None:
        """The commit that the folder stood on, if HEAD's branch was moved from elsewhere since HEAD was looked at;
        None if it wasn't.

        HEAD's log says what was done here. Git cuts it now and then, so what was seen at the last look counts too.
        """
        lines = self.logged()
        last = lines[-1].split()[0] if lines else None
        if found.branch is None or found.commit is not None and found.commit == last:
            return None
        if found.commit is None and self.is_undone():
            return None
        try:
            commit, branch, seen = json.loads(self.seen.read_bytes())
        except (OSError, TypeError, ValueError):
            return last if found.commit else None
        is_logged_since = bool(seen) and seen[0] in lines[:-1]
        if (commit, branch) == (found.commit, found.branch) and not is_logged_since:
            return None
        if found.commit is None and branch != found.branch:
            # One that was begun here.
            return None
        return last if is_logged_since else commit

    def signs(self, repository: Repository) -> tuple[object, ...]:
        """What is other once HEAD, its log or its branch was moved, by whomever."""
        try:
            said = self.head.read_bytes()
        except OSError:
            return ()
        named = HEAD.fullmatch(said)
        branch = os.fsdecode(named[1] or b"HEAD") if named else "HEAD"
        places = [self.log, *(pathlib.Path(repository.common_folder, name) for name in (branch, "packed-refs"))]
        return said, *map(sign_of, places)

    def is_undone(self) -> bool:
        """Whether the last that was done here was to take the branch away."""
        with contextlib.suppress(OSError, IndexError):
            return self.log.read_bytes().split(b"\n")[-2][41:81] == NO_COMMIT.encode()
        return False

    def logged(self) -> list[str]:
        """The lines of HEAD's log, from the commit on to which each leads, but those that lead to none. What stands
        before that Git writes anew where it takes lines out."""
        with contextlib.suppress(OSError):
            # What a full disk or a kill cut is no line.
            lines = [line.partition(b" ")[2].strip() for line in self.log.read_bytes().split(b"\n")
                     if LOGGED.match(line)]
            return [os.fsdecode(line) for line in lines if not line.startswith(NO_COMMIT.encode())]
        return []

    @contextlib.contextmanager
    def held(self, name: str) -> Iterator[None]:
        """That file is held as Git holds what it writes. A Refusal, if somebody else holds it for long."""
        lock, end = self.path / f"{name}.lock", time.monotonic() + SECONDS_HELD
        while True:
            with contextlib.suppress(FileExistsError):
                open(lock, "xb").close()
                break
            if time.monotonic() > end:
                raise Refusal(f"Git is at work in the folder, or left {lock}")
            time.sleep(SECONDS_BETWEEN)
        try:
            yield
        finally:
            lock.unlink(missing_ok=True)

    def is_strange_to(self, repository: Repository, tree: str, commit: str | None) -> bool:
        """Whether Git worked in the folder for another repository, with that tree mounted, and this one has none of the
        commits on which the folder ever stood, as far as HEAD, its log and that commit say. It may have the tree all
        the same, but nothing on which HEAD could continue. A Refusal, if the repository is away."""
        made = self.made_for()
        if made.get("tree") != tree or made["of"] == repository.common_folder:
            return False
        stood = [commit, self.stood_at(None), *self.stood_before()]
        there = known_here(repository, {known for known in stood if known is not None})
        # One that is away seems to have all.
        repository.check()
        return not there

    def check_known_to(self, repository: Repository, tree: str, commit: str | None) -> None:
        """A Refusal, if it is strange to the repository."""
        if self.is_strange_to(repository, tree, commit):
            raise Refusal(f"{repository.path} has no commit on which the folder ever stood: it is another repository")

    def adopt(self, repository: Repository, commit: str | None) -> str | None:
        """It is of this repository, which may have been moved, or be another one: what HEAD says stays if that has it.
        Else the folder stands on no branch, at that commit or one before it that it has; what HEAD said is given.
        """
        made = self.made_for()
        if made.get("of") == repository.common_folder:
            return None
        self.unlink()
        left = None
        with self.lock():
            if self.head_says(repository) is None and self.head.exists():
                with self.held("HEAD"):
                    said = HEAD.fullmatch(self.head.read_bytes())
                    stood = said[2].decode() if said and said[2] else None
                    if said and self.left_at(repository, [known for known in (stood, commit) if known is not None]):
                        left = os.fsdecode(said[1] or said[2])
                    else:
                        self.head.unlink()
            self.put("commondir", os.fsencode(repository.common_folder) + b"\n")
            self.put("made", json.dumps({**made, "of": repository.common_folder}).encode())
        return left

    def begin(self, repository: Repository, commit: str, branch: str | None) -> None:
        """The first HEAD, and its log: the branch, if it is at the commit, and else the commit."""
        if repository.settings(r"^extensions\.refstorage$"):
            raise Refusal("the repository keeps its branches in another form than files")
        is_there = branch is not None and repository.commit_id(branch) == commit
        with self.held("HEAD"):
            self.log.parent.mkdir(exist_ok=True)
            self.log.write_bytes(f"{NO_COMMIT} {commit} ".encode() + who(repository) + b"\tmount-git\n")
            self.put("HEAD", (b"ref: " + os.fsencode(branch or "") if is_there else commit.encode()) + b"\n")

    def move(self, repository: Repository, branch: str, made: str, was: str, why: str) -> None:
        """Moves the branch, if it still is where it was. If the folder is on it, its log says so with that."""
        here = [f"--git-dir={self.path}"] if self.head_says(repository) else []
        done = repository.git(*here, "update-ref", "-m", why, branch, made, was)
        if done.returncode != 0:
            raise Refusal(f"{branch} isn't moved{said(done.stderr)}")

    @contextlib.contextmanager
    def index_held(self) -> Iterator[None]:
        """Git stages and commits nothing in the folder, if it ever did."""
        with self.held("index") if self.index.exists() else contextlib.nullcontext():
            yield

    def go_on(self, repository: Repository, commit: str, branch: str) -> None:
        """The folder stands on a commit of that branch that was just made of all that it shows. The index is held."""
        with self.lock():
            found = self.head_says(repository)
            if found is None or found.branch != branch:
                self.say("symbolic-ref", "-m", "commit: mount-git", "HEAD", branch)
            if self.index.exists():
                # What is as it was in the index stays known to have been looked at, and the rest is looked at now.
                written = self.path / "index.new"
                written.write_bytes(self.index.read_bytes())
                self.say("read-tree", "-m", "-i", commit, fsmonitor=git_index.NOTHING_CHANGED, index=written)
                with contextlib.suppress(Refusal):
                    # What is written just now isn't as it was committed.
                    self.say("update-index", "-q", "--refresh", fsmonitor=git_index.NOTHING_CHANGED, index=written)
                written.replace(self.index)
            (self.path / "SQUASH_MSG").unlink(missing_ok=True)

    def without_caches(self) -> None:
        """The index names no trees, and nothing that was in conflict."""
        written = self.path / "index.new"
        written.write_bytes(self.index.read_bytes())
        with contextlib.suppress(Refusal):
            for words in (["update-index", "--clear-resolve-undo"], ["write-tree"]):
                self.say(*words, fsmonitor=git_index.NOTHING_CHANGED, index=written)
        written.replace(self.index)

    def follow(self, old: str, new: str) -> None:
        """Changes are listed against the tree `new` from now on, which is that of the folder's commit, and no more
        against `old`. An index that has nothing else than that commit goes, and with it what was told for it: Git
        wouldn't cease to look at that."""
        if not self.is_at(old) and not self.is_at(new):
            return
        with self.lock():
            self.put("made", json.dumps({**self.made_for(), "tree": new}).encode())
            # Before the overlay's note says the tree, or the folder would be another tree's after a power loss.
            sync_names(self.path)
        with contextlib.suppress(Refusal):
            if self.index.exists() and self.is_plain():
                self.index.unlink()

    def is_plain(self) -> bool:
        """Whether the index has each path as the tree has it against which changes are listed, and says nothing more of
        any, as that Git is to leave it alone."""
        rows = self.say("ls-files", "-vz")
        differing = self.otherwise("--ita-visible-in-index", "--ignore-submodules=none")
        return all(row.startswith(b"H ") for row in rows) and not differing

    def hold_at(self, top: str) -> None:
        """The index holds for the folder now that it is mounted there. If it has no cache to be told so, Git looks
        into all directories."""
        with contextlib.suppress(OSError, Refusal), self.held("index"):
            self.put("index", git_index.moved(self.index.read_bytes(), self.made_for()["top"], top))

    # ---- to the repository

    def link(self) -> pathlib.Path:
        return pathlib.Path(os.path.realpath(self.made_for()["of"]), "worktrees", link_name(self.path))

    def own_name(self) -> pathlib.Path:
        """A folder here that no other overlay has, which may come to lie at this place: by its name links lead here."""
        self.path.mkdir(exist_ok=True)
        for found in self.path.glob("id-*"):
            return found
        made = self.path / f"id-{secrets.token_hex(8)}"
        made.mkdir()
        return made

    def unlink(self) -> None:
        """The repository forgets it, if it knew it: it goes with a temporary overlay."""
        if (of := self.made_for().get("of")) is not None:
            exclude(of, self.path)
            with contextlib.suppress(OSError):
                self.link().unlink()

    def name_place(self) -> None:
        """The repository is told of a place that is there also while nothing is mounted, if Git has the folder. At the
        mount point, which is empty then, Git would take all files for removed; but each day Git writes that there."""
        with contextlib.suppress(OSError):
            self.put("gitdir", os.fsencode(self.path / DOT_GIT) + b"\n")

    def linked(self) -> pathlib.Path:
        """Where Git finds it, among the repository's linked working trees. If these can't be written Git finds it
        here, and makes no objects that would have to be kept."""
        link = self.link()
        trees = link.parent
        with contextlib.suppress(OSError):
            (self.path / DOT_GIT).mkdir(exist_ok=True)
            self.put("locked", b"a mount of mount-git\n")
            self.name_place()
            trees.mkdir(exist_ok=True)
            # By the repository's own place, so that it leads nowhere in one that was moved: Git reads nothing there.
            to = lead(os.path.realpath(self.made_for()["of"]), self.own_name()) / os.pardir
            if link.is_symlink() and os.readlink(link) != str(to):
                link.unlink()
            if not link.is_symlink():
                link.symlink_to(to)
        for other in trees.glob(f"{LINK}*"):
            with contextlib.suppress(OSError):
                if is_forgotten(other):
                    forget(other)
        exclude_lost(trees)
        if link.exists():
            return link
        if os.access(trees.parent / "objects", os.W_OK):
            tell(f"{trees} can't be written: git gc won't know what Git makes here")
        return self.path


def configured(common: str | os.PathLike[str], *words: str) -> subprocess.CompletedProcess[bytes]:
    """A run of `git config` on a repository's own settings, which waits a little for who writes them."""
    end = time.monotonic() + SECONDS_HELD
    while True:
        done = subprocess.run(["git", "config", "--file", os.path.join(common, "config"), *words], capture_output=True,
                              env=environment())
        if b"could not lock" not in done.stderr or time.monotonic() > end:
            return done
        time.sleep(SECONDS_BETWEEN)


def include(common: str, folder: pathlib.Path) -> None:
    """The repository's settings include what stands in `settings` there, for Git that has that folder of an overlay. A
    Refusal, if they can't be written."""
    key, wanted = f"{section_of(folder)}.path", str(folder / "settings")
    if os.fsdecode(configured(common, "-z", "--get", key).stdout.removesuffix(b"\0")) == wanted:
        if is_asked(folder):
            return
        # Others stand after it, which count more.
        exclude(common, folder)
    done = configured(common, key, wanted)
    if done.returncode != 0:
        raise Refusal(f"the repository's settings can't be written{said(done.stderr)}")
    if not is_asked(folder):
        tell(f"another core.fsmonitor is set for {folder}: Git looks at all files, and fetches them")


def is_asked(folder: pathlib.Path) -> bool:
    """Whether Git that has that folder asks the mount."""
    done = subprocess.run(["git", f"--git-dir={folder}", "config", "-z", "core.fsmonitor"], capture_output=True,
                          env=environment())
    return os.fsdecode(done.stdout.removesuffix(b"\0")) == SETTINGS["core.fsmonitor"]


def exclude(common: str | os.PathLike[str], folder: pathlib.Path) -> None:
    """They don't any more, if they did and are there."""
    if not os.path.exists(os.path.join(common, "config")):
        return
    done = configured(common, "--remove-section", section_of(folder))
    if done.returncode != 0 and b"no such section" not in done.stderr:
        tell(f"the settings in {common} go on to include those of {folder}{said(done.stderr)}")


def exclude_lost(trees: pathlib.Path) -> None:
    """They include nothing of an overlay that is gone, and whose link among the working trees is."""
    rows = configured(trees.parent, "-z", "--get-regexp", r"^includeif\.gitdir:.*/git\.path$").stdout
    for row in os.fsdecode(rows).split("\0")[:-1]:
        folder = pathlib.Path(row.partition("\n")[2]).parent
        # It may lie where we may not look, as another user's in a repository that both share.
        if not leads_somewhere(folder) and not (trees / link_name(folder)).is_symlink():
            exclude(trees.parent, folder)


def link_name(folder: pathlib.Path) -> str:
    return LINK + name_for(folder)[:16]


def section_of(folder: pathlib.Path) -> str:
    """The condition of such settings (git-config(1), conditional includes), whose path is a pattern."""
    return "includeIf.gitdir:" + BRACKET.sub("?", SPECIAL.sub(r"\\\g<0>", str(folder)))


def tell_of_left(stand: Fields) -> None:
    """Reports that the folder left the branch that somebody moved from elsewhere, or the commit that the
    repository lacks."""
    if left := stand.get("left"):
        what = f"{left} was moved from elsewhere" if left.startswith("refs/") else f"the repository lacks {left}"
        tell(f"{what}: the folder stands on {stand['commit']}, and on no branch")


def sign_of(file: pathlib.Path) -> tuple[int, int, int] | None:
    """What is other once a file was written or replaced."""
    try:
        found = file.stat()
    except OSError:
        return None
    return found.st_ino, found.st_mtime_ns, found.st_size


def fields_of(file: pathlib.Path) -> Fields:
    """The fields of a file that we wrote; none if it isn't there, or isn't whole."""
    with contextlib.suppress(OSError, ValueError):
        found = json.loads(file.read_bytes())
        if isinstance(found, dict):
            return found
    return {}


def who(repository: Repository) -> bytes:
    """Who writes into a log, and when, as Git writes that."""
    done = repository.git("var", "GIT_COMMITTER_IDENT")
    return done.stdout.strip() if done.returncode == 0 else f"mount-git <mount-git> {int(time.time())} +0000".encode()


def folder_for_git(about: Fields, top: str) -> GitFolder:
    """The folder of a mount, made if it isn't there."""
    repository, folder = Repository(about["repository"]), GitFolder(about["overlay"])
    folder.check_known_to(repository, about["tree"], about["commit"])
    folder.path.mkdir(exist_ok=True)
    made = {"top": top, "tree": about["tree"], "of": repository.common_folder, "at": str(folder.path)}
    with folder.lock():
        before = folder.made_for()
        is_of_another = bool(before) and before["tree"] != about["tree"]
        if is_of_another or not folder.has_index():
            folder.index.unlink(missing_ok=True)
        found = None if is_of_another else folder.head_says(repository)
        if found is None:
            folder.begin(repository, base_in(about), about["branch"])
        folder.put("commondir", os.fsencode(repository.common_folder) + b"\n")
        if before and not is_of_another and not is_kept(folder, repository, before["of"]):
            fit_in(folder, repository)
        if before and not is_of_another and before != made:
            put_right(folder.path, before["at"], top, before["top"])
        if not folder.index.exists():
            folder.put("made", json.dumps(made).encode())
            make(folder, repository, top, about["tree"], found and found.commit or base_in(about))
        elif before != made:
            if before:
                folder.hold_at(top)
            folder.put("made", json.dumps(made).encode())
    return folder


def is_kept(folder: GitFolder, repository: Repository, was_of: str) -> bool:
    """Whether the repository, by its link, kept all that the index names. A partial clone lacks much all the same, and
    Git says then what it lacks."""
    link = pathlib.Path(os.path.realpath(repository.common_folder), "worktrees", link_name(folder.path))
    ours = os.path.join(os.path.realpath(repository.common_folder), LINKS, "")
    if repository.remotes() or not folder.has_index():
        return True
    if was_of == repository.common_folder and not os.access(repository.objects_folder, os.W_OK):
        return True
    return link.exists() and os.readlink(link).startswith(ours)


def fit_in(folder: GitFolder, repository: Repository) -> None:
    """The index, and what Git is in the middle of, name nothing that the repository lacks, which Git would miss."""
    rows = [row.split(b" ", 2) for row in folder.say("ls-files", "-sz")]
    ids = {object_id.decode() for mode, object_id, _ in rows if mode != SUBMODULE}
    if ids <= known_here(repository, ids):
        folder.without_caches()
    else:
        tell("the repository lacks what was staged in the folder, as where it is another one: "
             "nothing is staged any more")
        folder.index.unlink()
    for name in MERGED:
        file = folder.path / name
        named = set(file.read_text(errors="replace").split()) if file.exists() else set()
        if not named <= known_here(repository, named):
            tell(f"the repository lacks what was merged in the folder: the {UNDER_WAY[name]} is given up")
            for gone in (name, *BESIDE_MERGED):
                (folder.path / gone).unlink(missing_ok=True)


def base_in(about: Fields) -> str:
    """The commit that the folder stands on."""
    if about["commit"] is None and about["branch"] is not None:
        raise Refusal(f"{about['branch']} has no commit yet: make its first by `mount-git git`")
    if about["commit"] is None:
        raise Refusal("the folder shows a tree, and isn't known to stand on a commit")
    found: str = about["commit"]
    return found


def make(folder: GitFolder, repository: Repository, top: str, tree: str, commit: str) -> None:
    """Writes the index of a commit, and what of it differs from the tree that `changes` are listed against."""
    index = folder.path / "index.new"
    git_index.write_index(folder.path, index, repository, top, commit)
    differing = repository.git("diff-tree", "-r", "-z", "--no-renames", "--name-only", tree, commit)
    if differing.returncode != 0:
        raise Refusal(f"there is no index for Git{said(differing.stderr)}")
    folder.told.write_bytes(differing.stdout)
    index.replace(folder.index)
