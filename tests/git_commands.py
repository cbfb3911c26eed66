"""Git's own commands and `mount-git commit` in a mounted folder, beside Git in a plain working tree: both have the same
commits."""

import contextlib
import os
import pathlib
import random
import shlex
import shutil
import subprocess
from collections.abc import Callable, Iterator

from answering import AUTHOR, mount_git
from checks import PATIENCE, check, git
from helpers.git import environment
from mount_folder import MountGit
from programs import MOUNT_GIT, MOUNTD
from yakembi.git_folder import UNDER_WAY

# This many changes at most come before a command.
MOST_CHANGES = 2
STEPS_IN_A_MOUNT = 15
# How Git knows of one mount after another.
WAYS = ["--environment", "--dot-git", "as before"]
STEPS_BETWEEN_LOOKS = 10
# One in this many steps is `mount-git commit`.
COMMITS_OF_ALL = 8
NAMES = ["plain.txt", "run.sh", "empty", "dir/a", "dir-x", "dir0", "many/3", "many/7", "notes/0/0.txt", "notes/1/1.txt",
         "notes/2", "notes/3", "hello/main.c", "hello", "new", "new/one", "new/two", "dir/b", "dir", "many/new", "left",
         ".gitignore", "ignored.tmp", "dir/ignored.tmp", "notes/new/deep/file"]
TEXTS = ["one\n", "two\n", "one\ntwo\n", "", "*.tmp\n", "three\n" * 40]
BRANCHES = ["one", "two", "three"]

Words = list[str]


class Commands:
    """Random commands of Git's. Those that Git refuses are as good as others."""

    def __init__(self, generator: random.Random) -> None:
        self.random = generator
        self.count = 0

    def name(self) -> str:
        return self.random.choice(NAMES)

    def branch(self) -> str:
        return self.random.choice(BRANCHES)

    def message(self) -> str:
        self.count += 1
        return f"message {self.count}"

    def one(self) -> Words:
        """One of these; what commits, or puts into the index, comes more often."""
        made: list[Callable[[], Words]] = [
            lambda: ["add", "-A"], lambda: ["add", "-A"], lambda: ["add", "-u"], lambda: ["add", "--", self.name()],
            lambda: ["commit", "-qm", self.message()], lambda: ["commit", "-qm", self.message()],
            lambda: ["commit", "-qam", self.message()], lambda: ["commit", "-qam", self.message()],
            lambda: ["commit", "-q", "--amend", "-m", self.message()],
            lambda: ["commit", "-qm", self.message(), "--", self.name()],
            lambda: ["reset", "-q"], lambda: ["reset", "-q", "--hard"], lambda: ["reset", "-q", "--soft", "HEAD^"],
            lambda: ["reset", "-q", "--keep", self.branch()],
            lambda: ["checkout", "-qb", self.branch()], lambda: ["checkout", "-q", self.branch()],
            lambda: ["checkout", "-q", self.branch()], lambda: ["checkout", "-q", "--detach"],
            lambda: ["checkout", "-qf", self.branch()], lambda: ["branch", "-f", self.branch()],
            lambda: ["stash", "-q", "-u"], lambda: ["stash", "-q"], lambda: ["stash", "pop", "-q"],
            lambda: ["rm", "-qr", "--", self.name()], lambda: ["rm", "-qr", "--cached", "--", self.name()],
            lambda: ["mv", "--", self.name(), self.name()], lambda: ["clean", "-qfd"], lambda: ["clean", "-qfdx"],
            lambda: ["restore", "--", self.name()], lambda: ["restore", "--staged", "--", self.name()],
            lambda: ["checkout", self.branch(), "--", self.name()],
            lambda: ["merge", "-q", "--no-edit", self.branch()], lambda: ["merge", "-q", "--squash", self.branch()],
            lambda: ["rebase", "-q", self.branch()], lambda: ["cherry-pick", self.branch()],
            lambda: ["revert", "--no-edit", "HEAD"]]
        return self.random.choice(made)()


class Folder:
    """A working tree, in which files are changed and Git's commands run."""

    def __init__(self, top: pathlib.Path) -> None:
        self.top = top
        self.variables: dict[str, str] = {}

    def change(self, how: str, name: str, other: str, text: str) -> bool:
        """Changes a file as people do; False if that can't be done."""
        at = self.top / name
        try:
            if how == "remove":
                shutil.rmtree(at) if at.is_dir() and not at.is_symlink() else at.unlink()
            elif how == "move":
                at.rename(self.top / other)
            elif how == "chmod":
                at.chmod(at.stat().st_mode ^ 0o100)
            elif how == "link":
                at.symlink_to(other)
            else:
                at.parent.mkdir(parents=True, exist_ok=True)
                with open(at, "a" if how == "append" else "w") as file:
                    file.write(text)
        except OSError:
            return False
        return True

    def run(self, words: Words) -> tuple[int, bytes, bytes]:
        done = subprocess.run(["git", *words], capture_output=True, timeout=PATIENCE, cwd=self.top,
                              env={**environment(), **AUTHOR, "GIT_EDITOR": "true", **self.variables})
        return done.returncode, done.stdout, done.stderr

    def state(self) -> dict[str, object]:
        """What Git says of it: where HEAD is, what is in the index, and what differs."""
        asked = {"HEAD": ["rev-parse", "HEAD"], "branch": ["symbolic-ref", "-q", "HEAD"],
                 "status": ["status", "--porcelain", "-z"], "index": ["ls-files", "-sz"]}
        return {name: self.run(words)[:2] for name, words in asked.items()}

    def files(self) -> dict[bytes, object]:
        """What the folder has, but for what Git keeps in it."""
        found: dict[bytes, object] = {}
        for at, folders, files in os.walk(os.fsencode(self.top)):
            folders[:] = [name for name in folders if name != b".git"]
            for name in {*files, *folders} - {b".git"}:
                place = os.path.join(at, name)
                if os.path.islink(place):
                    found[place[len(os.fsencode(self.top)) :]] = os.readlink(place)
                elif name in files:
                    with open(place, "rb") as file:
                        found[place[len(os.fsencode(self.top)) :]] = (os.stat(place).st_mode & 0o100, file.read())
        return found


class Twins:
    """A mounted folder of one repository, and a plain working tree of a copy of it."""

    def __init__(self, folder: pathlib.Path, repository: pathlib.Path) -> None:
        self.bare, plain = folder / "bare", folder / "plain"
        git(folder, "clone", "-q", "--bare", str(repository), str(self.bare))
        git(folder, "clone", "-q", str(repository), str(plain))
        self.branch = git(self.bare, "symbolic-ref", "--short", "HEAD")
        self.mounted, self.plain = Folder(folder / "mounted"), Folder(plain)
        self.overlay = folder / "overlay"

    @contextlib.contextmanager
    def mount(self, how: str) -> Iterator[None]:
        """Mounts it, and has Git know of the mount: by the environment, by a `.git` that is made now, or by the one
        that is there from the mount before."""
        with MountGit(self.bare, self.branch, self.mounted.top, "--overlay", self.overlay) as mount:
            if how != "as before":
                done = subprocess.run([MOUNT_GIT, "git", how, self.mounted.top], capture_output=True, timeout=PATIENCE)
                check(f"git {how}", (done.returncode, done.stderr), (0, b""))
                words = shlex.split(done.stdout.decode())[1::2]
                self.mounted.variables = dict(word.split("=", 1) for word in words)
            yield
            check("the end", mount.end("SIGTERM"), 0)
            check("git has no folder any more", self.mounted.run(["commit", "-qam", "all is gone"])[0], 128)
            # A branch on which the folder isn't is no more what is mounted.
            check("nothing is said", [line for line in mount.said() if "the overlay stands on" not in line], [])

    def dematerialise(self) -> None:
        """Takes out of the overlay what its commit has, of which nobody sees anything."""
        status, _, errors = mount_git("dematerialise", self.bare, "--overlay", self.overlay, "--mountd", MOUNTD)
        check("dematerialise", (status, errors), (0, ""))

    def run(self, name: str, words: Words) -> bool:
        """Runs the command in both, and tells whether it succeeds."""
        status, _, errors = self.mounted.run(words)
        check(f"{name}: git {shlex.join(words)}", (status, b"mount-git" in errors), (self.plain.run(words)[0], False))
        return status == 0

    def commit_all(self, name: str, message: str) -> bool:
        """`mount-git commit`, and what it is in Git's words: a commit of all, with what is ignored. Nobody may stand in
        the mounted folder. It refuses if nothing differs, and on no branch."""
        done = subprocess.run([MOUNT_GIT, "commit", self.mounted.top, "-m", message], capture_output=True,
                              timeout=PATIENCE, cwd=self.overlay, env={**environment(), **AUTHOR})
        beside, index = Folder(self.plain.top), self.overlay.with_name("index of all")
        index.unlink(missing_ok=True)
        beside.variables = {"GIT_INDEX_FILE": str(index)}
        for words in (["read-tree", "HEAD"], ["add", "-Af", "."]):
            beside.run(words)
        differs = beside.run(["write-tree"])[1] != self.plain.run(["rev-parse", "HEAD^{tree}"])[1]
        is_made = differs and self.plain.run(["symbolic-ref", "-q", "HEAD"])[0] == 0
        if is_made:
            self.plain.run(["add", "-Af", "."])
            self.plain.run(["commit", "-qm", message])
        errors = [line for line in done.stderr.splitlines() if not line.endswith(b", an empty directory")]
        check(f"{name}: mount-git commit", (done.returncode == 0, errors if is_made else []), (is_made, []))
        return is_made

    def check_same(self, name: str) -> None:
        check(name, self.mounted.state(), self.plain.state())

    def check_files(self, name: str) -> None:
        check(f"{name}: the files", self.mounted.files(), self.plain.files())

    def is_under_way(self) -> bool:
        return self.plain.run(["ls-files", "-u"])[1] != b"" or any((self.plain.top / ".git" / name).exists()
                                                                   for name in UNDER_WAY)

    def take_back(self, name: str) -> None:
        """Takes back what couldn't be done whole."""
        for word in ("merge", "rebase", "cherry-pick", "revert"):
            self.run(name, [word, "--abort"])
        self.run(name, ["reset", "-q", "--hard"])


def check_git_commands(folder: pathlib.Path, repository: pathlib.Path, seed: int, count: int) -> None:
    """This many commands with random changes before them, in mount after mount; after every second one the overlay is
    dematerialised."""
    generator = random.Random(seed)
    commands, twins = Commands(generator), Twins(folder, repository)
    succeeded: set[str] = set()
    for life, first in enumerate(range(0, count, STEPS_IN_A_MOUNT)):
        with twins.mount(WAYS[life % len(WAYS)]):
            twins.check_same(f"seed {seed}, from step {first}")
            for number in range(first, min(count, first + STEPS_IN_A_MOUNT)):
                name = f"seed {seed}, step {number}"
                words = one_step(twins, commands, generator, name)
                succeeded.update(words)
                if number % STEPS_BETWEEN_LOOKS == 0:
                    twins.check_files(name)
            twins.check_files(f"seed {seed}, before step {first + STEPS_IN_A_MOUNT}")
        if life % 2 == 1:
            twins.dematerialise()
    check("commands of several kinds succeeded", len(succeeded) >= min(10, count // 5), True)


def one_step(twins: Twins, commands: Commands, generator: random.Random, name: str) -> list[str]:
    """Some changes and a command, whose word is answered if it succeeded."""
    for _ in range(generator.randrange(MOST_CHANGES + 1)):
        how = generator.choice(["write", "write", "append", "remove", "move", "chmod", "link"])
        fields = how, commands.name(), commands.name(), generator.choice(TEXTS)
        check(f"{name}: {fields}", twins.mounted.change(*fields), twins.plain.change(*fields))
    words = commands.one()
    if generator.randrange(COMMITS_OF_ALL) == 0:
        words = ["commit all"]
        is_done = twins.commit_all(name, commands.message())
    else:
        is_done = twins.run(name, words)
    if twins.is_under_way():
        twins.check_same(f"{name}, under way")
        twins.take_back(name)
    twins.check_same(name)
    return words[:1] if is_done else []
