"""A folder that `mount-git` mounts through FUSE, with a `.git` at its top: cases of tests/git-status."""

import os
import pathlib
import shlex
import shutil
import subprocess
import sys
import time
from collections import Counter

import cases
from answering import AUTHOR, mount_git
from checks import PATIENCE, check, git
from helpers.git import environment
from mount_folder import MountGit, asked_for, make_project, missing, said_by
from programs import MOUNT_GIT
from yakembi import kernel
from yakembi.mount_git import SECONDS_BETWEEN_LOOKS

# Who commits, and now.
WHO = {name: value for name, value in AUTHOR.items() if not name.endswith("_DATE")}
HOOK = f"{shlex.quote(sys.executable)} {shlex.quote(str(MOUNT_GIT))} fsmonitor"


def make_strange(folder: pathlib.Path, repository: pathlib.Path, branch: str) -> pathlib.Path:
    """A repository that has the tree of the other's HEAD, in its own commit on that branch, and none of its commits."""
    strange, tree = folder / "strange", git(repository, "rev-parse", "HEAD^{tree}")
    strange.mkdir()
    git(strange, "init", "-q")
    git(repository, "update-ref", "refs/kept/tree", tree)
    git(strange, "fetch", "-q", str(repository), "refs/kept/tree:refs/kept/tree")
    git(repository, "update-ref", "-d", "refs/kept/tree")
    git(strange, "update-ref", f"refs/heads/{branch}", git(strange, "commit-tree", tree, "-m", "a stranger's"))
    git(strange, "symbolic-ref", "HEAD", f"refs/heads/{branch}")
    return strange


def contents(overlay: pathlib.Path) -> dict[str, bytes]:
    """What Git, and we, have in an overlay beside the files of numbers: all that tells on what it stands."""
    files = [overlay / "mount-git", *(path for path in (overlay / "git").rglob("*") if path.is_file())]
    return {str(path.relative_to(overlay)): path.read_bytes() for path in files}


class DotGit(cases.Case):
    """Git, and what is asked of the mount."""

    def setUp(self) -> None:
        if lack := missing():
            self.skipTest(lack)
        super().setUp()
        (self.folder / "project").mkdir()
        self.repository = make_project(self.folder / "project")
        self.short = git(self.repository, "symbolic-ref", "--short", "HEAD")
        self.overlay = self.folder / "an [odd] *\\ \"name\"; #'"

    def mounted(self, name: str = "mounted", *more: object) -> MountGit:
        return MountGit(self.repository, "HEAD", self.folder / name, *(more or ("--log", "--overlay", self.overlay)))

    def made(self, mount: MountGit) -> None:
        check("--dot-git", mount_git("git", "--dot-git", mount.folder), (0, "", ""))

    def git(self, at: pathlib.Path, *words: str) -> tuple[int, str]:
        done = subprocess.run(["git", *words], capture_output=True, cwd=at, env={**environment(), **WHO})
        check(f"git {words[0]} says nothing more", done.stderr, b"")
        return done.returncode, os.fsdecode(done.stdout).strip()

    def check_found(self, mount: MountGit, *wanted: str) -> None:
        """Git finds the repository, and is told by the mount what was changed, here and nowhere else. So it looks at no
        file that wasn't, and asks for the tree at the top, and the object of a file that was."""
        asked = Counter(asked_for(mount.log))
        check("git status", self.git(mount.folder, "status", "--porcelain", "-b"), (0, "\n".join(wanted)))
        check("what it asks for", (Counter(asked_for(mount.log)) - asked).total() <= 2, True)
        hook = self.git(mount.folder / "notes", "config", "core.fsmonitor")
        check("who is asked", hook, (0, HOOK))
        check("nobody elsewhere", self.git(self.repository, "config", "core.fsmonitor"), (1, ""))

    def test_life(self) -> None:
        """It stays over mounts, if the folder, the overlay and the repository are elsewhere, and is in no commit."""
        with self.mounted() as mount:
            self.made(mount)
            self.check_found(mount, f"## {self.short}")
            (mount.folder / "plain.txt").write_text("by Git")
            self.check_found(mount, f"## {self.short}", " M plain.txt")
            check("git commit", self.git(mount.folder, "commit", "-qam", "by Git"), (0, ""))
            (mount.folder / "ignored").write_bytes((mount.folder / ".git").read_bytes())
            check("what was changed", said_by(MOUNT_GIT, "changes", mount.folder),
                  (0, ["A\tignored", "M\tplain.txt"]))
            check("mount-git commit", mount_git("commit", mount.folder, "-m", "by the mount")[0], 0)
            self.check_found(mount, f"## {self.short}")
            rows = git(self.repository, "diff", "--name-status", f"{self.short}~2", self.short).splitlines()
            check("what is committed", rows, ["A\tignored", "M\tplain.txt"])
            check("by Git's rules", subprocess.run(["git", "fsck", "--strict", "--no-dangling"], capture_output=True,
                                                   cwd=self.repository).returncode, 0)
            wanted = "mount-git: nothing is changed since the commit that the folder stands on\n"
            check("and no more", mount_git("commit", mount.folder, "-m", "m"), (1, "", wanted))
            self.made(mount)
            check("the end", mount.end("SIGTERM"), 0)
        with self.mounted("elsewhere") as mount:
            self.check_found(mount, f"## {self.short}")
            check("it stands on what was named", mount.said(), [])
            check("a branch", self.git(mount.folder, "switch", "-qc", "topic"), (0, ""))
        self.overlay = self.overlay.rename(self.folder / "moved")
        self.repository = self.repository.rename(self.folder / "a much longer name of the repository")
        check("Git in it", self.git(self.repository, "branch", "--list", "topic"), (0, "topic"))
        check("gc in it", self.git(self.repository, "gc", "-q"), (0, ""))
        with self.mounted() as mount:
            self.check_found(mount, "## topic")
        self.repository = self.repository.rename(self.folder / "short")
        with self.mounted() as mount:
            self.check_found(mount, "## topic")
            (mount.folder / ".git").unlink()
        with self.mounted() as mount:
            check("taken away", (mount.folder / ".git").exists(), False)
            self.made(mount)
            self.check_found(mount, "## topic")

    def test_moved_elsewhere(self) -> None:
        """A branch that somebody else moves the folder leaves before Git begins anything there; who asks next is told.
        """
        with self.mounted() as mount:
            self.made(mount)
            before = git(self.repository, "rev-parse", "HEAD")
            (self.repository / "empty").write_text("a colleague's")
            git(self.repository, "commit", "-qam", "a colleague's")
            self.wait_until_detached(before)
            check("a branch", self.git(mount.folder, "switch", "-qc", "topic"), (0, ""))
            (mount.folder / "plain.txt").write_text("mine")
            moved = f"refs/heads/{self.short} was moved from elsewhere: the folder stands on {before}"
            done = subprocess.run(["git", "commit", "-qam", "mine"], capture_output=True, cwd=mount.folder,
                                  env={**environment(), **AUTHOR})
            check("told", (done.returncode, done.stderr.decode()),
                  (0, f"mount-git: {moved}, and on no branch\n"))
            check("what is committed", git(self.repository, "diff", "--name-only", before, "topic"), "plain.txt")
            self.check_found(mount, "## topic")

    def wait_until_detached(self, commit: str) -> None:
        end = time.monotonic() + PATIENCE
        while (self.overlay / "git/HEAD").read_text() != f"{commit}\n" and time.monotonic() < end:
            time.sleep(0.01)

    def test_deleted(self) -> None:
        """A branch that somebody else deletes leaves what was committed on it, and the next commit on that."""
        with self.mounted() as mount:
            self.made(mount)
            (mount.folder / "plain.txt").write_text("mine")
            check("a commit", self.git(mount.folder, "commit", "-qam", "mine"), (0, ""))
            made = git(self.repository, "rev-parse", "HEAD")
            self.check_found(mount, f"## {self.short}")
            git(self.repository, "update-ref", "-d", f"refs/heads/{self.short}")
            self.wait_until_detached(made)
            told = subprocess.run(["git", "status", "--porcelain", "-b"], capture_output=True, cwd=mount.folder,
                                  env=environment())
            check("on no branch", (told.stdout, b"was moved from elsewhere" in told.stderr),
                  (b"## HEAD (no branch)\n", True))
            (mount.folder / "plain.txt").write_text("more")
            check("the next commit", self.git(mount.folder, "commit", "-qam", "more"), (0, ""))
            check("on it", self.git(mount.folder, "rev-parse", "HEAD^"), (0, made))

    def test_another_repository(self) -> None:
        """A repository that lacks what was committed and staged isn't changed by it, and Git works there."""
        first, self.repository = self.repository, self.folder / "clone"
        before = git(first, "rev-parse", "HEAD")
        for words in (["branch", "--show-current"], ["switch", "-q", "--detach"]):
            git(self.folder, "clone", "-q", str(first), str(self.repository))
            with self.mounted() as mount:
                self.made(mount)
                for name in ("plain.txt", "staged"):
                    (mount.folder / name).write_text(f"{name} {words}")
                    check("staged", self.git(mount.folder, "add", "-A"), (0, ""))
                    if name == "plain.txt":
                        check("a branch", self.git(mount.folder, *words)[0], 0)
                        check("a commit", self.git(mount.folder, "commit", "-qm", "mine"), (0, ""))
            (first / "empty").write_text(f"a colleague's, {words}")
            git(first, "commit", "-qam", "a colleague's")
            shutil.rmtree(self.repository)
            git(self.folder, "clone", "-q", str(first), str(self.repository))
            with self.mounted() as mount:
                found = self.git(mount.folder, "status", "--porcelain", "-b")
                check("what was there, on no branch", found, (0, "## HEAD (no branch)\n M plain.txt\n?? staged"))
                check("it stands there", self.git(mount.folder, "rev-parse", "HEAD"), (0, before))
                check("told", ["the repository lacks" in line for line in mount.said()].count(True), 2)
                check("gc", self.git(self.repository, "gc", "-q", "--prune=now"), (0, ""))
                git(self.repository, "fsck", "--strict")
            shutil.rmtree(self.overlay)
            shutil.rmtree(self.repository)
            before = git(first, "rev-parse", "HEAD")

    def test_strange_repository(self) -> None:
        """One that has the tree, and none of the commits on which the folder ever stood, shows it; and what Git has in
        the overlay stays as it was, whoever asks for what there."""
        first = self.repository
        for words in (["branch", "--show-current"], ["switch", "-qc", "topic"], ["switch", "-q", "--detach"]):
            strange = make_strange(self.folder, first, self.short)
            with self.mounted() as mount:
                self.made(mount)
                check("a branch", self.git(mount.folder, *words)[0], 0)
                (mount.folder / "plain.txt").write_text(f"mine {words}")
                check("a commit", self.git(mount.folder, "commit", "-qam", "mine"), (0, ""))
                (mount.folder / "staged").write_text("staged")
                check("staged", self.git(mount.folder, "add", "-A"), (0, ""))
                seen = self.state(mount)
            before = contents(self.overlay)
            self.repository = strange
            self.check_strange(f"mine {words}", seen)
            check(f"{words}: what Git has", contents(self.overlay), before)
            self.repository = first
            with self.mounted() as mount:
                check(f"{words}: as before", self.state(mount), seen)
                check("nothing is told", mount.said(), [])
            shutil.rmtree(self.overlay)
            shutil.rmtree(strange)

    def state(self, mount: MountGit) -> list[tuple[object, ...]]:
        """What Git says of the folder, run by itself and by `mount-git`, and what was changed there."""
        ways = [["status", "--porcelain", "-b"], ["rev-parse", "HEAD"], ["ls-files", "-s"],
                ["reflog", "--format=%H %gs"]]
        return [*(self.git(mount.folder, *words) for words in ways),
                *(mount_git("git", mount.folder, *words) for words in ways), mount_git("changes", mount.folder)]

    def check_strange(self, text: str, seen: list[tuple[object, ...]]) -> None:
        """What a mount with a strange repository shows, and refuses. The `.git` there leads to the other one."""
        refused = f"{self.repository} has no commit on which the folder ever stood: it is another repository"
        with self.mounted("elsewhere") as mount:
            wanted = f"mount-git: {mount.folder}/.git isn't made right for this mount: {refused}"
            check("told", mount.said(), [wanted])
            check("shown", (mount.folder / "plain.txt").read_text(), text)
            check("what was changed", mount_git("changes", mount.folder), seen[-1])
            away = self.repository.rename(self.folder / "away")
            time.sleep(2 * SECONDS_BETWEEN_LOOKS)
            check("where that is away", mount_git("git", mount.folder, "status")[0], 1)
            away.rename(self.repository)
            check("by its .git", self.git(mount.folder, "rev-parse", "HEAD"), seen[1])
            at = str(mount.folder)
            for words in (["git", at, "status"], ["git", "--environment", at], ["git", "--dot-git", at],
                          ["commit", at, "-m", "m"], ["commit", at, "-m", "m", "--branch", "other"]):
                check(f"{words}", mount_git(*words), (1, "", f"mount-git: {refused}\n"))
            time.sleep(2 * SECONDS_BETWEEN_LOOKS)
            check("ended", mount_git("end", mount.folder), (0, "", ""))
            check("and no more is told", (mount.status(), mount.said()), (0, [wanted]))

    def test_strange_and_unchanged(self) -> None:
        """So it is if nothing was changed, and a kill left no file of a number."""
        with self.mounted() as mount:
            check("a branch", mount_git("git", mount.folder, "switch", "-qc", "topic")[0], 0)
            seen = mount_git("git", mount.folder, "status", "-sb")
        for file in (*self.overlay.glob("[0-9]*"), *self.overlay.glob("journal")):
            file.unlink()
        before, first = contents(self.overlay), self.repository
        self.repository = make_strange(self.folder, first, self.short)
        with self.mounted() as mount:
            check("refused", mount_git("git", mount.folder, "status")[0], 1)
            check("the end", (mount.end("SIGTERM"), mount.said()), (0, []))
        after = contents(self.overlay)
        tree, _, commit = before.pop("mount-git").split()
        check("what is noted", after.pop("mount-git").split()[::2], [tree, commit])
        check("what Git has", after, before)
        self.repository = first
        with self.mounted() as mount:
            check("as before", mount_git("git", mount.folder, "status", "-sb"), seen)

    def test_moved_and_cleaned(self) -> None:
        """What was staged a moved repository doesn't keep before the next mount; then it is a change as it was."""
        with self.mounted() as mount:
            self.made(mount)
            (mount.folder / "staged").write_text("staged")
            check("staged", self.git(mount.folder, "add", "-A"), (0, ""))
        self.repository = self.repository.rename(self.folder / "moved")
        git(self.repository, "gc", "-q", "--prune=now")
        with self.mounted() as mount:
            check("told", ["nothing is staged any more" in line for line in mount.said()], [True])
            check("a change", self.git(mount.folder, "status", "--porcelain"), (0, "?? staged"))
            check("staged again", self.git(mount.folder, "add", "-A"), (0, ""))
            check("a commit", self.git(mount.folder, "commit", "-qm", "mine"), (0, ""))
            check("gc", self.git(self.repository, "gc", "-q", "--prune=now"), (0, ""))

    def test_clone_elsewhere(self) -> None:
        """A clone at another place lacks the branch and its commits: there the folder stands on what it has."""
        first, second = self.folder / "first", self.folder / "second"
        for clone in (first, second):
            git(self.folder, "clone", "-q", str(self.repository), str(clone))
        for words in (["switch", "-qc", "topic"], ["switch", "-q", "--detach"]):
            self.repository = first
            before = git(first, "rev-parse", "HEAD")
            with self.mounted() as mount:
                self.made(mount)
                check("a branch", self.git(mount.folder, *words), (0, ""))
                (mount.folder / "plain.txt").write_text(f"mine {words}")
                check("a commit", self.git(mount.folder, "commit", "-qam", "mine"), (0, ""))
            self.repository = second
            with self.mounted() as mount:
                told = self.git(mount.folder, "status", "--porcelain", "-b")
                check("a change", told, (0, "## HEAD (no branch)\n M plain.txt"))
                check("where it stands", self.git(mount.folder, "rev-parse", "HEAD"), (0, before))
                check("told", sum("on no branch" in line for line in mount.said()), 1)
                check("gc", self.git(second, "gc", "-q", "--prune=now"), (0, ""))
            shutil.rmtree(self.overlay)

    def test_clone_that_lacks_trees(self) -> None:
        """A clone that has all files of what was committed, and not the trees, nor what was merged just now."""
        first, second = self.folder / "first", self.folder / "second"
        for clone in (first, second):
            git(self.folder, "clone", "-q", str(self.repository), str(clone))
        side = git(first, "commit-tree", "HEAD^{tree}", "-p", "HEAD", "-m", "side")
        self.repository = first
        with self.mounted() as mount:
            self.made(mount)
            for words in (["mv", "plain.txt", "notes/plain.txt"], ["commit", "-qm", "moved"]):
                check("in the first", self.git(mount.folder, *words), (0, ""))
            merged = subprocess.run(["git", "merge", "--no-commit", "--no-ff", side], capture_output=True,
                                    cwd=mount.folder, env={**environment(), **WHO})
            check("a merge", merged.returncode, 0)
        self.repository = second
        with self.mounted() as mount:
            check("the merge is told", sum("the merge is given up" in line for line in mount.said()), 1)
            check("gc", self.git(second, "gc", "-q", "--prune=now"), (0, ""))
            check("a commit", self.git(mount.folder, "commit", "-qam", "mine"), (0, ""))
            check("on one", len(self.git(mount.folder, "rev-list", "--parents", "-n1", "HEAD")[1].split()), 2)

    def test_odd_logs(self) -> None:
        """Lines of HEAD's log that are none, as a full disk leaves them, say nothing."""
        with self.mounted() as mount:
            self.made(mount)
            for text in (b"x \xff\xfe foo\n", b"\n", b"x \x1c\n", b"0" * 60):
                time.sleep(2 * SECONDS_BETWEEN_LOOKS)
                with open(self.overlay / "git/logs/HEAD", "ab") as log:
                    log.write(text)
                self.check_found(mount, f"## {self.short}")
            time.sleep(2 * SECONDS_BETWEEN_LOOKS)
            check("nothing is said", mount.said(), [])
        with self.mounted() as mount:
            self.check_found(mount, f"## {self.short}")

    def test_undone(self) -> None:
        """A branch that is taken away in the folder, as to undo a first commit, stays away; a renamed one is followed.
        """
        with self.mounted() as mount:
            self.made(mount)
            time.sleep(2 * SECONDS_BETWEEN_LOOKS)
            check("taken away", self.git(mount.folder, "update-ref", "-d", "HEAD"), (0, ""))
            time.sleep(2 * SECONDS_BETWEEN_LOOKS)
            check("the branch", self.git(mount.folder, "symbolic-ref", "--short", "HEAD"), (0, self.short))
            check("a commit", self.git(mount.folder, "commit", "-qam", "again"), (0, ""))
            check("the first", self.git(mount.folder, "rev-list", "--count", "HEAD"), (0, "1"))
            check("renamed", self.git(mount.folder, "branch", "-m", "other"), (0, ""))
            time.sleep(2 * SECONDS_BETWEEN_LOOKS)
            check("the branch then", self.git(mount.folder, "symbolic-ref", "--short", "HEAD"), (0, "other"))

    def test_unnamed(self) -> None:
        """Without an overlay a commit that no branch has is named at the end."""
        with self.mounted("mounted", "--threads", "2") as mount:
            self.made(mount)
            check("on no branch", self.git(mount.folder, "switch", "-q", "--detach"), (0, ""))
            check("a commit", self.git(mount.folder, "commit", "-q", "--allow-empty", "-m", "mine"), (0, ""))
            made = self.git(mount.folder, "rev-parse", "HEAD")[1]
            check("the end", (mount.end("SIGTERM"), [made in line for line in mount.said()]), (0, [True]))

    def test_submodules(self) -> None:
        """A submodule that Git has filled is found if the folder and the overlay lie elsewhere."""
        inner = self.folder / "inner"
        inner.mkdir()
        git(inner, "init", "-q")
        git(inner, "commit", "-q", "--allow-empty", "-m", "inner")
        git(self.repository, "-c", "protocol.file.allow=always", "submodule", "--quiet", "add", str(inner), "filled")
        git(self.repository, "commit", "-qm", "with a submodule")
        with self.mounted() as mount:
            self.made(mount)
            update = ["-c", "protocol.file.allow=always", "submodule", "--quiet", "update", "--init"]
            check("filled", subprocess.run(["git", *update], cwd=mount.folder, env=environment()).returncode, 0)
            self.check_found(mount, f"## {self.short}")
        for name, place in [("elsewhere", "moved"), ("mounted", "longer/than/before"), ("m", "o")]:
            (self.folder / place).parent.mkdir(parents=True, exist_ok=True)
            self.overlay = self.overlay.rename(self.folder / place)
            with self.mounted(name) as mount:
                told = self.git(mount.folder, "submodule", "status", "filled")[1].split()[1:]
                check(f"in {place}", told, ["filled", "(heads/main)"])
                (mount.folder / "filled/new").write_text("new")
                check("in it", self.git(mount.folder / "filled", "status", "--porcelain"), (0, "?? new"))
                check("above it", self.git(mount.folder, "status", "--porcelain"), (0, "M filled"))

    def test_settings_behind(self) -> None:
        """What the repository's settings say after doesn't count; and what counts all the same is reported."""
        settings = self.repository / ".git/config"
        with self.mounted() as mount:
            self.made(mount)
            with open(settings, "a") as file:
                file.write("[core]\n\tfsmonitor = false\n")
            self.made(mount)
            hook = self.git(mount.folder, "config", "core.fsmonitor")
            check("who is asked", hook, (0, HOOK))
            git(self.repository, "config", "extensions.worktreeConfig", "true")
            check("another", self.git(mount.folder, "config", "--worktree", "core.fsmonitor", "false"), (0, ""))
            status, _, errors = mount_git("git", "--dot-git", mount.folder)
            check("told", (status, "another core.fsmonitor is set" in errors), (0, True))

    def test_ended_at_once(self) -> None:
        """A mount that ends while it begins leaves nothing at the mount point, and the next one has the file."""
        with self.mounted() as mount:
            self.made(mount)
        repository, self.repository = self.repository, self.repository.rename(self.folder / "moved")
        for tick in range(8):
            mount = self.mounted()
            while not mount.is_mounted() and mount.process.poll() is None:
                time.sleep(0.001)
            time.sleep(tick / 100)
            check("the end", mount.end("SIGTERM") in (0, 1), True)
            check("what is left", os.listdir(mount.folder), [])
            kernel.unmount(str(mount.folder))
        self.repository = self.repository.rename(repository)
        with self.mounted() as mount:
            self.check_found(mount, f"## {self.short}")
            check("the end in peace", (mount.end("SIGTERM"), mount.said()), (0, []))

    def test_lost(self) -> None:
        """What a disk lost of the overlay's directory `git` loses no branch and nothing that is staged, and ends no
        mount."""
        with self.mounted() as mount:
            self.made(mount)
            check("a branch", self.git(mount.folder, "switch", "-qc", "topic"), (0, ""))
            (mount.folder / "plain.txt").write_text("staged")
            check("staged", self.git(mount.folder, "add", "-u"), (0, ""))
        for name, text in [("made", ""), ("made", "null"), ("made", '{"tree": 1}'), ("seen", "null"), ("settings", ""),
                           ("dot-git", ""), ("gitdir", f"{mount.folder}/.git\n")]:
            (self.overlay / "git" / name).write_text(text)
            with self.mounted() as mount:
                told = self.git(mount.folder, "status", "--porcelain", "-b")
                check(f"without {name}", told, (0, "## topic\nM  plain.txt"))
                check(f"without {name}: the end", (mount.end("SIGTERM"), mount.said()), (0, []))
        check("the place", (self.overlay / "git/gitdir").read_text(), f"{self.overlay}/git/.git\n")

    def test_temporary(self) -> None:
        """Of mounts without an overlay the repository keeps nothing, also if they end at once."""
        before = (self.repository / ".git/config").read_bytes()
        mounts = [self.enterContext(self.mounted(f"mounted {number}", "--threads", "2")) for number in range(3)]
        for mount in mounts:
            self.made(mount)
            check("found", self.git(mount.folder, "status", "--porcelain", "-b"), (0, f"## {self.short}"))
        for mount in mounts:
            mount.process.terminate()
        for mount in mounts:
            check("the end", (mount.status(), mount.said()), (0, []))
        check("its settings", (self.repository / ".git/config").read_bytes(), before)
        check("its working trees", len(git(self.repository, "worktree", "list").splitlines()), 1)

    def test_forgotten(self) -> None:
        """The repository forgets an overlay that a mount finds gone, one long after it too, and one some days later."""
        names = ["first", "second", "third", "fourth"]
        for name, wanted in zip(names, (names[:1], names[:2], names[:3], names[1:])):
            self.overlay = self.folder / name
            with self.mounted() as mount:
                self.made(mount)
            settings = (self.repository / ".git/config").read_text()
            found = [other for other in names if os.fsdecode(self.folder / other) in settings]
            check("what it includes", found, wanted)
            check("its working trees", len(list((self.repository / ".git/worktrees").iterdir())), len(wanted))
            shutil.rmtree(self.overlay)
            for mark in (self.repository / ".git/mount-git").glob("*.missing*"):
                os.utime(mark, (0, 0))

    def test_line_feed(self) -> None:
        """An overlay that no setting can name is refused in words, and nothing is made."""
        self.overlay = self.folder / "line\nfeed"
        with self.mounted() as mount:
            wanted = "the path of the overlay has a line feed, so no setting of Git's can name it: move the overlay"
            check("refused", mount_git("git", "--dot-git", mount.folder), (1, "", f"mount-git: {wanted}\n"))
            check("nothing is made", (mount.folder / ".git").exists(), False)

    def test_refused(self) -> None:
        """What has a `.git` already keeps it, and no commit has that; and a repository that can't be written."""
        with self.mounted() as mount:
            lock = self.repository / ".git/config.lock"
            lock.touch()
            status, _, errors = mount_git("git", "--dot-git", mount.folder)
            check("held settings", (status, "the repository's settings can't be written" in errors), (1, True))
            check("nothing is made", [(mount.folder / ".git").exists(), (self.overlay / "git/dot-git").exists()],
                  [False, False])
            lock.unlink()
            check("words", mount_git("git", "--dot-git", mount.folder, "status")[0], 2)
            (mount.folder / ".git").symlink_to(self.folder / "victim")
            wanted = f"mount-git: {mount.folder}/.git is there already, and mount-git didn't make it\n"
            check("a link", mount_git("git", "--dot-git", mount.folder), (1, "", wanted))
            (mount.folder / ".git").unlink()
            check("git init", self.git(mount.folder, "init", "-q"), (0, ""))
            check("another", mount_git("git", "--dot-git", mount.folder), (1, "", wanted))
            status, _, errors = mount_git("commit", mount.folder, "-m", "m")
            check("no commit has it", (status, "has a .git" in errors), (1, True))
