"""Overlays out of which `mount-git dematerialise` takes what their commit has: cases of tests/commits, over a mount
without FUSE, and of tests/git-status, with Git in a folder that is mounted through FUSE."""

import errno
import fcntl
import os
import pathlib
import shutil
import subprocess
import time

import cases
from answering import AUTHOR, StandIn, mount_git, shown
from checks import PATIENCE, check, git, make_repository
from clones import FOLDER, Clone, make_far_repository
from dot_git_cases import contents, make_strange
from helpers.git import environment
from mount_folder import MountGit, make_project, missing
from programs import MOUNTD, mountd
from yakembi.git import Repository
from yakembi.git_folder import GitFolder
from yakembi.kept_tree import let_go, link_to
from yakembi.overlay import is_held
from yakembi.overlay_files import FILE, STATE_NUMBER, stored

NOTHING = 0, "dematerialised 0 files, 0 bytes\n", ""
# A mountd that does what it is told, and kills who started it before a command, or after it.
KILLS = """#!/bin/sh
[ {before} = "$1" ] && kill -9 $PPID && exit
'{mountd}' "$@"
status=$?
[ {behind} = "$1" ] && kill -9 $PPID
exit $status
"""


def dematerialise(repository: pathlib.Path, overlay: pathlib.Path, *more: str | pathlib.Path) -> tuple[int, str, str]:
    return mount_git("dematerialise", repository, "--overlay", overlay, *(more or ("--mountd", MOUNTD)))


def own_contents(overlay: pathlib.Path) -> list[bytes]:
    """What the overlay's own files and links hold, and orphans among them."""
    files = stored(overlay)
    return sorted(data[64:] for number, data in files.items() if number != STATE_NUMBER and data.startswith(FILE))


def noted(overlay: pathlib.Path) -> tuple[str, int, str]:
    tree, seconds, commit = (overlay / "mount-git").read_text().split()
    return tree, int(seconds), commit


def forget_all(repository: pathlib.Path) -> None:
    """The repository keeps what a ref has, and nothing else."""
    git(repository, "reflog", "expire", "--expire=now", "--all")
    git(repository, "gc", "-q", "--prune=now")


class Dematerialise(cases.Case):
    """Over a mount without FUSE, in which all is committed by `mount-git commit`."""

    def setUp(self) -> None:
        super().setUp()
        self.repository = make_repository(self.folder)
        self.overlay = self.folder / "overlay"

    def mounted(self, revision: str = "HEAD") -> StandIn:
        return StandIn(self.repository, self.folder, revision)

    def tree(self) -> str:
        return git(self.repository, "rev-parse", "HEAD^{tree}")

    def committed(self, mount: StandIn) -> None:
        status, _, errors = mount_git("commit", mount.folder, "-m", "m")
        check("a commit", (status, errors), (0, ""))

    def seen(self, mount: StandIn) -> dict[bytes, tuple[str, bytes, int]]:
        """All that it shows, with the inode numbers."""
        return {path: (*node, mount.requests.stat(path).number) for path, node in shown(mount).items()}

    def change(self, mount: StandIn) -> None:
        """Two commits of all kinds of changes, and one change after them."""
        requests = mount.requests
        requests.create(b"/dir/new")
        requests.write(b"/dir/new", 0, b"new\n")
        requests.write(b"/many/7", 0, b"seven\n")
        requests.symlink(b"/many/link", b"7")
        requests.setexec(b"/run.sh", False)
        requests.unlink(b"/plain.txt")
        requests.rename(b"/dir0", b"/dir/moved")
        self.committed(mount)
        requests.mkdir(b"/made")
        requests.create(b"/made/inside")
        requests.rename(b"/many", b"/made/many")
        requests.write(b"/dir/new", 0, b"newer\n")
        self.committed(mount)
        requests.write(b"/made/many/8", 0, b"not committed\n")

    def test_life(self) -> None:
        """What two commits have goes, and what isn't committed stays; all is shown as it was, with the same numbers,
        after `git gc` too. Then there is nothing that could go, and the time stays."""
        with self.mounted() as mount:
            self.change(mount)
            before = self.seen(mount)
        files = self.files()
        done = dematerialise(self.repository, self.overlay)
        gone = [len(data) for name, data in files.items() if name not in self.files()]
        check("it goes well", done, (0, f"dematerialised {len(gone)} files, {sum(gone)} bytes\n", ""))
        check("what goes", len(gone), 4)
        check("what stays", own_contents(self.overlay), [b"not committed\n"])
        said = noted(self.overlay)
        check("what is noted", said[::2], (self.tree(), git(self.repository, "rev-parse", "HEAD")))
        check("again", (dematerialise(self.repository, self.overlay), noted(self.overlay)), (NOTHING, said))
        forget_all(self.repository)
        with self.mounted() as mount:
            check("what is shown", self.seen(mount), before)
            check("what is changed", mount_git("changes", mount.folder), (0, "M\tmade/many/8\n", ""))
            self.committed(mount)
        check("the rest", dematerialise(self.repository, self.overlay)[::2], (0, ""))
        check("nothing stays", own_contents(self.overlay), [])
        check("git fsck", git(self.repository, "fsck", "--full", "--strict", "--no-dangling"), "")
        with self.mounted() as mount:
            check("what is shown then", self.seen(mount), before)
            check("nothing is changed", mount_git("changes", mount.folder), (0, "", ""))

    def test_changed_back(self) -> None:
        """What was changed back goes too, with a later time; nothing that was never changed does."""
        with self.mounted() as mount:
            mount.requests.write(b"/plain.txt", 0, b"PLAIN")
            mount.requests.write(b"/plain.txt", 0, b"plain")
        before = noted(self.overlay)
        status, output, errors = dematerialise(self.repository, self.overlay)
        check("one file", (status, output.split(",")[0], errors), (0, "dematerialised 1 files", ""))
        check("the time", noted(self.overlay)[1] > before[1], True)
        check("all else that is noted", noted(self.overlay)[::2], before[::2])
        for name, looked_at in [("entered", b"/dir"), ("begun", None)]:
            self.overlay = self.folder / name / "overlay"
            self.overlay.parent.mkdir()
            with StandIn(self.repository, self.overlay.parent) as mount:
                if looked_at:
                    mount.requests.list(looked_at)
            before, files = noted(self.overlay), self.files()
            check(f"{name} alone", dematerialise(self.repository, self.overlay), NOTHING)
            check(f"{name} alone: nothing goes", (noted(self.overlay), self.files()), (before, files))

    def test_cut_short(self) -> None:
        """Killed after any of its steps: the next mount shows what was shown, and the next run ends it."""
        for number, (before, behind) in enumerate([("dematerialise", ""), ("", "dematerialise")]):
            with self.mounted() as mount:
                mount.requests.write(b"/plain.txt", 0, b"cut %d\n" % number)
                self.committed(mount)
                mount.requests.write(b"/dir/a", 0, b"%d" % number)
                seen, old = self.seen(mount), mount.tree
            killing = self.folder / "killing"
            killing.write_text(KILLS.format(before=f"'{before}'", behind=f"'{behind}'", mountd=MOUNTD))
            killing.chmod(0o755)
            check("it is killed", dematerialise(self.repository, self.overlay, "--mountd", killing)[0], -9)
            check("its note says the old tree", noted(self.overlay)[0], old)
            check("it knows both trees", {old, self.tree()} <= set((self.overlay / "trees").read_text().split()), True)
            seconds = noted(self.overlay)[1]
            with self.mounted() as mount:
                check("what is shown", self.seen(mount), seen)
                check("where it stands", mount.tree, old if before else self.tree())
                check("what is noted", noted(self.overlay)[:2], (mount.tree, seconds))
                wanted = "M\tdir/a\n" + ("M\tplain.txt\n" if before else "")
                check("what is changed", mount_git("changes", mount.folder), (0, wanted, ""))
            check("again", dematerialise(self.repository, self.overlay)[::2], (0, ""))
            check("what stays", own_contents(self.overlay), [b"%d" % number])

    def test_again_after_a_kill(self) -> None:
        """A run ends what one began that was killed before it removed a file, with no mount between them."""
        with self.mounted() as mount:
            mount.requests.write(b"/plain.txt", 0, b"PLAIN")
            self.committed(mount)
            seen, old = self.seen(mount), mount.tree
        files = self.files()
        done = mountd("dematerialise", "--root", old, "--tree", self.tree(), "--git", self.repository, "--overlay",
                      self.overlay)
        check("by mountd alone", done, (0, b"", b""))
        for name in files.keys() - self.files().keys():
            (self.overlay / name).write_bytes(files[name])
        status, output, errors = dematerialise(self.repository, self.overlay)
        check("one file", (status, output.split(",")[0], errors), (0, "dematerialised 1 files", ""))
        with self.mounted() as mount:
            check("where it stands", mount.tree, self.tree())
            check("what is shown", self.seen(mount), seen)

    def test_refused(self) -> None:
        """No overlay, one in which nothing was changed, one in use, one that was left by a kill, one of a tree, and a
        repository that can't keep what it needs."""
        wanted = f"mount-git: {self.overlay} isn't the overlay of a mount\n"
        check("none", dematerialise(self.repository, self.overlay), (1, "", wanted))
        check("none is made", self.overlay.exists(), False)
        with self.mounted() as mount:
            mount.requests.create(b"/new")
            wanted = f"mount-git: the overlay {self.overlay} is in use by another run of mount-git\n"
            check("in use", dematerialise(self.repository, self.overlay), (1, "", wanted))
        state = (self.overlay / "0").read_bytes()
        (self.overlay / "0").unlink()
        wanted = f"mount-git: the overlay {self.overlay} isn't one that a mount has closed: "
        ending = "mount it once more, and end that\n"
        check("killed", dematerialise(self.repository, self.overlay), (1, "", wanted + ending))
        (self.overlay / "0").write_bytes(state)
        keeps = GitFolder(self.overlay).own_name()
        check("where it was mounted", dematerialise(self.repository, self.overlay)[0], 0)
        refs = [row.split()[2] for row in git(self.repository, "for-each-ref", "refs/mount-git").splitlines()]
        let_go(Repository(str(self.repository)), keeps)
        name = refs[0].split("/")[2]
        git(self.repository, "update-ref", f"refs/mount-git/{name}/trees", "HEAD")
        before = self.files()
        status, _, errors = dematerialise(self.repository, self.overlay)
        wanted = f"mount-git: {self.repository}/.git can't keep {self.tree()}: "
        check("nothing is kept", (status, errors.startswith(wanted), errors.count("\n")), (1, True, 1))
        check("nothing goes", self.files(), before)

    def files(self) -> dict[str, bytes]:
        return {path.name: path.read_bytes() for path in self.overlay.iterdir() if path.is_file()}

    def test_failed(self) -> None:
        """If mountd isn't there, or can't have the overlay, nothing changes, and so no time does; but the overlay
        knows of the tree that it was to stand on."""
        with self.mounted() as mount:
            mount.requests.write(b"/plain.txt", 0, b"PLAIN")
            self.committed(mount)
        trees = "".join(f"{tree}\n" for tree in sorted([mount.tree, self.tree()])).encode()
        before, absent = {**self.files(), "trees": trees}, self.folder / "absent"
        wanted = f"mount-git: {absent} can't be run (No such file or directory): `make run` builds it\n"
        check("absent", dematerialise(self.repository, self.overlay, "--mountd", absent), (1, "", wanted))
        check("absent: nothing changes", self.files(), before)
        with open(self.overlay / "lock", "rb") as lock:
            fcntl.flock(lock, fcntl.LOCK_EX)
            done = dematerialise(self.repository, self.overlay)
        check("locked", done, (1, "", "mount-git: mountd ended with status 3: mountd: open Locked\n"))
        check("locked: nothing changes", self.files(), before)

    def test_orphan(self) -> None:
        """If the run is killed while mountd is at work, the overlay is in use until that ends."""
        with self.mounted() as mount:
            mount.requests.write(b"/plain.txt", 0, b"PLAIN")
            self.committed(mount)
            seen = self.seen(mount)
        waits, killing = self.folder / "waits", self.folder / "killing"
        waits.touch()
        killing.write_text(f"#!/bin/sh\nkill -9 $PPID\nwhile [ -e '{waits}' ]; do sleep 0.01; done\n"
                           f"exec '{MOUNTD}' \"$@\"\n")
        killing.chmod(0o755)
        check("it is killed", dematerialise(self.repository, self.overlay, "--mountd", killing)[0], -9)
        in_use = 1, "", f"mount-git: the overlay {self.overlay} is in use by another run of mount-git\n"
        check("mountd is at work", dematerialise(self.repository, self.overlay), in_use)
        waits.unlink()
        end = time.monotonic() + PATIENCE
        while is_held(self.overlay) and time.monotonic() < end:
            time.sleep(0.01)
        check("it has ended", dematerialise(self.repository, self.overlay)[::2], (0, ""))
        check("nothing stays", own_contents(self.overlay), [])
        with self.mounted() as mount:
            check("what is shown", self.seen(mount), seen)

    def test_unknown(self) -> None:
        """An overlay of a tree."""
        with self.mounted("HEAD:dir") as mount:
            mount.requests.create(b"/new")
        wanted = "mount-git: the folder shows a tree, and isn't known to stand on a commit\n"
        check("a tree", dematerialise(self.repository, self.overlay), (1, "", wanted))

    def test_kept(self) -> None:
        """The repository keeps each tree on which the overlay ever stood, until that goes."""
        trees = [self.tree()]
        for number in range(3):
            with self.mounted() as mount:
                mount.requests.write(b"/plain.txt", 0, b"%d\n" % number)
                self.committed(mount)
            check("it goes well", dematerialise(self.repository, self.overlay)[0], 0)
            trees.append(self.tree())
        rows = [row.split() for row in git(self.repository, "for-each-ref", "refs/mount-git").splitlines()]
        kept = [(kind.split("/", 3)[3], object_id) for object_id, _, kind in rows]
        head = git(self.repository, "rev-parse", "HEAD")
        wanted = [("commit", head), ("tree", trees[-1]), *((f"trees/{tree}", tree) for tree in trees)]
        check("kept", sorted(kept), sorted(wanted))
        check("the overlay knows them", (self.overlay / "trees").read_text().splitlines(), sorted(trees))
        let_go(Repository(str(self.repository)), GitFolder(self.overlay).own_name())
        check("and no more", git(self.repository, "for-each-ref", "refs/mount-git"), "")
        check("nor a link", os.listdir(self.repository / ".git/mount-git"), [])


class DematerialiseByGit(cases.Case):
    """With Git in a folder that is mounted through FUSE."""

    def setUp(self) -> None:
        if lack := missing():
            self.skipTest(lack)
        super().setUp()
        (self.folder / "project").mkdir()
        # A bare one has no branch checked out, so that the folder may go to each.
        self.repository = self.folder / "bare"
        git(self.folder, "clone", "-q", "--bare", str(make_project(self.folder / "project")), str(self.repository))
        self.overlay = self.folder / "overlay"
        self.short = git(self.repository, "symbolic-ref", "--short", "HEAD")

    def mounted(self) -> MountGit:
        return MountGit(self.repository, "HEAD", self.folder / "mounted", "--overlay", self.overlay)

    def git(self, *words: str) -> str:
        done = subprocess.run(["git", *words], capture_output=True, cwd=self.folder / "mounted",
                              env={**environment(), **AUTHOR})
        check(f"git {words}", (done.returncode, done.stderr), (0, b""))
        return os.fsdecode(done.stdout).rstrip("\n")

    def begun(self, mount: MountGit) -> None:
        check("--dot-git", mount_git("git", "--dot-git", mount.folder), (0, "", ""))

    def state(self) -> list[str]:
        """What Git says of the folder, and what is in its index."""
        return [self.git(*words) for words in (["status", "--porcelain", "-b", "-uall"], ["rev-parse", "HEAD"],
                                               ["ls-files", "-sv"], ["diff"], ["diff", "--cached"])]

    def goes(self) -> str:
        status, output, errors = dematerialise(self.repository, self.overlay)
        check("it goes well", (status, errors), (0, ""))
        return output

    def told(self) -> set[bytes]:
        return set((self.overlay / "git/told").read_bytes().split(b"\0")) - {b""}

    def test_life(self) -> None:
        """Commits, a switch and a merge: the overlay keeps what differs, and the index is made anew, by which Git looks
        at that alone."""
        with self.mounted() as mount:
            self.begun(mount)
            for number in range(3):
                (mount.folder / f"notes/{number}/new").write_text(f"new {number}\n")
                (mount.folder / "plain.txt").write_text(f"plain {number}\n")
                self.git("add", "-A")
                self.git("commit", "-qm", f"commit {number}")
            self.git("switch", "-qc", "topic", "HEAD~2")
            (mount.folder / "hello/main.c").write_text("int main;\n")
            self.git("commit", "-qam", "topic")
            self.git("merge", "-q", "--no-edit", self.short)
            (mount.folder / "run.sh").write_text("not committed\n")
            (mount.folder / "untracked").write_text("untracked\n")
            seen = self.state()
            check("the end", (mount.end("SIGTERM"), mount.said()), (0, []))
        size = sum(path.stat().st_size for path in self.overlay.iterdir())
        self.goes()
        kept = [b"not committed\n", b"untracked\n"]
        check("what stays", [data for data in own_contents(self.overlay) if b"worktrees" not in data], kept)
        check("it is smaller", sum(path.stat().st_size for path in self.overlay.iterdir()) < size, True)
        forget_all(self.repository)
        check("git fsck", git(self.repository, "fsck", "--full", "--strict", "--no-dangling"), "")
        with self.mounted() as mount:
            check("Git says the same", self.state(), seen)
            check("where it looks", self.told(), {b"run.sh", b"untracked"})
            self.git("switch", "-q", "-m", self.short)
            self.git("commit", "-qam", "more")
            check("it goes on", self.state()[0].splitlines(), [f"## {self.short}", "?? untracked"])

    def test_staged(self) -> None:
        """An index that has more than the commit stays as it is, and Git looks at what it looked at."""
        with self.mounted() as mount:
            self.begun(mount)
            (mount.folder / "plain.txt").write_text("committed\n")
            (mount.folder / "empty").write_text("committed\n")
            self.git("commit", "-qam", "first")
            check("the end", mount.end("SIGTERM"), 0)
        ways = [["update-index", "--assume-unchanged", "run.sh"], ["update-index", "--no-assume-unchanged", "run.sh"],
                ["add", "-N", "new"], ["add", "new"], ["rm", "-q", "--cached", "new"], ["rm", "-q", "hello/main.c"]]
        for words in ways:
            with self.mounted() as mount:
                (mount.folder / "new").write_text("new\n")
                (mount.folder / "empty").write_text("")
                self.git(*words)
                seen, told = self.state(), self.told()
                check("the end", (mount.end("SIGTERM"), mount.said()), (0, []))
            self.goes()
            is_plain = words[-2:] in (["--no-assume-unchanged", "run.sh"], ["--cached", "new"])
            check(f"{words}: the index is there", (self.overlay / "git/index").exists(), not is_plain)
            with self.mounted() as mount:
                check(f"{words}: Git says the same", self.state(), seen)
                check(f"{words}: it looks at what it did", is_plain or self.told() >= told, True)

    def test_staged_submodule(self) -> None:
        """So does one that has another commit of a submodule, also if Git is to say nothing of that one."""
        one, two = (git(self.repository, "commit-tree", "HEAD^{tree}", "-m", name) for name in ("one", "two"))
        with self.mounted() as mount:
            self.begun(mount)
            settings = '[submodule "module"]\n\tpath = module\n\turl = ./module\n\tignore = all\n'
            (mount.folder / ".gitmodules").write_text(settings)
            (mount.folder / "module").mkdir()
            self.git("update-index", "--add", "--cacheinfo", f"160000,{one},module", ".gitmodules")
            self.git("commit", "-qm", "a submodule")
            self.git("update-index", "--cacheinfo", f"160000,{two},module")
            seen = self.state()
            check("it is staged", two in seen[2], True)
            check("the end", mount.end("SIGTERM"), 0)
        self.goes()
        with self.mounted():
            check("Git says the same", self.state(), seen)

    def test_older_trees(self) -> None:
        """What the overlay has from an older commit, of which nothing else is left, is there after `git gc`; also once
        it lies elsewhere, or has lost its folder `git`, and nothing is kept any more for what it was."""
        with self.mounted() as mount:
            self.begun(mount)
            self.git("rm", "-q", "--cached", "plain.txt")
            self.git("commit", "-q", "--amend", "-m", "without it")
            check("the end", mount.end("SIGTERM"), 0)
        self.goes()
        forget_all(self.repository)
        with self.mounted() as mount:
            check("what is shown here", (mount.folder / "plain.txt").read_text(), "plain\n")
        kept = GitFolder(self.overlay).own_name()
        self.overlay = self.overlay.rename(self.folder / "elsewhere")
        self.check_moved("moved", kept)
        kept = GitFolder(self.overlay).own_name()
        shutil.rmtree(self.overlay / "git")
        self.check_moved("without its folder", kept)
        with self.mounted() as mount:
            check("what is shown", (mount.folder / "plain.txt").read_text(), "plain\n")
            check("what Git says", self.git("status", "--porcelain"), "?? plain.txt")

    def test_lacked_trees(self) -> None:
        """A clone made anew lacks a tree that nobody pushed, and from which the overlay has a file: that is told, and
        all else is shown. If the overlay doesn't know its trees, or has nothing of them any more, nothing is."""
        for words in (["add", "only"], ["rm", "-q", "--cached", "only"]):
            with self.mounted() as mount:
                self.begun(mount)
                if words[0] == "add":
                    (mount.folder / "only").write_text("only here\n")
                self.git(*words)
                self.git("commit", "-q", *(["--amend", "--allow-empty"] if "rm" in words else []), "-m", f"{words}")
                check("the end", mount.end("SIGTERM"), 0)
            lacked = noted(self.overlay)[0]
            self.goes()
        self.check_read("the same repository", [], 0)
        first, self.repository = self.repository, self.folder / "anew"
        git(self.folder, "clone", "-q", "--bare", "--no-local", str(first), str(self.repository))
        wanted = (f"mount-git: the repository lacks what the overlay stood on before ({lacked}): what comes from there "
                  "alone can't be read, and all else is shown")
        self.check_read("a clone", [wanted], errno.EIO)
        known = self.overlay / "trees"
        text = known.read_text()
        for name, other in [("a cut file", text.replace(lacked, lacked[:20])), ("of before", "")]:
            known.write_text(other)
            self.check_read(name, [], errno.EIO)
        known.write_text(text)
        for file in self.overlay.glob("[0-9]*"):
            file.unlink()
        self.check_read("an overlay that was emptied", [], errno.ENOENT)
        check("it knows none", known.exists(), False)
        self.repository = first
        self.check_read("and at last", [], errno.ENOENT)

    def check_read(self, name: str, wanted: list[str], problem: int) -> None:
        """What a mount says, and what comes of reading the file that only one tree has; others are read."""
        with self.mounted() as mount:
            check(f"{name}: told", mount.said(), wanted)
            check(f"{name}: another", (mount.folder / "plain.txt").read_text(), "plain\n")
            try:
                found = 0 if (mount.folder / "only").read_text() == "only here\n" else -1
            except OSError as failed:
                found = failed.errno or -1
            check(f"{name}: that one", found, problem)
            check(f"{name}: the end", mount.end("SIGTERM"), 0)

    def check_moved(self, name: str, kept: pathlib.Path) -> None:
        """Nothing is kept for the overlay's name of before, once it was mounted."""
        with self.mounted() as mount:
            self.begun(mount)
            check(f"{name}: the end", mount.end("SIGTERM"), 0)
        let_go(Repository(str(self.repository)), kept)
        forget_all(self.repository)

    def test_times(self) -> None:
        """No file becomes older than it was: what goes has the time of that, and what stays has its own."""
        with self.mounted() as mount:
            self.begun(mount)
            (mount.folder / "plain.txt").write_text("committed\n")
            self.git("commit", "-qam", "first")
            (mount.folder / "built").write_text("built of it\n")
            check("the end", mount.end("SIGTERM"), 0)
        with self.mounted() as mount:
            before = {name: (mount.folder / name).stat().st_mtime for name in ("plain.txt", "built", "run.sh")}
            check("the end", mount.end("SIGTERM"), 0)
        begun = time.time()
        self.goes()
        with self.mounted() as mount:
            after = {name: (mount.folder / name).stat().st_mtime for name in before}
        check("what stays", after["built"], before["built"])
        check("what goes, and what was never changed", after["plain.txt"] >= begun and after["run.sh"] >= begun, True)

    def test_refused(self) -> None:
        """In the middle of a merge, and with a repository that lacks what the overlay stands on, or has that tree and
        none of its commits."""
        with self.mounted() as mount:
            self.begun(mount)
            self.git("switch", "-qc", "topic")
            (mount.folder / "plain.txt").write_text("topic\n")
            self.git("commit", "-qam", "topic")
            self.git("switch", "-q", self.short)
            (mount.folder / "plain.txt").write_text("other\n")
            self.git("commit", "-qam", "other")
            done = subprocess.run(["git", "merge", "topic"], capture_output=True, cwd=mount.folder,
                                  env={**environment(), **AUTHOR})
            check("a conflict", done.returncode, 1)
            seen = self.state()
            check("the end", mount.end("SIGTERM"), 0)
        wanted = "mount-git: Git is in the middle of a merge in the folder: end that first, by `mount-git git`\n"
        check("a merge", dematerialise(self.repository, self.overlay), (1, "", wanted))
        with self.mounted() as mount:
            check("all is as it was", self.state(), seen)
            self.git("merge", "--abort")
            seen = self.state()
            check("the end", mount.end("SIGTERM"), 0)
        (self.folder / "another").mkdir()
        another, tree = make_repository(self.folder / "another"), noted(self.overlay)[0]
        wanted = f"mount-git: the overlay {self.overlay} stands on the tree {tree}, which the repository lacks\n"
        check("another repository", dematerialise(another, self.overlay), (1, "", wanted))
        git(self.repository, "update-ref", "refs/kept/tree", tree)
        git(another, "fetch", "-q", str(self.repository), "refs/kept/tree:refs/kept/tree")
        git(self.repository, "update-ref", "-d", "refs/kept/tree")
        wanted = f"mount-git: {another} has no commit on which the folder ever stood: it is another repository\n"
        check("another with its tree", dematerialise(another, self.overlay), (1, "", wanted))
        with self.mounted() as mount:
            check("all is as it was then", self.state(), seen)
            check("the end", mount.end("SIGTERM"), 0)
        self.repository = self.repository.rename(self.folder / "moved")
        kept = f"refs/mount-git/{link_to('', GitFolder(self.overlay).own_name()).name}/trees"
        git(self.repository, "update-ref", "-d", f"{kept}/{tree}")
        git(self.repository, "update-ref", kept, "HEAD")
        made = (self.overlay / "git/made").read_bytes()
        status, _, errors = dematerialise(self.repository, self.overlay)
        check("nothing is kept", (status, f"{self.repository} can't keep {tree}" in errors), (1, True))
        check("and nothing taken", (self.overlay / "git/made").read_bytes(), made)
        git(self.repository, "update-ref", "-d", kept)
        self.goes()
        with self.mounted():
            check("the repository was moved", self.state(), seen)

    def test_cut_short_and_strange(self) -> None:
        """If it was cut short before Git's directory followed, a repository that has the tree alone is refused."""
        with self.mounted() as mount:
            self.begun(mount)
            (mount.folder / "plain.txt").write_text("mine\n")
            self.git("commit", "-qam", "mine")
            seen = self.state()
            check("the end", mount.end("SIGTERM"), 0)
        files = [self.overlay / "mount-git", self.overlay / "git/made"]
        texts = [file.read_bytes() for file in files]
        self.goes()
        for file, text in zip(files, texts):
            file.write_bytes(text)
        before = contents(self.overlay)
        strange = make_strange(self.folder, self.repository, self.short)
        wanted = f"mount-git: {strange} has no commit on which the folder ever stood: it is another repository\n"
        done = mount_git("--mountd", MOUNTD, "--overlay", self.overlay, strange, "HEAD", self.folder / "mounted")
        check("a strange one", done, (1, "", wanted))
        check("what Git has", contents(self.overlay), before)
        with self.mounted() as mount:
            check("Git says the same", self.state(), seen)
            check("what was changed", mount_git("changes", mount.folder), (0, "", ""))

    def test_moved_elsewhere(self) -> None:
        """If somebody else moved the branch, the commit on which the folder stood counts, and a line says so."""
        with self.mounted() as mount:
            self.begun(mount)
            (mount.folder / "plain.txt").write_text("mine\n")
            self.git("commit", "-qam", "mine")
            made, seen = self.git("rev-parse", "HEAD"), self.git("diff", "--cached", "HEAD~1")
            check("the end", mount.end("SIGTERM"), 0)
        other = git(self.repository, "commit-tree", "HEAD^{tree}", "-p", "HEAD", "-m", "a colleague's")
        git(self.repository, "update-ref", f"refs/heads/{self.short}", other)
        wanted = (f"mount-git: refs/heads/{self.short} was moved from elsewhere: the folder stands on {made}, "
                  "and on no branch\n")
        status, output, errors = dematerialise(self.repository, self.overlay)
        check("told", (status, errors), (0, wanted))
        check("what is noted", noted(self.overlay)[2], made)
        with self.mounted() as mount:
            check("what Git says", self.git("status", "--porcelain", "-b"), "## HEAD (no branch)")
            check("since the commit before", self.git("diff", "--cached", "HEAD~1"), seen)

    def test_partial_clones(self) -> None:
        """Of a partial clone nothing is fetched for it, and all is there after it."""
        far = make_far_repository(self.folder)
        git(far, "switch", "-qc", "other")
        (far / FOLDER / "file 000").write_text("other\n")
        git(far, "commit", "-qam", "other")
        git(far, "switch", "-q", "-")
        for objects in ("tree:0", "blob:none"):
            clone = Clone(far, self.folder / objects, objects)
            git(clone.path, "branch", "-q", "other", "origin/other")
            self.repository, self.overlay = clone.path, self.folder / f"overlay {objects}"
            with self.mounted() as mount:
                self.begun(mount)
                self.git("switch", "-q", "other")
                (mount.folder / FOLDER / "file 001").write_text("mine\n")
                self.git("commit", "-qam", "mine")
                seen = self.state()
                check("the end", mount.end("SIGTERM"), 0)
            asked = clone.questions()
            self.goes()
            check(f"{objects}: what it asks for", clone.questions() - asked, 0)
            check(f"{objects}: what stays", len(own_contents(self.overlay)), 1)
            with self.mounted() as mount:
                check(f"{objects}: Git says the same", self.state(), seen)
                texts = [(mount.folder / FOLDER / f"file {number}").read_text() for number in ("000", "001")]
                check(f"{objects}: what is shown", texts, ["other\n", "mine\n"])
