"""Shows a commit of a Git repository as a folder, through FUSE, without checking it out.

What is read is fetched when it is first read. What is changed is kept in the overlay, a directory from which the
next mount continues; without one, changes are gone with the mount. Ctrl-C, SIGTERM, SIGHUP and `fusermount3 -u FOLDER`
end it. What a killed mount left on the folder is unmounted first.

It needs Debian's package fuse3, and mountd, which `make run` builds.
"""

import argparse
import contextlib
import errno
import io
import os
import pathlib
import shlex
import signal
import subprocess
import sys
import tempfile
import threading
import time
from collections.abc import Callable, Iterator, Sequence
from typing import BinaryIO, Protocol

from yakembi import (background, commit_folder, control, dematerialise_overlay, dot_git, end_folder, ending,
                     folder_changes, kept_tree, kernel, run_git)
from yakembi.addresses import temporary_place
from yakembi.control import Answers, Fields, tell
from yakembi.git import Refusal, Repository
from yakembi.git_folder import GitFolder, Stand
from yakembi.git_objects import number_of_bytes
from yakembi.kernel import Result, Unclosed, Unopened
from yakembi.overlay import Noted, OverlayFolder, make_folder, refuse_moved_from
from yakembi.partial_clone import AHEAD
from yakembi.programs import add_mountd, check_text, run_mountd, source_of

# A mountd whose folder was just unmounted still closes the overlay, and has it for this long; and so does the run that
# showed it, and has the folder's socket.
SECONDS_LOCKED = 10
SECONDS_BETWEEN_TRIES = 0.05
# .. and so often if it takes longer.
SECONDS_BETWEEN_LATER_TRIES = 1
# Who waits longer for mountd to open an overlay is told.
SECONDS_TO_OPEN = 3.0
SLOW = "isn't open yet: after a kill all its files are looked at, which takes some seconds for thousands"
# As many requests are answered at once if objects may have to be fetched from elsewhere, and nobody says how many.
THREADS = 4
# How long a branch that was moved from elsewhere may go unnoticed, and if nothing can be said, as while the
# repository is away.
SECONDS_BETWEEN_LOOKS, MOST_BETWEEN_LOOKS = 0.5, 30.0
UNOPENED = {
    "Locked": "another program has it open",
    "Damaged": "a file of it is damaged",
    "Dangling": "a file of it is missing",
    "Twice": "two names in it have one file",
    "Device": "it can't be read or written",
    "Memory": "there is no memory to open it",
}
# The folders that Git has in its own one, or may come to have (gitrepository-layout(5)).
GIT_FOLDERS = ("branches", "common", "hooks", "info", "logs", "modules", "objects", "refs", "reftable", "remotes",
               "rr-cache", "worktrees")
# A disk that has no more bytes is full: a directory that is stored may be longer.
FULL = 1 << 16
# What mountd ends with if a file that was open couldn't be stored; the overlay is closed all the same.
UNSTORED = "mountd: store "
ENDED_EARLY = "it was ended before it was mounted"
# What `mountd repair` is for.
REPAIRED = ("Damaged", "Dangling", "Twice")


# ---- what has to be there


def check_fuse() -> None:
    if not kernel.can_mount():
        raise Refusal("fuse3 is missing: apt install fuse3")
    if not os.path.exists("/dev/fuse"):
        raise Refusal("this system has no /dev/fuse")


def mount_point(path: str) -> str:
    """The folder, empty or not there yet. What a killed mount left on it is taken away."""
    try:
        names = os.listdir(path)
    except FileNotFoundError:
        names = []
    except OSError as problem:
        if problem.errno != errno.ENOTCONN:
            raise
        kernel.unmount(path)
        left = f"{path} was left by a mount that was killed, and"
        try:
            names = os.listdir(path)
        except OSError:
            raise Refusal(f"{left} can't be unmounted") from None
        tell(f"{left} is unmounted")
    if os.path.ismount(os.path.realpath(path)):
        raise Refusal(f"something is mounted on {path}")
    if names:
        raise Refusal(f"{path} isn't empty")
    return os.path.abspath(path)


def lies_in(place: str, folder: str) -> bool:
    """Whether it is the folder, or below it; neither has links in its path."""
    return os.path.commonpath([place, folder]) == folder


def check_apart(what: str, place: str | None, folder: str) -> None:
    """A mount hides what its folder held, so that nothing of its own can lie there."""
    if place is not None:
        place, folder = os.path.realpath(place), os.path.realpath(folder)
        if lies_in(place, folder):
            raise Refusal(f"the {what} {place} may not lie in the folder {folder}, which hides it")


def check_hides_nothing(folder: str, repository: Repository) -> None:
    """The folder may lie in a working directory, and in a bare repository beside what Git has there. In that it would
    hide what Git and mountd read."""
    folder = os.path.realpath(folder)
    for name in GIT_FOLDERS:
        own = os.path.realpath(os.path.join(repository.common_folder, name))
        if lies_in(folder, own):
            raise Refusal(f"the folder {folder} may not lie in {own}, which is Git's own")


# ---- what runs below


@contextlib.contextmanager
def overlay_at(path: str | None, repository: Repository) -> Iterator[OverlayFolder]:
    """The overlay's directory; a temporary one if none is named, which the repository forgets in the end."""
    with contextlib.ExitStack() as stack:
        is_named = path is not None
        if path is None:
            path = stack.enter_context(tempfile.TemporaryDirectory(prefix="mount-git.", dir=temporary_place()))
        # Before anything else is written: one that is refused stays as it is.
        found = OverlayFolder(path)
        if is_named:
            stack.callback(GitFolder(path).name_place)
        else:
            stack.callback(GitFolder(path).unlink)
            stack.callback(tell_of_unnamed, repository, GitFolder(path))
            stack.callback(kept_tree.let_go, repository, GitFolder(path).own_name())
        yield stack.enter_context(contextlib.closing(found))


def tell_of_unnamed(repository: Repository, folder: GitFolder) -> None:
    """Names the commit that was made in a folder that goes, if no branch has it."""
    found = folder.head_says(repository)
    if found is not None and found.commit is not None and found.branch is None and len(folder.logged()) != 1:
        done = repository.git("rev-list", "-n1", found.commit, "--not", "--branches", "--remotes", "--tags")
        if done.returncode != 0 or done.stdout.decode().strip() == found.commit:
            where = shlex.quote(repository.path)
            tell(f"no branch has the commit {found.commit}: git -C {where} branch NAME {found.commit} makes one")


def tree_to_show(repository: Repository, revision: str, overlay: OverlayFolder) -> Noted:
    """The tree's id, the time of what comes from it, and its commit: as the overlay has them, if it was mounted before.
    """
    commit = repository.commit_of(revision)
    tree, seconds = commit or (repository.tree_of(revision), int(time.time()))
    named = Noted(tree, seconds, repository.commit_id(revision) if commit else None)
    git, noted = GitFolder(overlay.path), overlay.noted()
    if overlay.is_fresh():
        # A folder that was never changed stands on what is mounted now.
        noted = with_commit(repository, git, named._replace(commit=noted and noted.commit), named.commit)
        overlay.forget_stood_on()
        overlay.write_note(noted)
        return noted
    root = overlay.state_root() or (noted.tree if noted else None)
    if root is None:
        raise Refusal(f"the overlay {overlay.path} was left by a killed run, and doesn't say on which tree it stands")
    if root != tree:
        # What a partial clone lacks its remote may have.
        if not repository.remotes() and repository.git("cat-file", "-e", root).returncode != 0:
            raise overlay.lacked(root)
    if noted is not None and noted.tree != root:
        # Nobody could say any more that what Git has there is of that tree.
        git.check_known_to(repository, noted.tree, noted.commit)
    if noted is None or noted.tree != root:
        noted = dematerialise_overlay.followed(repository, overlay, root) or Noted(root, seconds)
    if root != tree and not stands_there(repository, git, noted, named.commit, repository.branch_of(revision)):
        tell(f"{revision} is the tree {tree}, but the overlay stands on {root}, and that is shown; "
             "another tree wants another overlay")
    if root == tree and (noted.commit is None or repository.commit_id(noted.commit) is None):
        noted = with_commit(repository, git, noted, named.commit)
    overlay.write_note(noted)
    return noted


def with_commit(repository: Repository, git: GitFolder, noted: Noted, commit: str | None) -> Noted:
    """The note of a folder that stands on that commit from now on; but if Git worked in it for another repository,
    of which this one knows nothing, the note names the commit that it named."""
    return noted if git.is_strange_to(repository, noted.tree, noted.commit) else noted._replace(commit=commit)


def stands_there(repository: Repository, git: GitFolder, noted: Noted, commit: str | None, branch: str | None) -> bool:
    """Whether the folder, with its changes, stands on that commit, as after a commit of what it shows, and on no other
    branch."""
    found = git.head_says(repository) if git.is_at(noted.tree) else None
    if found is None:
        return commit is not None and noted.commit == commit
    is_branch = branch is None or found.branch in (None, branch)
    return commit is not None and found.commit == commit and is_branch and git.stood_on(found) is None


class Served(Protocol):
    """A mount that makes room for somebody's work: its overlay is closed for a moment, or it only stands still. Or it
    is finished."""

    def while_closed(self, work: Callable[[], Result]) -> Result: ...

    def while_still(self, work: Callable[[], Result]) -> Result: ...

    def finish(self, by_force: bool) -> None: ...


class Asked:
    """What other runs of `mount-git` ask of this one."""

    def __init__(self, below: Served, mountd: str | os.PathLike[str], source: Sequence[str],
                 repository: Repository, revision: str, overlay: OverlayFolder) -> None:
        self.below = below
        self.mountd = os.fspath(mountd)
        self.source = source
        self.repository = repository
        self.branch = repository.branch_of(revision)
        self.overlay = overlay
        self.git = GitFolder(overlay.path)
        # The branch that the folder was on until somebody else moved it, as long as nobody was told.
        self.left: str | None = None
        # Those of connections whose commit is under way, each as long as it is there.
        self.taken: list[pathlib.Path] = []

    def answers(self) -> Answers:
        return {"about": self.about, "changes": self.changes, "snapshot": self.snapshot, "committed": self.committed,
                "end": self.end}

    def noted(self) -> Noted:
        noted = self.overlay.noted()
        if noted is None:
            raise Refusal(f"the overlay {self.overlay.path} doesn't say any more on which tree it stands")
        return noted

    def note(self, noted: Noted) -> None:
        """That is what the overlay stands on from now on."""
        if noted != self.overlay.noted():
            self.overlay.write_note(noted)
            kept_tree.keep_commit(self.repository, self.git.own_name(), noted.commit)

    def about(self, fields: Fields, folder: pathlib.Path) -> Fields:
        return self.facts()

    def facts(self) -> Fields:
        """The repository, the overlay, a path of that which is gone with the mount, the tree that changes are listed
        against, and what the folder stands on."""
        return {"repository": os.path.abspath(self.repository.path), "overlay": self.overlay.path,
                "held": self.overlay.held_path(), "tree": self.noted().tree, **self.stand()._asdict()}

    def stand(self) -> Stand:
        """What the folder stands on. If Git worked in it, its HEAD says that, and the note follows. A branch that
        it was on until then is told once."""
        found = self.look()
        left, self.left = self.left, None
        return found._replace(left=left)

    def look(self) -> Stand:
        """What the folder stands on, and if it isn't on a branch any more, that is kept until it is told."""
        noted, found = self.noted(), None
        if self.git.is_strange_to(self.repository, noted.tree, noted.commit):
            # That has the tree, and continues with nothing that Git has there.
            return Stand(None, None)
        if self.git.is_at(noted.tree):
            self.left = self.git.adopt(self.repository, noted.commit) or self.left
            found = self.git.stands_on(self.repository)
        if found is not None and found.commit is not None:
            self.note(noted._replace(commit=found.commit))
        self.left = (found.left if found else None) or self.left
        if found is None and noted.commit is not None and self.repository.commit_id(noted.commit) is None:
            # As when the repository is another one, that has the tree.
            return Stand(None, None)
        return found or Stand(noted.commit, self.branch)

    def changes(self, fields: Fields, folder: pathlib.Path) -> Fields:
        """A file with the lines of what was changed, the overlay, and what the folder stands on. It may be in use."""
        told = folder / "changes"
        with open(told, "wb") as lines:
            try:
                self.below.while_still(lambda: self.run(lines, "changes", "--running"))
            except Refusal:
                self.repository.check()
                raise
        return {"lines": str(told), "overlay": self.overlay.path, **self.stand()._asdict()}

    def snapshot(self, fields: Fields, folder: pathlib.Path) -> Fields:
        """The tree that is shown, the folder with its own objects, and what is left out of it."""
        into = folder / "objects"
        self.taken = [place for place in self.taken if place.exists()] + [folder]
        with ends_told(self.overlay):
            done = self.below.while_closed(lambda: self.run(subprocess.PIPE, "snapshot", "--into", str(into)))
        left_out = [line.removeprefix("mountd: ") for line in done.stderr.decode(errors="replace").splitlines()]
        return {"tree": done.stdout.decode().strip(), "folder": str(into), "left_out": left_out}

    def run(self, output: int | BinaryIO, command: str, *more: str) -> subprocess.CompletedProcess[bytes]:
        """A run of `mountd` over the overlay, whose output goes there."""
        return run_mountd(output, self.mountd, command, "--root", self.noted().tree, *self.source, "--overlay",
                          self.overlay.path, *more)

    def committed(self, fields: Fields, folder: pathlib.Path) -> Fields:
        """The next commit is put on that one, on that branch."""
        commit, branch = control.text_of(fields, "commit"), control.text_of(fields, "branch")
        noted = self.noted()
        self.note(noted._replace(commit=commit))
        self.branch = branch
        if self.git.is_at(noted.tree):
            self.git.go_on(self.repository, commit, branch)
        self.taken = [place for place in self.taken if place != folder]
        return {}

    def end(self, fields: Fields, folder: pathlib.Path) -> Fields:
        """The folder isn't mounted any more, and the overlay is closed."""
        if "by_force" not in fields and any(place.exists() for place in self.taken):
            raise Refusal("a commit of the folder is under way: end it once that is done, or by --force")
        with ends_told(self.overlay):
            self.below.finish("by_force" in fields)
        return {}


@contextlib.contextmanager
def ends_told(overlay: OverlayFolder) -> Iterator[None]:
    """Refuses with the reason why a mountd that had the overlay didn't end well, or none came after it."""
    try:
        yield
    except Unclosed as problem:
        why = f"{problem}{said_of_disk(overlay.path)}"
        if str(problem).startswith(UNSTORED):
            line = "what a program had written and neither closed nor synchronised couldn't be stored, and is lost"
            raise Refusal(f"{line}; the overlay {overlay.path} is closed: {why}") from None
        raise Refusal(f"the overlay {overlay.path} wasn't closed well: {why}") from None
    except Unopened as problem:
        line = f"mountd wasn't opened again, and nothing is mounted any more: {problem}"
        raise Refusal(f"{line}{said_of_disk(overlay.path)}") from None


def said_of_disk(overlay: str) -> str:
    """What a line about the overlay ends with, if its disk is full."""
    with contextlib.suppress(OSError):
        found = os.statvfs(overlay)
        # Some disks have no number of files.
        if found.f_bavail * found.f_frsize < FULL or found.f_files and not found.f_favail:
            return "; the overlay's disk is full"
    return ""


@contextlib.contextmanager
def reachable(showing: kernel.Showing, answers: Answers, is_to_stay: bool) -> Iterator[threading.Lock]:
    """Answers other runs, but while somebody has the lock; if they can't reach this one the folder is shown all the
    same. One that showed the folder before may still end: it is waited for a little, and once it has ended this one
    answers all the same."""
    turn, done = threading.Lock(), threading.Event()
    with contextlib.ExitStack() as stack:
        def why_not() -> Refusal | OSError | None:
            try:
                stack.enter_context(control.serving(showing.folder, answers, is_to_stay, turn))
            except (Refusal, OSError) as problem:
                return problem
            return None

        def go_on() -> None:
            while not done.wait(SECONDS_BETWEEN_LATER_TRIES):
                problem = why_not()
                if problem is None:
                    tell(f"what {showing.folder} shows can be told and committed now")
                    break
                if not is_taken(problem):
                    tell(f"what {showing.folder} shows can't be told or committed: {control.said_of(problem)}")
                    break

        end = time.monotonic() + SECONDS_LOCKED
        while is_taken(problem := why_not()) and time.monotonic() < end and not showing.is_ended:
            time.sleep(SECONDS_BETWEEN_TRIES)
        trying = threading.Thread(target=go_on, daemon=True)
        if problem is not None and not showing.is_ended:
            tell(f"what {showing.folder} shows can't be told or committed: {control.said_of(problem)}")
            if is_taken(problem):
                trying.start()
        try:
            yield turn
        finally:
            done.set()
            if trying.is_alive():
                trying.join()


def is_taken(problem: Refusal | OSError | None) -> bool:
    """Whether another run has the folder's socket."""
    return isinstance(problem, OSError) and problem.errno == errno.EADDRINUSE


@contextlib.contextmanager
def watched(asked: Asked, turn: threading.Lock) -> Iterator[None]:
    """Looks at the branch that the folder is on, as long as the block runs: if somebody else moves it the folder
    leaves it, before Git begins anything on what it doesn't show."""
    done = threading.Event()
    def watch() -> None:
        seen: tuple[object, ...] = ()
        failed: tuple[object, ...] | None = None
        pause, again = 0.0, 0.0
        while not done.wait(SECONDS_BETWEEN_LOOKS):
            # Whatever goes wrong, who asks next is told, and we look on.
            with contextlib.suppress(Exception):
                signs = asked.git.signs(asked.repository)
                # What can't be looked at as it is now is looked at again, and ever more seldom.
                if signs == seen or signs == failed and time.monotonic() < again:
                    continue
                pause = min(2 * pause, MOST_BETWEEN_LOOKS) if signs == failed else SECONDS_BETWEEN_LOOKS
                failed, again = signs, time.monotonic() + pause
                with turn:
                    asked.look()
                    seen, failed = signs, None
    watching = threading.Thread(target=watch, daemon=True)
    watching.start()
    try:
        yield
    finally:
        done.set()
        watching.join(control.SECONDS_TO_TAKE)


@contextlib.contextmanager
def shown_till_the_end(showing: kernel.Showing) -> Iterator[None]:
    """Nothing stays mounted that nobody could ask or end, whatever goes wrong here."""
    try:
        yield
    except BaseException:
        showing.end()
        raise


@contextlib.contextmanager
def told_if_slow(line: str) -> Iterator[None]:
    """Prints the line once, if the block isn't soon done."""
    timer = threading.Timer(SECONDS_TO_OPEN, tell, [line])
    timer.start()
    try:
        yield
    finally:
        timer.cancel()


def show(words: argparse.Namespace, repository: Repository, noted: Noted, source: list[str], overlay: OverlayFolder,
         folder: str, shown: Callable[[], object]) -> None:
    """Shows the folder by `mountd fuse`, until nothing is mounted any more. Once it is shown, `shown` is told."""
    make_folder(folder)
    refuse_moved_from(overlay.path)
    # Objects that lie here are read so soon that no other request need go before, and one thread wakes nobody.
    threads = words.threads or (THREADS if "--remote" in source else 1)
    showing = kernel.Showing(words.mountd, noted.tree, source, overlay.path, folder, SECONDS_LOCKED, noted.seconds,
                             threads)
    asked = Asked(showing, words.mountd, source, repository, words.revision, overlay)
    with ending.calls(showing.end):
        try:
            with told_if_slow(f"the overlay {overlay.path} {SLOW}"):
                showing.open()
        except Unopened as refusal:
            if showing.is_ended:
                raise Refusal(ENDED_EARLY) from None
            repair = [str(words.mountd), "repair", "--root", noted.tree, "--overlay", overlay.path]
            raise unopened(str(refusal), overlay.path, shlex.join(repair)) from None
        except FileNotFoundError as problem:
            raise Refusal(f"{words.mountd} can't be run ({problem.strerror}): `make run` builds it") from None
        answering = reachable(showing, asked.answers(), words.background is not None)
        with shown_till_the_end(showing), answering as turn, ends_told(overlay):
            with turn:
                dot_git.renew(asked.git, asked.facts, showing)
            if showing.is_ended:
                showing.wait()
                raise Refusal(ENDED_EARLY)
            print(f"mounted {folder}", flush=True)
            shown()
            with watched(asked, turn):
                showing.wait()


def unopened(word: str, overlay: str, repair: str) -> Refusal:
    if word not in UNOPENED:
        return Refusal(f"mountd didn't start: {word}")
    line = f"the overlay {overlay} can't be opened: {word}, {UNOPENED[word]}"
    if word in REPAIRED:
        return Refusal(f"{line}; this takes out what can't be read, and tells it: {repair}")
    return Refusal(line + said_of_disk(overlay))


def make_absolute(words: argparse.Namespace) -> None:
    """The places that are named are still these, if we go elsewhere, or our folder is gone."""
    words.repository = os.path.abspath(words.repository)
    if words.overlay is not None:
        words.overlay = os.path.abspath(words.overlay)
    if os.sep in os.fspath(words.mountd):
        words.mountd = os.path.abspath(words.mountd)


def run(words: argparse.Namespace) -> None:
    check_fuse()
    make_absolute(words)
    repository = Repository(words.repository)
    folder = mount_point(words.folder)
    check_apart("repository", repository.path, folder)
    check_hides_nothing(folder, repository)
    check_apart("overlay", words.overlay, folder)
    check_text(words.overlay or "")
    check_apart("file", words.background, folder)
    shown = background.begin(words.background) if words.background else lambda: None
    with overlay_at(words.overlay, repository) as overlay:
        noted = tree_to_show(repository, words.revision, overlay)
        kept_tree.keep(repository, GitFolder(overlay.path).own_name(), noted)
        kept_tree.tell_of_lacked(repository, overlay, noted.tree)
        with source_of(repository, noted.tree, words.ahead, words.log) as source:
            show(words, repository, noted, source, overlay, folder, shown)


def number_of_threads(text: str) -> int:
    with contextlib.suppress(ValueError):
        if 1 <= int(text) <= kernel.MOST_THREADS:
            return int(text)
    raise argparse.ArgumentTypeError(f"{text!r} is no number from 1 to {kernel.MOST_THREADS}")


def parser() -> argparse.ArgumentParser:
    found = argparse.ArgumentParser(prog="mount-git", description=__doc__,
                                    formatter_class=argparse.RawDescriptionHelpFormatter)
    found.add_argument("repository", metavar="REPO", help="the Git repository")
    found.add_argument("revision", metavar="REV", help="a commit, or a tree, as HEAD:folder")
    found.add_argument("folder", metavar="FOLDER", help="where it is shown; made if it isn't there")
    found.add_argument("--overlay", metavar="DIR", help="where changes are kept")
    add_mountd(found)
    found.add_argument("--ahead", metavar="BYTES", type=number_of_bytes, default=AHEAD,
                       help="of a partial clone, fetch at most this many bytes before a program asks for them: "
                       "subdirectories, and other files of a directory whose files are read; 0: none; "
                       f"{AHEAD} if left out")
    found.add_argument("--kernel", action="store_true",
                       help="has no effect any more: mountd always speaks the kernel's protocol itself")
    found.add_argument("--threads", metavar="N", type=number_of_threads,
                       help=f"how many requests are answered at once; if left out {THREADS} of a partial clone, "
                            "with --log and for a path that is no UTF-8, and else 1")
    found.add_argument("--background", metavar="FILE",
                       help="run on in the background once it is mounted, and write to the end of that file what there "
                       "is to report")
    found.add_argument("--log", action="store_true", help="print each object that is fetched on standard error")
    return found


# The words that name a path, as the usage has them.
PATHS = {"repository": "REPO", "folder": "FOLDER", "overlay": "--overlay", "background": "--background"}


def check_paths(words: argparse.Namespace) -> None:
    """An empty path, as of a shell's variable that isn't set, would be the directory where the command is run."""
    for name, shown in PATHS.items():
        if vars(words).get(name) == "":
            raise Refusal(f"{shown} is '', which is no path")


# What is done with a folder that another run shows. A repository of such a name is named with its path, as `./commit`.
COMMANDS: dict[str, tuple[Callable[[argparse.Namespace], None], Callable[[], argparse.ArgumentParser]]] = {
    "changes": (folder_changes.changes, folder_changes.changes_parser),
    "commit": (commit_folder.commit, commit_folder.commit_parser),
    "dematerialise": (dematerialise_overlay.dematerialise, dematerialise_overlay.dematerialise_parser),
    "end": (end_folder.end, end_folder.end_parser),
    "git": (run_git.git, run_git.git_parser),
    "fsmonitor": (run_git.fsmonitor, run_git.fsmonitor_parser),
}


def main() -> int:
    # A folder's name may be any bytes.
    if isinstance(sys.stdout, io.TextIOWrapper):
        sys.stdout.reconfigure(errors="surrogateescape")
    command, parsed = COMMANDS.get("".join(sys.argv[1:2]), (run, parser))
    words = parsed().parse_args(sys.argv[1 if command is run else 2 :])
    # What is held is released, also if a terminal is closed.
    ending.exit_at(signal.SIGTERM, signal.SIGHUP)
    if command is run:
        ending.exit_at(signal.SIGINT)
    elif ending.is_heeded(signal.SIGINT):
        signal.signal(signal.SIGINT, signal.default_int_handler)
    try:
        check_paths(words)
        command(words)
        if sys.stdout is not None:
            sys.stdout.flush()
    except (Refusal, OSError) as problem:
        if isinstance(problem, BrokenPipeError) and command is not run:
            # Who read what is printed wants no more of it: that ends us as it ends Git and `ls`.
            signal.signal(signal.SIGPIPE, signal.SIG_DFL)
            signal.raise_signal(signal.SIGPIPE)
        tell(control.said_of(problem))
        return 1
    except KeyboardInterrupt:
        return 1
    return 0
