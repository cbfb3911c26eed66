"""A commit that `mount-git` shows through FUSE: the world's tools in it, and how it begins and ends."""

import contextlib
import itertools
import mmap
import os
import pathlib
import random
import shutil
import signal
import subprocess
import sys
import threading
import time
import zlib
from collections import Counter
from collections.abc import Callable, Iterable, Iterator
from concurrent.futures import ThreadPoolExecutor

from answering import AUTHOR
from checks import PATIENCE, check, finished, git, make_repository
from clones import FILES, FOLDER, MOST_QUESTIONS, Clone, blobs_in, make_far_repository, trees_on_the_way
from folder_operations import Folder, compare, outcome, shown
from helpers.git import DEEP, EMPTY_TREE, environment
from mount_differences import tried
from mount_folder import (BUILDS, CHANGES, COPIES, ENDINGS, LOOKS, Both, Large, MountGit, asked_for, check_own,
                          checkout, children, make_many_files, renamed, said_by, told_anywhere)
from programs import MOUNT_GIT, MOUNTD
from yakembi import client, kernel
from yakembi.overlay_files import DIRECTORY, OWN, PLAIN, directory_body, entry_bytes, file_bytes
from yakembi.tree_model import Values


# ---- tools


def check_tools(folder: pathlib.Path, repository: pathlib.Path) -> None:
    """Tools say and make in the mounted folder what they do in a plain one, and the next mount shows it all."""
    plain, given = checkout(repository, folder / "plain"), checkout(repository, folder / "in")
    subprocess.run(["tar", "-cf", given / "notes.tar", "-C", given, "notes"], check=True)
    (given / "bytes").write_bytes(random.Random(1).randbytes(1_000_000))
    with MountGit(repository, "HEAD", folder / "mounted", "--overlay", folder / "overlay") as mount:
        both = Both(repository, mount.folder, plain, folder)
        check("diff -r beside a checkout", said_by("diff", "-r", "--no-dereference", mount.folder, plain), (0, []))
        run_tools(both)
        check("tools: what stands at the end", shown(Folder(mount.folder)), shown(Folder(plain)))
        check("tools: what was copied out", shown(Folder(both.outs[0])), shown(Folder(both.outs[1])))
        check("tools: the end, with nothing said", (mount.end("SIGTERM"), mount.said()), (0, []))
    with MountGit(repository, "HEAD", folder / "mounted", "--overlay", folder / "overlay") as mount:
        check("tools: mounted again", shown(Folder(mount.folder)), shown(Folder(plain)))
        both.check("tools: a build goes on", "make --no-print-directory -C hello && hello/hello", "cc")
        check("tools: the second end, with nothing said", (mount.end("SIGTERM"), mount.said()), (0, []))


def run_tools(both: Both) -> None:
    for name, command in LOOKS + CHANGES:
        both.check(name, command)
    for name, command in BUILDS:
        both.check(name, command, "cc")
    for name, command in COPIES:
        both.check(name, command, "rsync")


def check_random_operations(folder: pathlib.Path, seed: int) -> None:
    """Random operations through FUSE and on a plain directory have the same outcomes, and leave the same."""
    repository = make_repository(folder)
    plain = checkout(repository, folder / "plain")
    with MountGit(repository, "HEAD", folder / "mounted") as mount:
        compare("mounted", random.Random(seed), Folder(mount.folder), Folder(plain))
        check("mounted: the end, with nothing said", (mount.end("SIGTERM"), mount.said()), (0, []))


# ---- inode numbers


def check_numbers(folder: pathlib.Path) -> None:
    """Each of many files has an inode number of its own, and keeps it over a rename, and in the next mount."""
    repository, paths = make_many_files(folder)
    def numbers(mount: MountGit, of: Iterable[str]) -> dict[str, int]:
        return {path: os.lstat(f"{mount.folder}{path}").st_ino for path in of}
    with MountGit(repository, "HEAD", folder / "mounted", "--overlay", folder / "overlay") as mount:
        before = numbers(mount, paths)
        check_own("mounted", before)
        os.rename(mount.folder / "d00", mount.folder / "e")
        moved = {renamed(path): number for path, number in before.items()}
        check("mounted: numbers over a rename", numbers(mount, moved), moved)
        check("mounted: the end, with nothing said", (mount.end("SIGTERM"), mount.said()), (0, []))
    with MountGit(repository, "HEAD", folder / "mounted", "--overlay", folder / "overlay") as mount:
        check("mounted: numbers in the next mount", numbers(mount, moved), moved)
        check("mounted: a listing", sorted(os.listdir(mount.folder / "e")), sorted(os.listdir(repository / "d00")))
        (mount.folder / "made").write_text("made")
        check_own("mounted again", moved | numbers(mount, ["/made"]))
        check("mounted: the second end, with nothing said", (mount.end("SIGTERM"), mount.said()), (0, []))


# ---- beginnings and ends


def check_endings(folder: pathlib.Path, repository: pathlib.Path) -> None:
    """Each way to end it, in use or not, leaves an overlay that was closed, nothing mounted and nothing running."""
    overlay = folder / "overlay"
    for number, how in enumerate(ENDINGS):
        with MountGit(repository, "HEAD", folder / "mounted", "--overlay", overlay) as mount:
            names = sorted(path.name for path in mount.folder.glob("made *"))
            check(f"{how}: what was made before", names, [f"made {before}" for before in range(number)])
            (mount.folder / f"made {number}").write_text(how)
            check_ended(how, mount, overlay)
    with MountGit(repository, "HEAD", folder / "mounted", "--overlay", overlay) as mount:
        with contextlib.suppress(OSError), open(mount.folder / "made 0", "rb"):
            check_ended("Ctrl-C", mount, overlay)
    with MountGit(repository, "HEAD", folder / "mounted", "--overlay", overlay) as mount:
        copy = subprocess.Popen(["cp", "-r", mount.folder / "notes", mount.folder / "copy"], stderr=subprocess.DEVNULL)
        wait_for(mount.folder / "copy")
        check_ended("SIGTERM", mount, overlay)
        check("ended in a copy: it fails", copy.wait(PATIENCE) != 0, True)
    with MountGit(repository, "HEAD", folder / "mounted", "--overlay", overlay) as mount:
        made = [(mount.folder / f"made {number}").read_text() for number in range(len(ENDINGS))]
        check("ended: all is there", made, list(ENDINGS))
        check("ended: the last end", mount.end("SIGTERM"), 0)


def check_ended(how: str, mount: MountGit, overlay: pathlib.Path) -> None:
    running = children(mount.process.pid)
    # Of a whole repository mountd reads the objects itself, and no other program runs.
    check(f"{how}: what runs below", [b"--git" in command_of(process) for process in running], [True])
    check(f"{how}: the end, with nothing said", (mount.end(how), mount.said()), (0, []))
    check(f"{how}: nothing is mounted", mount.is_mounted(), False)
    check(f"{how}: nothing runs", left_of(running), [])
    check(f"{how}: the overlay is closed", (overlay / "0").exists(), True)


def left_of(running: list[int]) -> list[int]:
    """The processes that run on: one whose parent is gone ends with its input, which takes it a moment."""
    end = time.monotonic() + PATIENCE
    while (left := [process for process in running if os.path.exists(f"/proc/{process}")]) and time.monotonic() < end:
        time.sleep(0.01)
    return left


def wait_for(path: pathlib.Path) -> None:
    wait_until(path.exists)


def wait_until(is_so: Callable[[], bool]) -> None:
    end = time.monotonic() + PATIENCE
    while not is_so() and time.monotonic() < end:
        time.sleep(0.001)


def command_of(process: int) -> list[bytes]:
    return pathlib.Path(f"/proc/{process}/cmdline").read_bytes().split(b"\0")


def check_background(folder: pathlib.Path, repository: pathlib.Path) -> None:
    """In the background a mount stays when who began it has ended, and writes to a file. `mount-git end` ends it, with
    what was changed in the overlay, and not while it is in use unless by force; what can't be mounted is reported at
    once."""
    place, log, overlay = folder / "mounted", folder / "a log", folder / "overlay"
    words = MountGit.words("--overlay", overlay, "--background", log, repository, "HEAD", place)
    check("background: a mount", said_by(*words), (0, [f"mounted {place}"]))
    try:
        (place / "made").write_text("made")
        line = f"mount-git: {place} is in use: leave the folder and close its files, or end it by --force"
        with open(place / "made", "rb"):
            check("background: in use", said_by(MOUNT_GIT, "end", place), (1, [line]))
        check("background: it goes on", (place / "made").read_text(), "made")
        line = f"mount-git: {place / 'dir'} isn't the top of a mount: that is {place}"
        check("background: the end, from below", said_by(MOUNT_GIT, "end", place / "dir"), (1, [line]))
        check("background: the end", said_by(MOUNT_GIT, "end", place), (0, []))
        check("background: the overlay is closed", (overlay / "0").exists(), True)
        check("background: again", said_by(*words), (0, [f"mounted {place}"]))
        with open(place / "made", "rb"):
            check("background: by force", said_by(MOUNT_GIT, "end", "--force", place), (0, []))
    finally:
        kernel.unmount(str(place))
    told = told_anywhere(log.read_text().splitlines())
    check("background: what is told", told, [f"mounted {place}"] * 2)
    check("background: nothing to end", said_by(MOUNT_GIT, "end", place),
          (1, [f"mount-git: no mount-git of this user shows {place}"]))
    status, lines = said_by(*words[:-2], "no-such", place)
    check("background: refused", (status, len(lines), lines[0].startswith("mount-git: ")), (1, 1, True))
    check("background: and told in the file too", told_anywhere(log.read_text().splitlines())[2:], lines)


def check_second_mount(folder: pathlib.Path, repository: pathlib.Path) -> None:
    """An overlay that is mounted is refused to another, in one line."""
    overlay = folder / "overlay of two"
    with MountGit(repository, "HEAD", folder / "mounted", "--overlay", overlay) as mount:
        line = f"mount-git: the overlay {overlay} is in use by another run of mount-git"
        told = said_by(*MountGit.words(repository, "HEAD", folder / "second", "--overlay", overlay))
        check("a second mount", told, (1, [line]))
        (mount.folder / "made").write_text("made")
        check("a second mount: the first goes on", (mount.folder / "made").read_text(), "made")
        overlay.rename(folder / "moved away")
        status, lines = said_by(*MountGit.words(repository, "HEAD", folder / "second", "--overlay", overlay))
        check("a second mount: where the first's overlay lay", (status, "was moved or removed" in lines[-1]), (1, True))
        shutil.rmtree(overlay)
        (folder / "moved away").rename(overlay)
        check("a second mount: the end of the first", mount.end("SIGTERM"), 0)
    words = [MOUNTD, "stdio", "--root", git(repository, "rev-parse", "HEAD^{tree}"), "--git", repository / ".git"]
    session = client.start([str(word) for word in [*words, "--overlay", overlay]])
    check("another program's overlay: what is there", session.read(b"/made", 0, 9), b"made")
    began = time.monotonic()
    threading.Timer(1, session.close).start()
    with MountGit(repository, "HEAD", folder / "mounted", "--overlay", overlay) as mount:
        check("another program's overlay: waited for", time.monotonic() - began >= 1, True)
        check("another program's overlay: what is shown", (mount.folder / "made").read_text(), "made")
        check("another program's overlay: the end", (mount.end("SIGTERM"), mount.said()), (0, []))


def check_ends_at_once(folder: pathlib.Path, repository: pathlib.Path) -> None:
    """Two that end it at once, or one and a signal, or one and an unmount, each wait for its end, and are told of
    nothing."""
    def end(mount: MountGit) -> None:
        ends.append(subprocess.Popen([MOUNT_GIT, "end", mount.folder], stdout=subprocess.PIPE,
                                     stderr=subprocess.STDOUT))
        wait_until(lambda: sockets_of(mount.process.pid) > len(ends))

    others: dict[str, Callable[[MountGit], object]] = {
        "another": end, "SIGTERM": ENDINGS["SIGTERM"], "an unmount": lambda mount: kernel.unmount(str(mount.folder)),
    }
    for how, other in others.items():
        with MountGit(repository, "HEAD", folder / "mounted", "--overlay", folder / "overlay") as mount:
            ends: list[subprocess.Popen[bytes]] = []
            # Who would end it asks mountd something before that.
            with standing(mount):
                end(mount)
                other(mount)
            told = [(one.communicate(timeout=PATIENCE)[0], one.returncode) for one in ends]
            check(f"ended by two, {how}: what these are told", told, [(b"", 0)] * len(ends))
            check(f"ended by two, {how}: the end", (mount.status(), mount.said()), (0, []))


def check_next_mount(folder: pathlib.Path, repository: pathlib.Path) -> None:
    """While a mount that was unmounted still closes its overlay, the folder may be mounted again, and elsewhere another
    one: these stay as the first one ends, which the kernel has taken its number from, and can be asked."""
    for again, how in itertools.product(["mounted", "elsewhere"], ["nothing", "SIGTERM"]):
        name = f"a mount behind one that ends, {again}, {how}"
        with MountGit(repository, "HEAD", folder / "mounted", "--overlay", folder / "overlay") as first:
            with standing(first):
                ENDINGS["fusermount3 -u"](first)
                following = MountGit(repository, "HEAD", folder / again, "--overlay", folder / "another overlay")
                wait_until(following.is_mounted)
                if how != "nothing":
                    ENDINGS[how](first)
                    time.sleep(0.1)
            check(f"{name}: the first one's end", (first.status(), first.said()), (0, []))
            with following:
                check(f"{name}: it is shown", (following.folder / "plain.txt").read_bytes(), b"plain\n")
                check(f"{name}: it can be asked", said_by(MOUNT_GIT, "changes", following.folder), (0, []))
                check(f"{name}: its end", (following.end("SIGTERM"), following.said()), (0, []))


@contextlib.contextmanager
def standing(mount: MountGit) -> Iterator[None]:
    """Its mountd stands still in the block."""
    mountd, = children(mount.process.pid)
    os.kill(mountd, signal.SIGSTOP)
    try:
        yield
    finally:
        os.kill(mountd, signal.SIGCONT)


def sockets_of(process: int) -> int:
    found = 0
    for place in pathlib.Path(f"/proc/{process}/fd").iterdir():
        with contextlib.suppress(OSError):
            found += os.readlink(place).startswith("socket:")
    return found


def check_refusals(folder: pathlib.Path, repository: pathlib.Path) -> None:
    """What can't be mounted is refused in one line."""
    full = folder / "full"
    full.mkdir()
    (full / "file").write_text("")
    empty = folder / "empty"
    empty.mkdir()
    killed = folder / "killed"
    killed.write_text("#!/bin/sh\nkill -9 $$\n")
    killed.chmod(0o755)
    (folder / "damaged").mkdir()
    (folder / "damaged/1").write_bytes(b"no directory")
    for name, words in [
        ("a folder that isn't empty", (repository, "HEAD", full)),
        ("a file as the folder", (repository, "HEAD", full / "file")),
        ("no such revision", (repository, "no-such", empty)),
        ("a file's revision", (repository, "HEAD:plain.txt", empty)),
        ("no repository", (folder / "nothing", "HEAD", empty)),
        ("a file as the overlay", (repository, "HEAD", empty, "--overlay", full / "file")),
        ("an overlay in the folder", (repository, "HEAD", empty, "--overlay", empty / "overlay")),
        ("an overlay that is the folder", (repository, "HEAD", empty, "--overlay", empty)),
        ("an overlay that is no text", (repository, "HEAD", empty, "--overlay", folder / "\udcff")),
        ("a log in the folder", (repository, "HEAD", empty, "--background", empty / "log")),
        ("a log that can't be made", (repository, "HEAD", empty, "--background", folder / "nothing/log")),
        ("no mountd", (repository, "HEAD", empty, "--mountd", folder / "nothing")),
        ("a mountd that says nothing", (repository, "HEAD", empty, "--mountd", "/bin/false")),
        ("a mountd that is killed at once", (repository, "HEAD", empty, "--mountd", killed)),
        ("an overlay of no known tree", (repository, "HEAD", empty, "--overlay", folder / "damaged")),
    ]:
        status, lines = said_by(*MountGit.words(*words))
        check(f"refused: {name}", (status, len(lines), lines[0].startswith("mount-git: ")), (1, 1, True))
        check(f"refused: {name}: nothing is mounted", os.path.ismount(empty), False)
    check_dangling(folder, repository, empty)
    check_hiding(folder, repository)
    check_damaged(repository, empty, folder / "damaged")
    check("refused: the folder is as it was", list(empty.iterdir()), [])


def check_dangling(folder: pathlib.Path, repository: pathlib.Path, empty: pathlib.Path) -> None:
    """A link that leads nowhere, as the folder and as the overlay."""
    link = folder / "dangling"
    link.symlink_to(folder / "nowhere")
    for words in (link,), (empty, "--overlay", link):
        wanted = 1, [f"mount-git: {link}: Not a directory"]
        check("refused: a link that leads nowhere", said_by(*MountGit.words(repository, "HEAD", *words)), wanted)


def check_hiding(folder: pathlib.Path, repository: pathlib.Path) -> None:
    """A folder that would hide what is read of the repository; others in its directories are none such."""
    inside, beside, nothing, link = repository / "inside", repository / ".git/own", folder / "nothing", folder / "link"
    inside.mkdir()
    link.symlink_to(repository / ".git/refs/tags")
    objects, refs = repository / ".git/objects", repository / ".git/refs"
    not_run = f"{nothing} can't be run (No such file or directory): `make run` builds it"
    for place, at, line in [
        (inside, inside, f"the repository {inside} may not lie in the folder {inside}, which hides it"),
        (repository, link, f"the folder {refs / 'tags'} may not lie in {refs}, which is Git's own"),
        (inside, objects / "new", f"the folder {objects / 'new'} may not lie in {objects}, which is Git's own"),
        (repository, inside, not_run), (repository, beside, not_run),
    ]:
        words = MountGit.words(place, "HEAD", at, "--mountd", nothing)
        check(f"refused: {at} with {place}", said_by(*words), (1, [f"mount-git: {line}"]))
    inside.rmdir()
    beside.rmdir()


def check_damaged(repository: pathlib.Path, empty: pathlib.Path, overlay: pathlib.Path) -> None:
    """An overlay whose root can't be read, and one of which a file is missing: the command that is named mends it."""
    root = git(repository, "rev-parse", "HEAD^{tree}")
    (overlay / "mount-git").write_text(f"{root} 17\n")
    words = MountGit.words(repository, "HEAD", empty, "--overlay", overlay)
    repair = f"{MOUNTD} repair --root {root} --overlay {overlay}"
    ending = f"; this takes out what can't be read, and tells it: {repair}"
    line = f"mount-git: the overlay {overlay} can't be opened: Damaged, a file of it is damaged{ending}"
    check("refused: a damaged overlay", (said_by(*words), os.path.ismount(empty)), ((1, [line]), False))
    (overlay / "1").write_bytes(file_bytes(DIRECTORY, directory_body(entry_bytes(PLAIN, OWN, 2, b"gone"))))
    line = f"mount-git: the overlay {overlay} can't be opened: Dangling, a file of it is missing{ending}"
    check("refused: a missing file", said_by(*words), (1, [line]))
    done = finished(repair.split(), capture_output=True)
    check("refused: it is repaired", (done.returncode, done.stdout, done.stderr), (0, b"cut /gone: missing\n", b""))
    with MountGit(repository, "HEAD", empty, "--overlay", overlay) as mount:
        check("repaired: what is shown", os.listdir(mount.folder), [])
        check("repaired: the end", (mount.end("SIGTERM"), mount.said()), (0, []))


def check_moved_revision(folder: pathlib.Path) -> None:
    """An overlay stays on the commit that it was made on, and the next mount says so."""
    repository = make_repository(folder)
    before = git(repository, "rev-parse", "HEAD^{tree}")
    with MountGit(repository, "HEAD", folder / "mounted", "--overlay", folder / "overlay") as mount:
        (mount.folder / "made").write_text("made")
        seen = shown(Folder(mount.folder))
        check("moved: the first end", (mount.end("SIGTERM"), mount.said()), (0, []))
    (repository / "plain.txt").write_text("moved on\n")
    git(repository, "commit", "-qam", "moved on")
    after = git(repository, "rev-parse", "HEAD^{tree}")
    with MountGit(repository, "HEAD", folder / "mounted", "--overlay", folder / "overlay") as mount:
        check("moved: what is shown", shown(Folder(mount.folder)), seen)
        check("moved: the end", mount.end("SIGTERM"), 0)
        told = [before in line and after in line for line in mount.said()]
        check("moved: one line, with both trees", told, [True])


def check_kept(folder: pathlib.Path) -> None:
    """What an overlay stands on the repository keeps, though nothing else names it, so that it can be shown and
    committed, until the overlay is gone for long."""
    repository, overlay = make_repository(folder), folder / "overlay"
    with MountGit(repository, "HEAD", folder / "mounted", "--overlay", overlay) as mount:
        seen = shown(Folder(mount.folder))
        check("kept: the first end", (mount.end("SIGTERM"), mount.said()), (0, []))
    tree, before = git(repository, "rev-parse", "HEAD^{tree}"), git(repository, "rev-parse", "HEAD")
    (repository / "plain.txt").write_text("other\n")
    git(repository, "commit", "-qa", "--amend", "-m", "other")
    forget_all(repository)
    with MountGit(repository, "HEAD", folder / "mounted", "--overlay", overlay) as mount:
        check("kept: what is shown", shown(Folder(mount.folder)), seen)
        (mount.folder / "made").write_text("made")
        status, _ = said_by(MOUNT_GIT, "commit", mount.folder, "-m", "made", "--branch", "saved")
        check("kept: it is committed", (status, git(repository, "rev-parse", "saved^")), (0, before))
        check("kept: the second end", mount.end("SIGTERM"), 0)
    git(repository, "branch", "-D", "saved")
    overlay.rename(folder / "moved")
    refs = git(repository, "for-each-ref", "refs/mount-git").splitlines()
    check("kept: the tree and the commit", len(refs), 2)
    for seconds, wanted in [(time.time(), refs), (0, refs), (0, refs), (0, [])]:
        with MountGit(repository, "HEAD", folder / "mounted") as mount:
            check("kept: of no overlay", (mount.end("SIGTERM"), mount.said()), (0, []))
        check("kept: since then", git(repository, "for-each-ref", "refs/mount-git").splitlines(), wanted)
        # The first mount saw that the overlay isn't there, and said when; the third that it still isn't.
        for mark in (repository / ".git/mount-git").glob("*.missing*"):
            os.utime(mark, (seconds, seconds))
    forget_all(repository)
    status, lines = said_by(*MountGit.words(repository, "HEAD", folder / "mounted", "--overlay", folder / "moved"))
    check("kept: what is gone is told", (status, tree in lines[0] and "the repository lacks" in lines[0]), (1, True))


def forget_all(repository: pathlib.Path) -> None:
    """The repository keeps what a ref has, and nothing else."""
    git(repository, "reflog", "expire", "--expire=now", "--all")
    git(repository, "gc", "-q", "--prune=now")


def check_signed_commit(folder: pathlib.Path) -> None:
    """A signed commit's time is its own, also if Git's settings have it show signatures."""
    repository = make_repository(folder)
    tree = git(repository, "rev-parse", "HEAD^{tree}")
    who = "Test <test@example.org> 1000000000 +0000"
    signed = (f"tree {tree}\nauthor {who}\ncommitter {who}\ngpgsig -----BEGIN SSH SIGNATURE-----\n none\n"
              " -----END SSH SIGNATURE-----\n\nsigned\n")
    commit = git(repository, "hash-object", "-t", "commit", "-w", "--stdin", data=signed.encode())
    git(repository, "config", "log.showSignature", "true")
    told = git(repository, "show", "-s", "--format=%ct", commit)
    check("signed: Git tells of the signature", told != "1000000000", True)
    with MountGit(repository, commit, folder / "mounted", "--overlay", folder / "overlay") as mount:
        noted = (folder / "overlay/mount-git").read_text()
        check("signed: what is noted of it", noted, f"{tree} {1_000_000_000:020} {commit}\n")
        check("signed: the commit's time", (mount.folder / "plain.txt").stat().st_mtime, 1_000_000_000)
        check("signed: the end, with nothing said", (mount.end("SIGTERM"), mount.said()), (0, []))


def check_empty_tree(folder: pathlib.Path) -> None:
    """A commit of the empty tree, which Git knows without storing it, is an empty directory that takes files."""
    repository = make_repository(folder)
    commit = git(repository, "commit-tree", "-m", "empty", EMPTY_TREE)
    stored = git(repository, "cat-file", "--batch-all-objects", "--batch-check=%(objectname)").split()
    check("an empty tree: it isn't stored", EMPTY_TREE in stored, False)
    with MountGit(repository, commit, folder / "mounted") as mount:
        check("an empty tree: what stands in it", os.listdir(mount.folder), [])
        (mount.folder / "new").write_bytes(b"new")
        check("an empty tree: with a new file", os.listdir(mount.folder), ["new"])
        check("an empty tree: the end, with nothing said", (mount.end("SIGTERM"), mount.said()), (0, []))


def check_damaged_repository(folder: pathlib.Path) -> None:
    """A file whose object is lost, or damaged, is EIO, and a line names a lost one if lines were asked for; all else
    is answered."""
    repository = make_repository(folder)
    with MountGit(repository, "HEAD", folder / "mounted", "--log") as mount:
        for name, content, lines in [("plain.txt", None, 1), ("run.sh", b"blob 6\0other\n", 0)]:
            object_id = git(repository, "rev-parse", f"HEAD:{name}")
            place = repository / ".git/objects" / object_id[:2] / object_id[2:]
            place.unlink()
            if content is not None:
                place.write_bytes(zlib.compress(content))
            check(f"damaged: {name} is EIO", outcome(Folder(mount.folder), "getattr", (name.encode(),)), "EIO")
            told = mount.lines().count(f"git-objects: missing {object_id}")
            check(f"damaged: a line for {name}", told, lines)
        check("damaged: the rest goes on", (mount.folder / "dir/a").read_text(), "1")
        check("damaged: the end, with nothing said", (mount.end("SIGTERM"), mount.said()), (0, []))


def check_laziness(folder: pathlib.Path, large: Large) -> None:
    """Of 50,000 files one file costs the objects on its path, and `grep -r` in a folder that folder's."""
    with MountGit(large.repository, "HEAD", folder / "mounted", "--log") as mount:
        deep = mount.folder.joinpath(*map(os.fsdecode, large.path))
        check("lazily mounted: a deep file", deep.read_bytes(), large.content)
        check("lazily mounted: what one file costs", asked_for(mount.log), sorted(large.deep))
        status, found = said_by("grep", "-rl", "d18", mount.folder / os.fsdecode(large.folder))
        check("lazily mounted: grep -r", (status, len(found)), (0, 500))
        check("lazily mounted: what it costs", asked_for(mount.log), sorted([*large.deep, *large.beside]))
        check("lazily mounted: the end", mount.end("SIGTERM"), 0)


def check_status(folder: pathlib.Path, large: Large) -> None:
    """In a mount of 50,000 files `git status` asks for the trees at the paths of what was changed, as `changes` does,
    and looks at no file that wasn't: each is fetched that is looked at. So does a commit of it, and a switch to a new
    branch asks for nothing."""
    words: list[str | pathlib.Path] = [sys.executable, MOUNT_GIT, "git", folder / "mounted"]
    trees = large.deep - {git(large.repository, "rev-parse", f"HEAD:{DEEP}")}
    trees.add(git(large.repository, "rev-parse", f"HEAD:{os.fsdecode(large.folder)}"))
    branch, before = git(large.repository, "symbolic-ref", "HEAD"), git(large.repository, "rev-parse", "HEAD")
    with MountGit(large.repository, "HEAD", folder / "mounted", "--log", "--overlay", folder / "overlay") as mount:
        (mount.folder / DEEP).write_bytes(b"changed\n")
        (mount.folder / os.fsdecode(large.folder) / "new").write_bytes(b"new\n")
        told = f" M {DEEP}\n?? {os.fsdecode(large.folder)}/new\n".encode()
        left = f"?? {os.fsdecode(large.folder)}/new\n".encode()
        rows: list[tuple[str, pathlib.Path, list[str], bytes, set[str]]] = [
            ("the first", folder, ["status", "--porcelain"], told, trees),
            ("one in the folder", mount.folder, ["status", "--porcelain"], told, trees),
            ("a commit", folder, ["commit", "-qam", "deep"], b"", trees),
            ("after it", folder, ["status", "--porcelain"], left, trees),
            ("a branch", folder, ["switch", "-qc", "begun"], b"", set())]
        for name, at, more, wanted, cost in rows:
            asked = Counter(asked_for(mount.log))
            done = subprocess.run([*words, *more], capture_output=True, env={**environment(), **AUTHOR}, cwd=at)
            check(f"status: {name}", (done.returncode, done.stdout, done.stderr), (0, wanted, b""))
            check(f"status: what {name} costs", Counter(asked_for(mount.log)) - asked, Counter(cost))
        check("status: a .git", said_by(*words[:-1], "--dot-git", mount.folder), (0, []))
        asked = Counter(asked_for(mount.log))
        by_git = said_by("git", "-C", mount.folder, "status", "--porcelain")
        check("status: by it", by_git, (0, left.decode().splitlines()))
        check("status: what it costs by it", Counter(asked_for(mount.log)) - asked, Counter(trees))
        check("status: what was committed", git(large.repository, "show", f"begun:{DEEP}"), "changed")
        check("status: the end", mount.end("SIGTERM"), 0)
    git(large.repository, "update-ref", branch, before)


# ---- partial clones

# A question is two exchanges with the remote, of which each takes 50 ms.
ROUND_TRIPS = "slow 0.1"


def check_partial_clones(folder: pathlib.Path) -> None:
    """In a clone that lacks its objects a folder of 500 files is listed and searched by few questions. How long that
    takes is printed, beside the same where nothing is far."""
    repository = make_far_repository(folder)
    with MountGit(repository, "HEAD", folder / "near") as mount:
        near = search(mount)
        check("near: the end, with nothing said", (mount.end("SIGTERM"), mount.said()), (0, []))
    for objects, most in MOST_QUESTIONS.items():
        clone = Clone(repository, folder / objects, objects)
        clone.behave(ROUND_TRIPS)
        with MountGit(clone.path, "HEAD", folder / objects / "mounted") as mount, ThreadPoolExecutor(1) as pool:
            searching = pool.submit(search, mount)
            told = [said_by(MOUNT_GIT, "changes", mount.folder) for _ in range(3)]
            seconds = searching.result()
            check(f"{objects}: changes while objects are waited for", told, [(0, [])] * 3)
            print(f"{objects}: a search through {FILES} files took {seconds:.1f} s, near {near:.1f} s")
            check(f"{objects}: the end, with nothing said", (mount.end("SIGTERM"), mount.said()), (0, []))
        check(f"{objects}: {clone.questions()} questions", clone.questions() <= most, True)
        trees = trees_on_the_way(repository) if objects == "tree:0" else set()
        check(f"{objects}: what came, each once", clone.arrived(), sorted({*blobs_in(repository, FOLDER), *trees}))
        check(f"{objects}: what is left", clone.leftovers(), [])


def search(mount: MountGit) -> float:
    """Lists FOLDER and searches through it; how many seconds that takes."""
    began = time.monotonic()
    names = os.listdir(mount.folder / FOLDER)
    status, found = said_by("grep", "-rc", "file", mount.folder / FOLDER)
    seconds = time.monotonic() - began
    check("what is searched", (len(names), status, len(found), found[0].endswith(":20")), (FILES, 0, FILES, True))
    return seconds


def check_failing_remote(folder: pathlib.Path) -> None:
    """A remote that fails is EIO for what it was asked for, and nothing more; a mount ends in its silence too."""
    repository = make_far_repository(folder)
    clone = Clone(repository, folder / "clone", "tree:0")
    with MountGit(clone.path, "HEAD", folder / "mounted", "--overlay", folder / "overlay") as mount:
        place = Folder(mount.folder)
        check("failing: before", (mount.folder / "README").read_text(), "README\n" * 20)
        clone.behave("dead")
        for name in [b"near/by/there/0", b"long"]:
            check(f"failing: {name!r} is EIO", outcome(place, "read", tuple(name.split(b"/")), 0, 1), "EIO")
        told = [line for line in mount.lines() if line.startswith("git-objects: origin gave none of ")]
        check("failing: a line for each, at least", (len(told) >= 2, mount.said()), (True, []))
        check("failing: the rest goes on", (mount.folder / "README").read_text(), "README\n" * 20)
        (mount.folder / "made").write_text("made")
        clone.behave("good")
        check("failing: after it", (mount.folder / "near/by/there/0").read_text(), "near/by/there/0\n" * 20)
        clone.behave("silent")
        asked = clone.questions()
        reader = subprocess.Popen(["cat", mount.folder / "long"], stdout=subprocess.DEVNULL, stderr=subprocess.DEVNULL)
        while clone.questions() == asked:
            time.sleep(0.01)
        running = children(mount.process.pid)
        check("silent: the end", (mount.end("SIGTERM"), reader.wait(PATIENCE) != 0), (0, True))
        check("silent: nothing runs on", left_of(running), [])
        check("silent: what is left", clone.leftovers(), [])
    with MountGit(clone.path, "HEAD", folder / "mounted", "--overlay", folder / "overlay") as mount:
        clone.behave("good")
        check("silent: mounted again", (mount.folder / "made").read_text(), "made")
        check("silent: the second end, with nothing said", (mount.end("SIGTERM"), mount.said()), (0, []))


def check_open_files(folder: pathlib.Path, repository: pathlib.Path) -> None:
    """What programs do with open files and attributes is as docs/MOUNT-GIT.md says."""
    with MountGit(repository, "HEAD", folder / "mounted") as mount:
        top = mount.folder
        (top / "gone").write_text("abc")
        with open(top / "gone", "r+b", buffering=0) as file:
            (top / "gone").unlink()
            check("open: a removed file is there", (file.read(), file.write(b"def"), os.pread(file.fileno(), 9, 0)),
                  (b"abc", 3, b"abcdef"))
        (top / "new").write_text("new")
        with open(top / "plain.txt", "rb") as file:
            (top / "new").rename(top / "plain.txt")
            check("open: a replaced file is there", (file.read(), (top / "plain.txt").read_text()), (b"plain\n", "new"))
        with open(top / "mapped", "w+b") as file:
            file.truncate(10_000)
            with mmap.mmap(file.fileno(), 10_000) as view:
                view[5_000:5_003] = b"xyz"
        wanted = bytes(5_000) + b"xyz" + bytes(4_997)
        check("open: written through memory", (top / "mapped").read_bytes(), wanted)
        command = "for i in 1 2 3 4 5; do echo line >> log; done"
        writers = [subprocess.Popen(["sh", "-c", command], cwd=top) for _ in range(4)]
        check("open: four append", [writer.wait(PATIENCE) for writer in writers], [0] * 4)
        check("open: each line is there", (top / "log").read_text(), "line\n" * 20)
        check_attributes(top, repository)
        check("open: the end, with nothing said", (mount.end("SIGTERM"), mount.said()), (0, []))


def check_attributes(top: pathlib.Path, repository: pathlib.Path) -> None:
    place = Folder(top)
    committed = int(git(repository, "log", "-1", "--format=%ct"))
    check("attributes: a file's time is the commit's", (top / "run.sh").stat().st_mtime, committed)
    before = (top / "log").stat().st_mtime_ns
    (top / "log").write_text("again")
    check("attributes: a change's time rises", before < (top / "log").stat().st_mtime_ns, True)
    os.utime(top / "log", (1, 2))
    check("attributes: a time that is set", (top / "log").stat().st_mtime, 2)
    for words, wanted in [("-m -d @5", 5), ("-a -d @7", 5), ("-d @9", 9)]:
        check(f"attributes: touch {words}", said_by("touch", *words.split(), top / "log"), (0, []))
        check(f"attributes: the time after touch {words}", (top / "log").stat().st_mtime, wanted)
    check("attributes: touch -m", said_by("touch", "-m", top / "log"), (0, []))
    check("attributes: the clock's time", before < (top / "log").stat().st_mtime_ns, True)
    os.chmod(top / "log", 0o600)
    check("attributes: of a mode the executable bit", outcome(place, "getattr", (b"log",))[1], 0o644)
    os.chmod(top / "log", 0o700)
    check("attributes: where it is set", outcome(place, "getattr", (b"log",))[1], 0o755)
    check("attributes: a name's length", os.statvfs(top).f_namemax, 255)
    calls: list[tuple[str, Callable[..., object], Values]] = [
        ("a hard link", os.link, (top / "log", top / "other")),
        ("a pipe", os.mkfifo, (top / "pipe",)),
        ("another owner", os.chown, (top / "log", 12_345, -1)),
    ]
    for name, call, values in calls:
        check(f"attributes: {name} is EPERM", tried(call, *values), "EPERM")
    with open(top / "log", "rb") as file:
        check("attributes: fsync", tried(os.fsync, file.fileno()), None)
