"""What the end-to-end scripts share: counted checks, and a repository with everything.

Programs that may hang are `helpers.running`'s, and Git is `helpers.git`'s; tests find both here too.
"""

import os
import pathlib

import paths  # before what stands in scripts/
from helpers import running
from helpers.git import git
from helpers.running import PATIENCE, STILL_RUNNING, doing, ending_of, finished, status_of, watched

__all__ = ["PATIENCE", "STILL_RUNNING", "GivenUp", "check", "closing_line", "doing", "ending_of", "finished", "git",
           "make_repository", "skip", "status_of", "watched", "whole_tree"]

# After this many programs that hang a script ends: there may be thousands of runs left.
MOST_HUNG = 3

passed = 0
failed = 0
skipped = 0


class GivenUp(SystemExit):
    """The script ends, since too many programs hung."""


def check(name: str, got: object, wanted: object) -> None:
    global passed, failed
    if got == wanted:
        passed += 1
        return
    failed += 1
    print(f"FAILED {name}: got {got!r:.300}, wanted {wanted!r:.300}", flush=True)
    if running.hung >= MOST_HUNG:
        raise GivenUp(closing_line(f"given up, since {running.hung} programs hung"))


def skip(name: str, why: str) -> None:
    """Says plainly what isn't checked on this machine, and counts it."""
    global skipped
    skipped += 1
    print(f"SKIPPED {name}: {why}")


# ---- Git


def make_repository(folder: pathlib.Path) -> pathlib.Path:
    """A repository with one of everything that a checkout can hold."""
    inner = folder / "inner"
    inner.mkdir()
    git(inner, "init", "-q")
    (inner / "a").write_text("a\n")
    git(inner, "add", ".")
    git(inner, "commit", "-qm", "inner")
    outer = folder / "outer"
    outer.mkdir()
    git(outer, "init", "-q")
    files = {
        b"plain.txt": b"plain\n",
        b"empty": b"",
        b"with space": b"space\n",
        b"per%cent": b"percent\n",
        b"new\nline": b"line feed\n",
        b"\xc3\xa9t\xc3\xa9": b"ete\n",
        b"\xff\xfe": b"no text\n",
        b"large.bin": bytes((i * i + i // 251) % 256 for i in range(300_000)),
        b"page.bin": b"p" * (2 * 65_536),
        b"dir/a": b"1", b"dir-x": b"2", b"dir.x": b"3", b"dir0": b"4",
    }
    files.update({b"many/%d" % i: b"%d\n" % i for i in range(30)})
    files[b"/".join(b"d%d" % i for i in range(60)) + b"/deep"] = b"deep\n"
    for name, content in files.items():
        place = os.path.join(os.fsencode(outer), name)
        os.makedirs(os.path.dirname(place), exist_ok=True)
        with open(place, "wb") as file:
            file.write(content)
    program = outer / "run.sh"
    program.write_text("#!/bin/sh\n")
    program.chmod(0o755)
    os.symlink("plain.txt", outer / "link")
    os.symlink("no/where", outer / "dir" / "dangling")
    git(outer, "submodule", "--quiet", "add", str(inner), "sub")
    git(outer, "add", "-A")
    git(outer, "commit", "-qm", "outer")
    return outer


def whole_tree(repository: pathlib.Path, tree: str = "HEAD") -> dict[bytes, tuple[bytes, str]]:
    """Each path of the commit, or of that tree: its mode and its object's id."""
    rows = {}
    for row in git(repository, "ls-tree", "-rtz", tree, text=False).split(b"\0")[:-1]:
        head, path = row.split(b"\t", 1)
        mode, _, object_id = head.split()
        rows[path] = (mode, object_id.decode())
    return rows


def closing_line(*more: str) -> int:
    """Prints 'N passed, M failed' and what else is counted, and gives the status."""
    print(", ".join([f"{passed} passed", f"{failed} failed", *more]))
    return 1 if failed else 0
