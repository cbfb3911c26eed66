"""Kills of a `mountd` that shows a folder in which programs work, and what they had closed there."""

import contextlib
import os
import pathlib
import random
import signal
import subprocess
import time
from collections.abc import Callable
from typing import NamedTuple

from checks import PATIENCE, check
from helpers.git import environment
from mount_folder import MountGit, told
from mount_kernel import mountd_of

FILES, SOURCES, COMMITS = 40, 7, 4
GIT = "git -c user.name=Test -c user.email=test@example.org"


class Work(NamedTuple):
    """What a program does at $AT of a folder with what lies at $IN, telling at $DONE what it closed; how many lines it
    tells; and what is wrong with what it left, by that folder, by what was told, and by what lies at $IN."""

    command: str
    lines: int
    wrong: Callable[[pathlib.Path, list[str], pathlib.Path], list[str]]


def wrong_by_tar(at: pathlib.Path, done: list[str], made: pathlib.Path) -> list[str]:
    """The last file that it told it may have been at."""
    return [name for name in done[:-1] if not name.endswith("/") and differ(at / name, made / name)]


def wrong_by_make(at: pathlib.Path, done: list[str], made: pathlib.Path) -> list[str]:
    """What was compiled is what was compiled elsewhere; and it continues from there."""
    if not done:
        return []
    wrong = [name for name in done if differ(at / name, made / "sources" / name)]
    for path in [*at.glob("*.o"), at / "sum"]:
        if path.name not in done:
            path.unlink(missing_ok=True)
    status, output, errors = told("make -s > /dev/null && ./sum", at, environment())
    return wrong + ([] if (status, output) == (0, b"%d\n" % sum(range(SOURCES))) else [f"{status}: {errors!r}"])


def wrong_by_git(at: pathlib.Path, done: list[str], made: pathlib.Path) -> list[str]:
    """What it had committed is whole, and stands in the branch."""
    if not done:
        return []
    for lock in (at / ".git").rglob("*.lock"):
        lock.unlink()
    _, output, _ = told("git log --format=%H", at, environment())
    status, found, errors = told("git fsck --full --no-dangling 2>&1", at, environment())
    lost = [name for name in done if name not in output.decode().split()]
    return lost + ([] if status == 0 else [f"{found!r}"])


WORKS = {
    "tar": Work('mkdir "$AT" && tar -xvf "$IN/files.tar" -C "$AT" > "$DONE"', FILES, wrong_by_tar),
    "make": Work('cp -r "$IN/fresh" "$AT" && make -s -C "$AT" CC="$IN/cc" > /dev/null', SOURCES + 1, wrong_by_make),
    "git": Work('cp -r "$IN/fresh" "$AT" && cd "$AT" && git init -q -b main && '
                f'for n in $(seq {COMMITS}); do echo $n > file$n && git add -A && {GIT} commit -qm $n && '
                'git rev-parse HEAD >> "$DONE"; done', COMMITS, wrong_by_git),
}


def differ(one: pathlib.Path, other: pathlib.Path) -> bool:
    with contextlib.suppress(OSError):
        return one.read_bytes() != other.read_bytes()
    return True


def make_input(made: pathlib.Path) -> pathlib.Path:
    """Files with their archive, a program's sources, what they are compiled to, and a compiler that tells of it."""
    generator = random.Random(1)
    for number in range(FILES):
        path = made / f"files/{number % 7}/{number}"
        path.parent.mkdir(parents=True, exist_ok=True)
        path.write_bytes(generator.randbytes(generator.choice([0, 100, 5_000, 30_000])))
    fresh = made / "fresh"
    fresh.mkdir()
    names = [f"part{number}" for number in range(SOURCES)]
    for number, name in enumerate(names):
        (fresh / f"{name}.c").write_text(f"int {name}(void) {{ return {number}; }}\n")
    calls = " + ".join(f"{name}()" for name in names)
    heads = "".join(f"int {name}(void);\n" for name in names)
    main = f"int main(void) {{ return printf(\"%d\\n\", {calls}) < 0; }}\n"
    (fresh / "main.c").write_text(f"#include <stdio.h>\n{heads}{main}")
    objects = " ".join(f"{name}.o" for name in [*names, "main"])
    (fresh / "Makefile").write_text(f"sum: {objects}\n\t$(CC) -o $@ {objects}\n\n%.o: %.c\n\t$(CC) -c -o $@ $<\n")
    (made / "cc").write_text('#!/bin/sh\nset -e\ncc "$@"\n[ "$1" != -c ] || echo "$3" >> "$DONE"\n')
    (made / "cc").chmod(0o755)
    for command in ("tar -cf files.tar files", "cp -r fresh sources && make -s -C sources"):
        subprocess.run(["sh", "-ec", command], cwd=made, check=True, capture_output=True)
    return made


def check_kills_at_work(folder: pathlib.Path, repository: pathlib.Path, seed: int, count: int) -> None:
    """mountd is killed while tar, make and Git work in the folder. What they had closed is in the next mount."""
    (folder / "in").mkdir()
    made = make_input(folder / "in")
    generator = random.Random(seed)
    for number in range(count):
        name = list(WORKS)[number % len(WORKS)]
        at = f"{name}-{number}"
        done = folder / f"{at}.done"
        done.touch()
        with MountGit(repository, "HEAD", folder / "mounted", "--overlay", folder / "overlay") as mount:
            more = {**environment(), "AT": at, "IN": str(made), "DONE": str(done)}
            program = subprocess.Popen(["sh", "-euc", WORKS[name].command], cwd=mount.folder, env=more,
                                       stdin=subprocess.DEVNULL, stdout=subprocess.DEVNULL, stderr=subprocess.DEVNULL)
            told_by = wait_for(program, done, generator.randrange(WORKS[name].lines), generator.random() * 0.05)
            os.kill(mountd_of(mount)[-1], signal.SIGKILL)
            program.wait(PATIENCE)
            mount.status()
        with MountGit(repository, "HEAD", folder / "mounted", "--overlay", folder / "overlay") as mount:
            wrong = WORKS[name].wrong(mount.folder / at, told_by, made)
            check(f"kill {number} of seed {seed}, {name}, which had told {len(told_by)} lines", wrong, [])
            check(f"{name}: the end, with nothing said", (mount.end("SIGTERM"), mount.said()), (0, []))


def wait_for(program: subprocess.Popen[bytes], done: pathlib.Path, count: int, seconds: float) -> list[str]:
    """What it told, this many seconds after it told this many lines, or once it ended."""
    end = time.monotonic() + PATIENCE
    while done.read_text().count("\n") < count and program.poll() is None and time.monotonic() < end:
        time.sleep(0.001)
    time.sleep(seconds)
    return done.read_text().split("\n")[:-1]
