"""Tables in Markdown for docs/measured/, and the line above them: when, where and beside what they were made."""

import datetime
import os
import pathlib
import re
import subprocess
from collections.abc import Iterable, Iterator

from helpers.programs import TOP

GIB = 1 << 20
TICKS = os.sysconf("SC_CLK_TCK")
# Columns of /proc/stat's first row, after its name; the host gave what was stolen to other machines.
IDLE, WAITING, STOLEN, COLUMNS = 3, 4, 7, 8


def table(heads: Iterable[str], rows: Iterable[Iterable[object]]) -> Iterator[str]:
    """The lines of a table."""
    heads = list(heads)
    yield line_of(heads)
    yield "|---" * len(heads) + "|"
    for row in rows:
        yield line_of(row)


def line_of(cells: Iterable[object]) -> str:
    return "| " + " | ".join(str(cell) for cell in cells) + " |"


class Table:
    """A table that is printed row by row, as its rows are measured."""

    def __init__(self, *heads: str) -> None:
        self.columns = len(heads)
        print("", *table(heads, []), sep="\n", flush=True)

    def row(self, *cells: object) -> None:
        """A row, whose last cells may be left out."""
        print(line_of([*cells, *[""] * (self.columns - len(cells))]), flush=True)


def machine() -> str:
    """The processors that we may use, their model, and the memory."""
    models = re.findall(r"^model name\s*: (.*)$", pathlib.Path("/proc/cpuinfo").read_text(), re.M)
    memory = re.search(r"^MemTotal: +(\d+) kB$", pathlib.Path("/proc/meminfo").read_text(), re.M)
    model = re.sub(r"\((R|TM)\)|\bCPU\b", "", models[0]) if models else "of an unknown model"
    gib = round(int(memory[1]) / GIB) if memory else 0
    return f"{len(os.sched_getaffinity(0))} processors ({' '.join(model.split())}), {gib} GiB"


def commit() -> str:
    """The commit, and whether files of it are changed."""
    words = ["git", "-C", str(TOP)]
    done = subprocess.run([*words, "rev-parse", "--short", "HEAD"], capture_output=True, text=True)
    if done.returncode != 0:
        return "no commit"
    changed = subprocess.run([*words, "diff", "--quiet", "HEAD"]).returncode != 0
    return f"commit {done.stdout.strip()}" + (" with changes" if changed else "")


def toolchain() -> str:
    try:
        return subprocess.run(["rt", "version"], capture_output=True, text=True).stdout.strip() or "no toolchain"
    except OSError:
        return "no toolchain"


def where_and_when() -> str:
    """The date, the commit, the toolchain and the machine, in a line."""
    return f"{datetime.date.today()}, {commit()}, {toolchain()}, {machine()}"


class Others:
    """What other processes use of all processors while this one and those that it starts and awaits measure."""

    def __init__(self) -> None:
        self.start = self.ticks()

    @staticmethod
    def ticks() -> tuple[int, float]:
        """All ticks of all processors until now, and those of them that other processes used."""
        row = pathlib.Path("/proc/stat").read_text().split("\n", 1)[0].split()[1:]
        ticks = [int(word) for word in row[:COLUMNS]]
        used = sum(ticks) - ticks[IDLE] - ticks[WAITING] - ticks[STOLEN]
        return sum(ticks), used - sum(os.times()[:4]) * TICKS

    def share(self) -> float:
        """What they used since this began, of the processors' time."""
        ticks, used = (now - then for now, then in zip(self.ticks(), self.start))
        return max(used, 0.0) / max(ticks, 1)

    def sentence(self, who: str = "") -> str:
        """What ran beside it, if somebody says who that was, and what share of the processors' time was theirs."""
        return f"Beside it {who or 'other processes'} used {self.share():.0%} of the processors' time."


# ---- blocks of a page


def block_of(command: str) -> re.Pattern[str]:
    """The block that a command writes: it stands between two comments, of which the first names the command."""
    return re.compile(rf"(?<=^<!-- made by {re.escape(command)} -->\n).*?(?=^<!-- end -->$)", re.M | re.S)


def write_block(page: pathlib.Path, command: str, lines: Iterable[str]) -> None:
    """Writes the block of the page that the command makes anew."""
    text = "\n" + "\n".join(lines).strip("\n") + "\n\n"
    written, count = block_of(command).subn(lambda _: text, page.read_text())
    if count != 1:
        raise SystemExit(f"{page} has {count} blocks that are made by {command}")
    page.write_text(written)
