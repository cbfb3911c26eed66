"""The manual's pages, docs/man/mountd.1 and mount-git.1, from what the help texts are made of and from the pages.

The options of `mountd` and their texts are those of the sources in crates/mountd_options/src, which `mountd COMMAND
--help` prints; its commands, its statuses and its first paragraph are docs/MOUNTD.md's. Those of `mount-git` are its
parser's, which `mount-git --help` prints. `tests/manual --write` writes both.
"""

import argparse
import pathlib
import re
import sys
from collections.abc import Iterator
from typing import NamedTuple

from crates import TOP
from yakembi import mount_git

GRAMMAR = TOP / "crates" / "mountd_options" / "src"
PAGE = TOP / "docs" / "MOUNTD.md"
FOLDER = TOP / "docs" / "man"
FUNCTION = re.compile(r"^(?:pub\(crate\) )?fn (\w+)<'a>\(.*?^}$", re.M | re.S)
TEXT = re.compile(r'^const (\w+): &str = "(.*)";$', re.M)
# In the body of a function: an option that is added, or the line that another function makes and adds to.
STEP = re.compile(r'with_(required|optional|flag)\(\s*alloc,\s*line,\s*(?:\("([\w-]+)", "(\w+)"\)|"([\w-]+)"),\s*'
                  r'(?:"([^"]*)"|(\w+)),?\s*\)|(mount_line|overlay_line|with_kept_options)\(\s*alloc,')
ABOUT = re.compile(r'(?:(?:mount|overlay)_line\(\s*alloc,\s*"(\w+)",\s*|Command::new\(alloc, "(\w+)"\)\s*'
                   r'\.about\(\s*)"([^"]*)"')


class Option(NamedTuple):
    name: str
    value: str | None
    text: str
    is_required: bool

    def usage(self) -> str:
        word = f"--{self.name}" + (f" {self.value}" if self.value else "")
        return word if self.is_required else f"[{word}]"


class Command(NamedTuple):
    name: str
    about: str
    options: list[Option]


# ---- what the help texts are made of


def options_of(function: str, bodies: dict[str, str], texts: dict[str, str]) -> Iterator[Option]:
    """The options that a function adds to a line, those of the functions that it calls among them."""
    for kind, name, value, flag, text, constant, called in STEP.findall(bodies[function]):
        if called:
            yield from options_of(called, bodies, texts)
        else:
            yield Option(name or flag, value or None, text or texts[constant], kind == "required")


def grammar() -> str:
    return "\n".join(path.read_text() for path in sorted(GRAMMAR.glob("*.rt")))


def commands() -> list[Command]:
    """The commands of `mountd`, each with its options in the order of its help."""
    source = grammar()
    bodies = {found[1]: found[0].partition("{\n")[2] for found in FUNCTION.finditer(source)}
    texts = dict(TEXT.findall(source))
    found = []
    for called in re.findall(r"= (\w+_line)\(alloc\)\?;", bodies["command_line"]):
        about = ABOUT.search(bodies[called])
        if about is None:
            sys.exit(f"man_pages: {GRAMMAR} has no text for {called}")
        found.append(Command(about[1] or about[2], about[3], list(options_of(called, bodies, texts))))
    return found


def program_about() -> str:
    """What the program's own help says first."""
    found = re.search(r'Command::new\(alloc, "mountd"\)\s*\.about\("([^"]*)"\)', grammar())
    return found[1] if found else ""


# ---- what the page says


def rows_below(heading: str, page: pathlib.Path = PAGE) -> list[list[str]]:
    """The rows of the table below a heading of a page, which is docs/MOUNTD.md unless another is named."""
    text = f"\n{page.read_text()}".partition(f"\n{heading}\n")[2]
    lines = [line for line in text.partition("\n#")[0].splitlines() if line.startswith("|")]
    return [[cell.strip() for cell in line.strip("|").split(" | ")] for line in lines[2:]]


def first_paragraph() -> str:
    return re.sub(r" There are \w+ subcommands:$", "", PAGE.read_text().split("\n\n")[1])


# ---- pages in roff


def escaped(text: str) -> str:
    text = text.replace("\\", "\\e").replace("-", "\\-")
    return "\\&" + text if text.startswith((".", "'")) else text


def plain(text: str) -> str:
    """A text in Markdown as roff has it."""
    text = re.sub(r"\[([^]]*)\]\([^)]*\)", r"\1", escaped(text))
    return re.sub(r"(`|\*\*)(.+?)\1", r"\\fB\2\\fR", text)


def head(name: str, about: str) -> list[str]:
    source = f"Yakembi {(TOP / 'VERSION').read_text().strip()}"
    return ['.\\" Written by `tests/manual --write`.', f'.TH {escaped(name).upper()} 1 "" "{source}"', ".SH NAME",
            f"{escaped(name)} \\- {escaped(about)}", ".SH SYNOPSIS"]


def item(word: str, text: str) -> list[str]:
    return [".TP", word, text]


def bold_option(option: Option) -> str:
    return f"\\fB{escaped('--' + option.name)}\\fR" + (f" \\fI{option.value}\\fR" if option.value else "")


def mountd_page() -> str:
    lines = head("mountd", program_about())
    for command in commands():
        words = " ".join(option.usage() for option in command.options)
        lines += [f".B mountd {command.name}", escaped(words), ".br"]
    lines += [".SH DESCRIPTION", plain(first_paragraph()), ".SH COMMANDS"]
    for name, text in rows_below("# The program `mountd`"):
        lines += item(plain(name), plain(text))
    for command in commands():
        lines += [f".SS mountd {command.name}", escaped(command.about) + "."]
        for option in command.options:
            lines += item(bold_option(option), escaped(option.text) + ".")
    lines += [".SH EXIT STATUS"]
    for status, text in rows_below("## Statuses"):
        lines += item(f".B {status}", plain(text))
    lines += [".SH SEE ALSO", "mount\\-git(1); docs/MOUNTD.md and docs/OPERATIONS.md of its source"]
    return "\n".join(lines) + "\n"


def usage_of(parser: argparse.ArgumentParser) -> str:
    return escaped(" ".join(parser.format_usage().removeprefix(f"usage: {parser.prog} [-h] ").split()))


def paragraphs(text: str) -> list[str]:
    return [line for paragraph in text.strip().split("\n\n") for line in (".PP", plain(" ".join(paragraph.split())))]


def arguments(parser: argparse.ArgumentParser) -> list[str]:
    lines = []
    for action in parser._actions:
        if isinstance(action, argparse._HelpAction):
            continue
        metavar = f"\\fI{action.metavar}\\fR" if action.metavar else ""
        words = [f"\\fB{escaped(word)}\\fR" for word in action.option_strings]
        lines += item(" ".join([*words, *([metavar] if metavar else [])]), plain(action.help or "") + ".")
    return lines


def mount_git_page() -> str:
    parser = mount_git.parser()
    others = [made() for _, made in mount_git.COMMANDS.values()]
    about, _, text = (parser.description or "").strip().partition("\n\n")
    lines = [*head("mount-git", about.rstrip(".")), ".B mount\\-git", usage_of(parser)]
    for other in others:
        lines += [".br", f".B {escaped(other.prog)}", usage_of(other)]
    lines += [".SH DESCRIPTION", *paragraphs(text), ".SH OPTIONS", *arguments(parser)]
    for other in others:
        lines += [f".SH {escaped(other.prog.upper())}", *paragraphs(other.description or ""), *arguments(other)]
    lines += [".SH ENVIRONMENT", *item(".B MOUNTD", "the program to run, unless an option names it"),
              ".SH SEE ALSO", "mountd(1); docs/MOUNT\\-GIT.md of its source"]
    return "\n".join(lines) + "\n"


PAGES = {"mountd.1": mountd_page, "mount-git.1": mount_git_page}
