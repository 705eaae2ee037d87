"""Checks the pages of the manual: their sections, and the examples that they show.

The pages of the tools are those that `manual` writes; that of the program is docs/desync.1. The
examples of a page run one behind the other in a folder that has `examples` and the tools.
"""

from __future__ import annotations

import os
import re
import shutil
import tempfile
from typing import Callable

import house
from desync_tools import commands
from desync_tools.command import INSTALLED
from transcripts import Runner, commands_of, read, words_of

# They stand in this order on each page; a page may have others between.
SECTIONS = ["NAME", "SYNOPSIS", "DESCRIPTION", "OPTIONS"]
SECTIONS += ["EXIT STATUS", "FILES", "EXAMPLES", "SEE ALSO"]
BLOCK = re.compile(r"^\.nf\n(.*?)^\.fi$", re.M | re.S)
PROGRAM = os.path.join(house.ROOT, "docs", "desync.1")


def sections(page: str) -> dict[str, str]:
    """The text of each section of a page."""
    parts = re.split(r"^\.SH (.*)\n", page, flags=re.M)
    return dict(zip(parts[1::2], parts[2::2]))


def plain(text: str) -> str:
    """A text without the signs of the manual's language."""
    return text.replace("\\-", "-").replace("\\&", "").replace("\\e", "\\")


def blocks(page: str) -> list[tuple[str, list[str]]]:
    """Of each example of a page the sentence before it, and its lines."""
    text, found = sections(page).get("EXAMPLES", ""), []
    for block in BLOCK.finditer(text):
        before = text[: block.start()].split("\n.PP\n")
        says = before[-2].split(".PP\n")[-1] if len(before) > 1 else ""
        found.append((says.strip(), plain(block.group(1)).splitlines()))
    return found


def names_of_program(page: str) -> list[str]:
    """The commands of the synopsis of the program."""
    found = re.findall(r"^\.B (desync \w+)$", sections(page).get("SYNOPSIS", ""), re.M)
    return [str(name) for name in found]


def faults(page: str, names: list[str]) -> list[str]:
    """The sections that a page lacks, and the commands without an example."""
    there, examples = sections(page), blocks(page)
    lines = [line for _, block in examples for line in block]
    found = ["no " + name for name in SECTIONS if not there.get(name, "").strip()]
    if [name for name in there if name in SECTIONS] != SECTIONS and not found:
        found.append("the sections stand in another order")
    for name in names:
        if not any((line + " ").startswith("$ %s " % name) for line in lines):
            found.append("no example of " + name)
    if ".TP\n" not in there.get("FILES", ""):
        found.append("no file")
    bare = [block for says, block in examples if not says.endswith((".", ":"))]
    return found + ["no sentence before %s" % block[0] for block in bare]


class Pages:
    """The pages, whose examples a runner runs. `takes` says whether it can answer a command."""

    def __init__(self, runner: Runner, takes: Callable[[list[str]], bool]) -> None:
        self.runner, self.takes = runner, takes
        self.left_out = 0

    def check(self) -> None:
        """Checks all pages."""
        page = read(PROGRAM)
        self.page("docs/desync.1", page, names_of_program(page))
        for tool in commands.names():
            page = self.runner.run(["tools/house/manual", tool])
            self.page(INSTALLED + tool + ".1", page, [INSTALLED + tool])

    def page(self, name: str, page: str, names: list[str]) -> None:
        """Checks a page that is to have an example of some commands."""
        self.runner.compare("the sections of %s" % name, [], faults(page, names))
        with tempfile.TemporaryDirectory() as folder:
            for one in ("examples", "tools"):
                os.symlink(os.path.join(house.ROOT, one), os.path.join(folder, one))
            self.runner.folder = folder
            missing: set[str] = set()
            for _, lines in blocks(page):
                self.example(name, lines, missing)
            self.runner.folder = house.ROOT

    def example(self, name: str, lines: list[str], missing: set[str]) -> None:
        """Runs an example, but for what needs a program or a file that is not there."""
        for line, wanted in commands_of(lines):
            words, output = words_of(line)
            if self.is_there(words) and not missing & set(words):
                self.runner.compare("%s: %s" % (name, line), wanted, self.runner.command(line))
                self.runner.compare("%s: %s: status" % (name, line), 0, self.runner.status)
                missing.discard(output or "")
            else:
                self.left_out += 1
                missing |= {output} if output else set()
                missing |= {after for word, after in zip(words, words[1:]) if word == "-o"}

    def is_there(self, words: list[str]) -> bool:
        """Whether a command can be run."""
        if words[0] == "desync":
            return self.takes(words)
        return words[0].startswith(INSTALLED) or shutil.which(words[0]) is not None
