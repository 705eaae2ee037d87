"""Finds the program `desync` and asks it.

It is the one that the variable DESYNC of the environment names; else the one that is installed with
the tools or built in their repository; else the one on the path. Where there is none, the tools do
what they can without it.
"""

from __future__ import annotations

import os
import shutil
import stat
import subprocess
import tempfile
from typing import Optional

from desync_tools.text import BadText, as_bytes, file_text

HERE = os.path.dirname(os.path.realpath(__file__))
PLACES = ("../../../../bin/desync", "../../crates/desync/out/desync")
REFUSED, BAD_WORDS, UNREAD = 1, 2, 3
UNREAD_LINE = "desync: cannot read "


def path() -> Optional[str]:
    """Where the program is."""
    if "DESYNC" in os.environ:
        return os.environ["DESYNC"] or None
    for place in PLACES:
        beside = os.path.normpath(os.path.join(HERE, place))
        if os.access(beside, os.X_OK):
            return beside
    return shutil.which("desync")


class Answer:
    """What the program said: its status, its output, and its errors."""

    def __init__(self, status: int, output: str, errors: str) -> None:
        self.status, self.output, self.errors = status, output, errors


def ask(words: list[str]) -> Optional[Answer]:
    """What the program answers to some words; None where it is not there."""
    found = path()
    if found is None:
        return None
    try:
        ended = subprocess.run([found, *words], stdin=subprocess.DEVNULL, capture_output=True)
    except OSError:
        return None
    output, errors = ended.stdout.decode("latin-1"), ended.stderr.decode("latin-1")
    return Answer(ended.returncode, output, errors)


def file_word(name: str) -> str:
    """The name of a file as a word of the program that is no option."""
    return os.path.join(".", name) if name.startswith("-") else name


def answer(words: list[str]) -> str:
    """What the program prints; what it refuses is refused with its line."""
    said = ask(words)
    if said is None:
        raise BadText("there is no desync: DESYNC may name it, or it may stand on the path")
    if said.status == BAD_WORDS:
        raise BadText("desync takes no such words: %s" % " ".join(map(as_bytes, words)))
    line = said.errors.strip().split("\n")[0]
    if said.status == UNREAD and line.startswith(UNREAD_LINE):
        # read for what the system says of the file
        file_text(os.fsdecode(line[len(UNREAD_LINE) :].encode("latin-1")))
    if said.status:
        raise BadText(line or "desync ended with %d" % said.status)
    return said.output


def answer_to(words: list[str], name: str, text: str, behind: list[str]) -> str:
    """What the program prints where a text stands in a file between some words. A refusal names the
    file by a name."""
    with tempfile.NamedTemporaryFile(prefix="desync") as file:
        file.write(text.encode("latin-1"))
        file.flush()
        try:
            return answer([*words, file.name, *behind])
        except BadText as error:
            told = str(error).replace(as_bytes(file.name), as_bytes(name), 1)
            raise BadText(told) from None


def is_regular(name: str) -> bool:
    """Whether a name is of a file that can be read again."""
    try:
        return stat.S_ISREG(os.stat(name).st_mode)
    except OSError:
        return False


def refusal(name: str, text: str) -> Optional[str]:
    """The line by which `desync check` refuses a netlist; None where it does not."""
    if is_regular(name):
        return refusal_of_file(name)
    with tempfile.NamedTemporaryFile(suffix=".blif") as file:
        file.write(text.encode("latin-1"))
        file.flush()
        line = refusal_of_file(file.name)
        return line and line.replace(as_bytes(file.name), as_bytes(name), 1)


def refusal_of_file(name: str) -> Optional[str]:
    said = ask(["check", "--", name])
    if said is None or said.status != REFUSED:
        return None
    return said.errors.strip().split("\n")[0]
