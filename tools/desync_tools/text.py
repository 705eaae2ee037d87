"""Texts as the tools read them: files, the lines of a text, names as bytes, errors in words."""

from __future__ import annotations

import errno
import os
import sys
from typing import Iterable, Iterator, NamedTuple, Optional

WORDS = {
    errno.ENOENT: "no such file",
    errno.ENOTDIR: "no such file",
    errno.EISDIR: "it is a folder",
    errno.EACCES: "permission denied",
    errno.EPERM: "permission denied",
    errno.ENOSPC: "no space left",
}
INPUT = "the standard input"


class BadText(Exception):
    """A text that is none of the kind that it is read as."""


class CannotRead(BadText):
    """A file that the system does not give."""


def in_words(error: OSError) -> str:
    """What the system says of a file or a stream."""
    if error.errno in WORDS:
        return WORDS[error.errno]
    said = error.strerror or str(error)
    return said[:1].lower() + said[1:]


class Text(NamedTuple):
    """A text, and what errors call it: the name of its file."""

    name: str
    text: str

    def lines(self) -> list[str]:
        """The lines."""
        return self.text.split("\n")

    def rows(self) -> Iterator[tuple[int, list[str]]]:
        """The first number and the words of each logical line that has some."""
        return ((number, words) for number, words in joined(self.lines()) if words)

    def fault(self, why: str, line: int = 0) -> BadText:
        """The refusal of the text or, by its number, of a line of it."""
        where = "%s:%d" % (self.name, line) if line else self.name
        return BadText("%s: %s" % (where, why))


def as_bytes(word: str) -> str:
    """A name of the command line as those of files are kept: its bytes as latin-1."""
    return os.fsencode(word).decode("latin-1")


def shown(text: str) -> str:
    """Names, whose bytes are kept as latin-1, as a text."""
    return text.encode("latin-1").decode("utf-8", "replace")


def visible(text: str) -> str:
    """A text with what cannot be seen written as an escape: a byte order mark is `\\ufeff`."""
    return "".join(c if c.isprintable() else ascii(c)[1:-1] for c in text)


def told(text: str) -> str:
    """A refusal, whose bytes are kept as latin-1, as it is printed."""
    return visible(shown(text))


def given() -> Text:
    """The standard input, whole: its bytes as latin-1."""
    if sys.stdin is None:
        raise BadText("the standard input is closed")
    try:
        return Text(INPUT, sys.stdin.buffer.read().decode("latin-1"))
    except OSError as error:
        raise CannotRead("cannot read %s: %s" % (INPUT, in_words(error))) from None


def file_text(path: str) -> Text:
    """The text of a file: its bytes as latin-1."""
    name = as_bytes(path) or "''"
    try:
        with open(path, encoding="latin-1", newline="") as file:
            return Text(name, file.read())
    except OSError as error:
        raise CannotRead("cannot read %s: %s" % (name, in_words(error))) from None


def text_of(path: Optional[str]) -> Text:
    """The text of a file or, where none is named, of the standard input."""
    return given() if path is None else file_text(path)


def joined(lines: Iterable[str]) -> Iterator[tuple[int, list[str]]]:
    """The first number and the words of each logical line of a text: comments are cut, lines behind
    a `\\` at the end are joined."""
    first: int = 1
    words: list[str] = []
    for number, line in enumerate(lines, 1):
        line = line.rstrip("\n").partition("#")[0]
        kept = line.rstrip(" \t\r\\")
        words += kept.replace("\t", " ").replace("\r", " ").split(" ")
        if "\\" not in line[len(kept) :]:
            yield first, [word for word in words if word]
            first, words = number + 1, []
    yield first, [word for word in words if word]
