"""Reads vectors: a line a turn, with a value for each column."""

from __future__ import annotations

import re
from typing import Iterator

from desync_tools.text import Text

ROW = re.compile("^(?:-|[01x]+)$")


def bits(word: str) -> str:
    """The values of a row; `-` is the row without values."""
    return "" if word == "-" else word


def vectors_of(text: Text, width: int) -> Iterator[str]:
    """The vectors of a file, each with a value for each column."""
    for number, words in text.rows():
        if len(words) != 1 or not ROW.match(words[0]):
            raise text.fault("this is no vector: %s" % " ".join(words), number)
        if len(bits(words[0])) != width:
            raise text.fault("this is no vector of %d columns: %s" % (width, words[0]), number)
        yield bits(words[0])
