"""Reads what `desync run --log` prints: a trace, and behind it the firings, one a line."""

from __future__ import annotations

import re

from desync_tools.text import Text

TURN = re.compile("^[0-9]{1,10}$")
# The number of a line, and its words.
Line = tuple[int, list[str]]


def log_of(run: Text) -> list[Line]:
    """The words of each line behind the word `firings`, with its number."""
    log = list(run.rows())
    at = next((at for at, (_, words) in enumerate(log) if words == ["firings"]), None)
    if at is None:
        raise run.fault("the run has no log: desync run --log prints one")
    return log[at + 1 :]


def is_firing(words: list[str]) -> bool:
    """Whether the words of a line are an event and a turn."""
    return len(words) == 2 and bool(TURN.match(words[1]))
