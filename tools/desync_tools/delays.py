"""Reads and writes delays: a line `SOURCE TARGET DELAY` for an order between two events."""

from __future__ import annotations

import re
from typing import Iterator

from desync_tools.text import Text

MOST = 4294967295
NUMBER = re.compile("^[0-9]{1,10}$")
# An order: its source and its target.
Order = tuple[str, str]


def is_delay(word: str) -> bool:
    """Whether a word is a delay."""
    return bool(NUMBER.match(word)) and int(word) <= MOST


def delays_of(text: Text) -> dict[Order, int]:
    """The delay of each order that has a line."""
    found: dict[Order, int] = {}
    for number, words in text.rows():
        if len(words) != 3 or not is_delay(words[2]):
            raise text.fault("not SOURCE TARGET DELAY", number)
        order = (words[0], words[1])
        if order in found:
            raise text.fault("%s to %s twice" % order, number)
        found[order] = int(words[2])
    return found


def lines_of(delays: dict[Order, int]) -> Iterator[str]:
    """The lines of some delays."""
    for order, delay in delays.items():
        yield "%s %s %d" % (order + (delay,))
