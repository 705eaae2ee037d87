"""Reads groups: lines of names of registers, each line a cluster, as `--groups` takes them.

A word is the name of a register, or a pattern in which each `*` stands for any bytes. It takes the
registers that it names and that no word before it has taken, and there has to be one.
"""

from __future__ import annotations

from typing import Sequence

from desync_tools.netlist import Net, printed
from desync_tools.text import Text, file_text


def matches(pattern: str, name: str) -> bool:
    """Whether a name has the parts of a pattern between its stars, one behind the other."""
    first, *rest = pattern.split("*")
    if not rest:
        return pattern == name
    last = rest.pop()
    if not name.startswith(first) or len(name) < len(first) + len(last):
        return False
    at, end = len(first), len(name) - len(last)
    for part in rest:
        at = name.find(part, at, end)
        if at < 0:
            return False
        at += len(part)
    return name.endswith(last)


class Groups:
    """The registers of a netlist by their names, and those that no group has taken."""

    def __init__(self, text: Text, registers: Sequence[Net]) -> None:
        self.text, self.names = text, [printed(net) for net in registers]
        self.free = dict.fromkeys(range(len(self.names)))
        self.places: dict[str, list[int]] = {}
        for place, name in enumerate(self.names):
            self.places.setdefault(name, []).append(place)

    def named_by(self, word: str) -> list[int]:
        """The registers that a word names and that are free."""
        if word in self.places:
            return [place for place in self.places[word] if place in self.free]
        if "*" in word:
            return [place for place in self.free if matches(word, self.names[place])]
        return []

    def is_known(self, word: str) -> bool:
        return word in self.places or "*" in word and any(matches(word, n) for n in self.places)

    def take(self, word: str, line: int) -> list[int]:
        """The registers that a word takes."""
        found = self.named_by(word)
        if not found:
            fault = "repeated" if self.is_known(word) else "unknown"
            raise self.text.fault("%s register %s" % (fault, word), line)
        for place in found:
            del self.free[place]
        return found


def read_groups(path: str, registers: Sequence[Net]) -> list[list[int]]:
    """The places of the registers of each group of a file."""
    text = file_text(path)
    groups = Groups(text, registers)
    return [
        sorted(place for word in words for place in groups.take(word, line))
        for line, words in text.rows()
    ]
