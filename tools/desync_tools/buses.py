"""Puts nets that stand beside one another, as `q[0] q[1] q[2]`, together as a bus.

The first net of a run is the rightmost bit, as Yosys writes a port: `q[0] q[1]` is the bus
`q [1:0]`, and `q[1] q[0]`, of a range that ascends in the source, is `q [0:1]`.
"""

from __future__ import annotations

import re
from typing import Iterator, Optional, Sequence

from desync_tools.netlist import Net, printed

BIT = re.compile(r"^(.+)\[(\d{1,9})\]$")
# A name, and the number of a bit of it.
Bit = tuple[str, Optional[int]]


class Bus:
    """Some neighbouring places of a row; `ends` is None where it is a single net, else the numbers
    of its leftmost and rightmost bits."""

    def __init__(self, name: str, first: int, ends: Optional[tuple[int, int]] = None) -> None:
        self.name, self.first, self.ends = name, first, ends
        self.width = 1 if ends is None else abs(ends[0] - ends[1]) + 1

    def span(self) -> str:
        """The range, as a declaration has it."""
        if self.ends is None:
            return ""
        return "[%d:%d]" % self.ends if self.width > 1 else "[%d]" % self.ends[0]

    def numbers(self) -> range:
        """The numbers of its bits, of a single net none."""
        if self.ends is None:
            return range(0)
        return range(min(self.ends), max(self.ends) + 1)

    def bits(self, row: str) -> str:
        """Its values in a row, the leftmost first."""
        return row[self.first : self.first + self.width][::-1]


def bit_of(net: Net) -> Bit:
    """The name and the number of a bit of a bus; else the name and None."""
    name = printed(net)
    parts = BIT.match(name)
    return (parts.group(1), int(parts.group(2))) if parts else (name, None)


def end_of_run(bits: Sequence[Bit], first: int, step: int) -> int:
    """The place behind the run from a place on whose numbers change by a step."""
    name, bit = bits[first]
    place = first + 1
    while place < len(bits) and bits[place] == (name, (bit or 0) + step * (place - first)):
        place += 1
    return place


def buses(nets: Sequence[Net]) -> Iterator[Bus]:
    """The buses of some nets, in their order."""
    bits, place = [bit_of(net) for net in nets], 0
    while place < len(bits):
        name, bit = bits[place]
        end = place + 1
        if bit is None:
            yield Bus(name, place)
        else:
            end = max(end_of_run(bits, place, 1), end_of_run(bits, place, -1))
            yield Bus(name, place, (bits[end - 1][1] or 0, bit))
        place = end
