"""Reads what `desync period` prints: the period, a slowest cycle, the potential of each event."""

from __future__ import annotations

import re
from fractions import Fraction
from typing import Optional

from desync_tools.text import BadText

RATIO = re.compile(r"^period (\d+)/([1-9]\d*)$")
POTENTIAL = re.compile(r"^potential (\S+) (\d+)$")


class Period:
    """The period P/Q, the events of a slowest cycle, and the potentials: along each order with a
    delay d and t tokens they rise by at least Q d - P t."""

    def __init__(self, text: str) -> None:
        lines = text.split("\n")
        found = RATIO.match(lines[0])
        cycle = lines[1].split(" ") if len(lines) > 1 else []
        if not found or cycle[:1] != ["cycle"] or len(cycle) < 2:
            raise BadText("desync period: this is no period: %s" % lines[0])
        self.p, self.q = int(found.group(1)), int(found.group(2))
        self.cycle = cycle[1:]
        self.potentials: dict[str, int] = {}
        for line in filter(None, lines[2:]):
            found = POTENTIAL.match(line)
            if not found:
                raise BadText("desync period: this is no line of a period: %s" % line)
            self.potentials[found.group(1)] = int(found.group(2))

    def ratio(self) -> Fraction:
        return Fraction(self.p, self.q)

    def potential(self, event: str) -> int:
        """The potential of an event."""
        if event not in self.potentials:
            raise BadText("desync period: there is no potential of %s" % event)
        return self.potentials[event]


def number_of(ratio: Optional[Fraction]) -> str:
    """A ratio as it is printed: a number, or P/Q in lowest terms."""
    return "none" if ratio is None else str(ratio)
