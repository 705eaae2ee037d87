"""Reads what `tools/critical` prints, and says how orders are drawn by it."""

from __future__ import annotations

import re
from fractions import Fraction
from typing import Iterable, Optional

from desync_tools.clusters import Split, names_of_order
from desync_tools.delays import Order
from desync_tools.graphs import Graph
from desync_tools.text import BadText, Text

LINE = re.compile(
    r"^(cycle|margin) (\S+) (\S+) delay \d+ tokens \d+(?: may rise by (\S+)(?: or more)?)? # (.*)$"
)
PERIOD = re.compile(r"^period (\d+(?:/\d+)?)$")
MORE = re.compile(r"^# \d+ more orders: ")
CYCLE = "#cc0000"
# From orders that have no margin to those that have as much as the period.
SHADES = ("#000000", "#333333", "#666666", "#999999", "#bbbbbb", "#d5d5d5")


class Heat:
    """The orders of the slowest cycle, and the margins of others."""

    def __init__(self, text: Text) -> None:
        self.text = text
        self.cycle: set[Order] = set()
        self.margins: dict[Order, Fraction] = {}
        # The number of the line of each order, and the names behind it.
        self.told: dict[Order, tuple[int, str]] = {}
        lines = text.text.splitlines()
        found = PERIOD.match(lines[0]) if lines else None
        if not found:
            raise text.fault("this is not what critical prints", 1)
        self.period = Fraction(found.group(1))
        for number, line in enumerate(lines[1:], 2):
            self.take(number, line)

    def take(self, number: int, line: str) -> None:
        """Takes a line."""
        if MORE.match(line):
            raise self.text.fault("orders are left out: critical --most 0 prints all", number)
        found = LINE.match(line)
        if not found:
            return
        order = (found.group(2), found.group(3))
        self.told[order] = (number, found.group(5))
        if found.group(1) == "cycle":
            self.cycle.add(order)
        elif found.group(4) not in (None, "any"):
            self.margins[order] = Fraction(found.group(4))

    def check(self, graph: Graph, split: Optional[Split]) -> None:
        """Refuses what was not printed for a graph or, where they are known, for its clusters."""
        orders = dict.fromkeys((source, target) for source, target, _ in graph.arcs())
        names = None if split is None else split.names()
        for order, (number, told) in self.told.items():
            if order not in orders:
                raise self.other("%s has no order %s to %s" % (graph.path, *order), number)
            own = told if names is None else names_of_order(names, order)
            if split is not None and own != told:
                how = (*order, own, split.netlist.path, split.how, told)
                raise self.other("%s to %s is %s in %s by %s, and not %s" % how, number)
        for order in orders:
            if order not in self.told:
                raise self.other("no line for the order %s to %s of %s" % (*order, graph.path))

    def other(self, why: str, number: int = 0) -> BadText:
        """The refusal of what was printed for another graph."""
        return self.text.fault(why + ": it is of another graph or of other clusters", number)

    def looks(self, orders: Iterable[Order]) -> str:
        """How an arrow for some orders is drawn: by the one with the least margin."""
        orders = list(orders)
        if self.cycle & set(orders):
            return 'color="%s" penwidth=2.5' % CYCLE
        known = [self.margins[order] for order in orders if order in self.margins]
        if not known:
            return 'color="%s"' % SHADES[-1]
        share = min(known) / self.period if self.period else Fraction(1)
        return 'color="%s"' % SHADES[min(int(share * (len(SHADES) - 1)), len(SHADES) - 1)]

    def has(self, node: str) -> bool:
        """Whether the cycle goes through an event of a node."""
        return any(event[:-1] == node for order in self.cycle for event in order)
