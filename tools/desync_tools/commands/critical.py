"""Says which cycle of orders makes a design slow, and how much every other order may still take.

It asks `desync period` for the period under the delays of a file, and prints the orders of a
slowest cycle with their delays and tokens. Then each other order has its margin, by how much its
delay may rise before the period rises, the least first. Behind each line stand the names of the
registers.

With --what-if an order takes more or less, and the period is asked for again; the option may stand
several times, and each is tried by itself: `--what-if 'S4+ M33+ -8'`. Margins are exact for up to
20,000 orders. Above that they are bounds that the potentials give, and the lines say so.
"""

from __future__ import annotations

import argparse
import re
from fractions import Fraction
from typing import Any, Iterator, Optional

from desync_tools import margins, program
from desync_tools.clusters import (
    Split,
    names_of_order,
    options,
    slack_word,
    take_groups,
    take_mode,
)
from desync_tools.command import Parser, number_word, parser, put
from desync_tools.delays import MOST, Order, delays_of, lines_of
from desync_tools.graphs import Graph
from desync_tools.manual import GROUPS, NETLIST, Example, File, Manual, read
from desync_tools.netlist import read_netlist
from desync_tools.periods import Period, number_of
from desync_tools.text import BadText, Text, as_bytes, file_text

FAILS = "The graph has no order that --what-if names, or the order would not take 0 to %d" % MOST
CHANGE = re.compile(r"(\S+) (\S+) ([+-]?[0-9]{1,10})")
SHOWN = 20
# An order, and by how much its delay changes.
Change = tuple[Order, int]
# A margin, None where no cycle goes through the order.
Margin = Optional[Fraction]


class Design:
    """A netlist with its delays, as the words of the command line have them."""

    def __init__(self, asked: argparse.Namespace) -> None:
        self.asked = asked
        netlist = read_netlist(asked.netlist)
        self.names = Split(netlist, asked.clusters, asked.groups).names()
        self.arcs = list(Graph(self.graph_text()).arcs())
        text = file_text(asked.delays)
        self.period = self.period_of(text.text)
        self.delays = delays_of(text)

    def options(self, has_graph: bool) -> list[str]:
        """The options that the program takes too."""
        asked = self.asked
        graph = program.file_word(asked.graph) if has_graph and asked.graph is not None else None
        given = {"--slack": asked.slack, "--graph": graph}
        words = options(asked.clusters, asked.groups)
        return words + [word for pair in given.items() if pair[1] is not None for word in pair]

    def graph_text(self) -> Text:
        """The text of the graph: that of a file, or that of the required orders."""
        if self.asked.graph is not None:
            return file_text(self.asked.graph)
        words = ["graph", program.file_word(self.asked.netlist), *self.options(False)]
        return Text("desync graph", program.answer(words))

    def period_of(self, text: str) -> Period:
        """The period under the delays of a text."""
        words = ["period", program.file_word(self.asked.netlist)]
        return Period(program.answer_to(words, self.asked.delays, text, self.options(True)))

    def told(self, order: Order) -> str:
        """The names of the nodes of an order."""
        return names_of_order(self.names, order)


def cycle_of(period: Period, ways: list[margins.Way]) -> list[margins.Way]:
    """The orders of the slowest cycle: of those between two events that with the fewest tokens."""
    fewest: dict[Order, margins.Way] = {}
    for way in ways:
        known = fewest.setdefault(way.order(), way)
        if way.tokens < known.tokens:
            fewest[way.order()] = way
    events = period.cycle
    return [fewest[pair] for pair in zip(events, events[1:] + events[:1])]


def cycle_lines(design: Design, cycle: list[margins.Way]) -> Iterator[str]:
    """The orders of the slowest cycle."""
    for way in cycle:
        told = (way.source, way.target, way.delay, way.tokens, design.told(way.order()))
        yield "cycle %s %s delay %d tokens %d # %s" % told


def margin_lines(
    design: Design, ways: list[margins.Way], cycle: list[margins.Way]
) -> Iterator[str]:
    """The orders that are not of the cycle by their margins, the least first."""
    is_exact, in_cycle = len(ways) <= margins.MOST_EXACT, set(map(id, cycle))
    found = list((margins.exact if is_exact else margins.bounds)(ways, design.period))
    others = [at for at, way in enumerate(ways) if id(way) not in in_cycle]
    others.sort(key=lambda at: (found[at] is None, found[at] or 0, at))
    most = design.asked.most or len(others)
    for at in others[:most]:
        way = ways[at]
        told = (way.source, way.target, way.delay, way.tokens, by(found[at], is_exact))
        yield "margin %s %s delay %d tokens %d %s # %s" % (told + (design.told(way.order()),))
    if len(others) > most:
        yield "# %d more orders: --most 0 shows all" % (len(others) - most)


def by(margin: Margin, is_exact: bool) -> str:
    """By how much an order may rise."""
    if margin is None:
        return "may rise by any"
    return "may rise by %s%s" % (number_of(margin), "" if is_exact else " or more")


def change_word(word: str) -> Change:
    """A change of the command line."""
    found = CHANGE.fullmatch(as_bytes(word))
    if not found:
        raise argparse.ArgumentTypeError("this is no SOURCE TARGET CHANGE: %s" % word)
    return (found.group(1), found.group(2)), int(found.group(3))


def changed(design: Design, change: Change) -> str:
    """The line that says what the period becomes if an order takes more or less."""
    order, more = change
    if order not in {arc[:2] for arc in design.arcs}:
        raise BadText("--what-if: the graph has no order %s to %s" % order)
    delay = design.delays.get(order, 0) + more
    if not 0 <= delay <= MOST:
        raise BadText("--what-if: %s to %s cannot take %d" % (order + (delay,)))
    lines = lines_of({**design.delays, order: delay})
    period = design.period_of("".join(line + "\n" for line in lines))
    return "what if %s %s takes %d: period %s" % (order + (delay, number_of(period.ratio())))


def report(design: Design) -> Iterator[str]:
    """The lines: the period, the slowest cycle, the margins, and what if."""
    period = design.period
    yield "period %s" % number_of(period.ratio())
    ways = margins.ways_of(design.arcs, design.delays, period)
    cycle = cycle_of(period, ways)
    yield from cycle_lines(design, cycle)
    yield from margin_lines(design, ways, cycle)
    for change in design.asked.what_if:
        yield changed(design, change)


MANUAL = Manual(
    (
        NETLIST,
        read("delays", "delays", "Delays"),
        GROUPS,
        read("--graph FILE", "`.g`", "Graphs that are read"),
        File("output", "lines of the slowest cycle and of margins, written"),
    ),
    (
        Example(
            "Shows the slowest cycle of a pipeline and its three least margins.",
            """
$ tools/delays examples/pipeline.blif --clusters bus > pipeline.delays
$ tools/critical examples/pipeline.blif pipeline.delays --clusters bus --most 3
period 13
cycle M0+ S0+ delay 2 tokens 0 # peak[4:0]
cycle S0+ M0+ delay 11 tokens 1 # peak[4:0]
margin M0+ M0- delay 1 tokens 0 may rise by 1 # peak[4:0]
margin M0- S0+ delay 0 tokens 0 may rise by 1 # peak[4:0]
margin M0- S3+ delay 0 tokens 0 may rise by 1 # peak[4:0] to sum[4:0]
# 37 more orders: --most 0 shows all
""",
        ),
    ),
)


def words(name: str) -> Parser:
    taken = parser(name, __doc__, MANUAL)
    taken.add_argument("netlist", help="the netlist in BLIF")
    taken.add_argument("delays", help="the delays of its orders")
    take_mode(taken)
    take_groups(taken)
    says = "the graph (the default is that of the required orders)"
    taken.add_argument("--graph", metavar="FILE", help=says)
    says = "how often a producer may run ahead, 0 to 15"
    taken.add_argument("--slack", metavar="S", type=slack_word, help=says)
    says = "how many margins are shown (the default is %d); 0 shows all" % SHOWN
    taken.add_argument("--most", type=number_word, metavar="N", default=SHOWN, help=says)
    says = "an order, and by how much its delay changes"
    more: dict[str, Any] = {"action": "append", "default": [], "type": change_word}
    taken.add_argument("--what-if", metavar="'U V CHANGE'", help=says, **more)
    return taken


def main(argv: list[str]) -> int:
    taken = words(argv[0])
    asked = taken.parse_args(argv[1:])
    if asked.most < 0:
        taken.error("--most is at least 0")
    put("latin-1", list(report(Design(asked))))
    return 0
