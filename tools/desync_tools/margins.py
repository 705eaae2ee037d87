"""How much the delay of each order may rise before the period does.

The cycles through an order from u to v have tokens and delays; P/Q times the tokens less the delays
is what is left of each, and the least of these is the margin of the order. The reduced cost of an
order, h(v) - h(u) - (Q d - P t) by the potentials h, is never negative, and the sum of those of a
cycle is Q times what it has left. So the margin is the reduced cost of the order and the shortest
walk back from v to u, by Q.
"""

from __future__ import annotations

from fractions import Fraction
from math import inf
from typing import Iterable, Iterator, Optional

from desync_tools.delays import Order
from desync_tools.graphs import Arc
from desync_tools.layers import Components
from desync_tools.periods import Period
from desync_tools.shortest import Shortest
from desync_tools.text import BadText

MOST_EXACT = 20000


class Way:
    """An order with its delay, its tokens and, in reduced costs by Q, its own one."""

    def __init__(self, arc: Arc, delay: int, period: Period) -> None:
        self.source, self.target, self.tokens = arc
        self.delay = delay
        rise = period.q * delay - period.p * self.tokens
        self.cost = period.potential(self.target) - period.potential(self.source) - rise
        if self.cost < 0:
            told = (self.source, self.target)
            raise BadText("desync period: the potentials do not fit %s to %s" % told)

    def order(self) -> Order:
        return self.source, self.target


def ways_of(arcs: Iterable[Arc], delays: dict[Order, int], period: Period) -> list[Way]:
    """The orders of a graph with some delays; those without one have 0."""
    return [Way(arc, delays.get(arc[:2], 0), period) for arc in arcs]


class Walks:
    """The shortest walks along orders, by numbers of events.

    A search steps over an event with one order into it, as M0- behind M0+: each walk to it comes
    by that order. The source of that order is its `before`. Events that lead to one another for
    nothing have one number."""

    def __init__(self, ways: list[Way]) -> None:
        self.costs: dict[Order, int] = {}
        for way in ways:
            self.costs[way.order()] = min(way.cost, self.costs.get(way.order(), way.cost))
        self.into: dict[str, list[str]] = {}
        self.after: dict[str, list[str]] = {}
        for source, target in self.costs:
            self.into.setdefault(target, []).append(source)
            self.after.setdefault(source, []).append(target)
        single = {event: into[0] for event, into in self.into.items() if len(into) == 1}
        self.before = {event: one for event, one in single.items() if one not in single}
        steps = {event: self.steps(event) for event in {**self.after, **self.into}}
        free = {event: [end for end, cost in to.items() if not cost] for event, to in steps.items()}
        components = Components(free)
        self.ids = components.number
        found: list[dict[int, int]] = [{} for _ in range(components.count)]
        for event, to in steps.items():
            out = found[self.ids[event]]
            for end, cost in to.items():
                out[self.ids[end]] = min(cost, out.get(self.ids[end], cost))
        self.shortest = Shortest(found)

    def lead(self, event: str) -> tuple[str, int]:
        """The event by which walks come to one where a search steps over it, and the cost."""
        before = self.before.get(event, event)
        return before, self.costs[before, event] if before != event else 0

    def steps(self, event: str) -> dict[str, int]:
        """Where a search goes from an event, each with the cost."""
        found: dict[str, int] = {}
        for other in self.after.get(event, ()):
            cost = self.costs[event, other]
            ends = {other: cost}
            if other in self.before:
                ends = {end: cost + self.costs[other, end] for end in self.after.get(other, ())}
            for end, both in ends.items():
                found[end] = min(both, found.get(end, both))
        return found

    def short(self, source: str, target: str) -> Optional[int]:
        """A walk of one or two orders by the other event of a node, where there is one."""
        found = [self.costs.get((source, target))]
        for middle in (other_of(source), other_of(target)):
            first, second = self.costs.get((source, middle)), self.costs.get((middle, target))
            found.append(None if first is None or second is None else first + second)
        return min((cost for cost in found if cost is not None), default=None)

    def back(self, target: str) -> dict[str, int]:
        """The shortest walk from an event to each source of an order into it that it reaches.

        The search does not step over the event."""
        short = {source: self.short(target, source) for source in self.into[target]}
        bounds: dict[int, float] = {}
        for source, most in short.items():
            event, cost = self.lead(source)
            number, bound = self.ids[event], inf if most is None else most - cost
            bounds[number] = max(bound, bounds.get(number, bound))
        least = self.shortest.least(self.ids[target], bounds)
        found: dict[str, int] = {}
        for source, most in short.items():
            event, cost = self.lead(source)
            rest = min(least[self.ids[event]] + cost, inf if most is None else most)
            if rest < inf:
                found[source] = int(rest)
        return found

    def by_next(self, event: str, back: dict[str, dict[str, int]]) -> dict[str, int]:
        """The shortest walk back from an event that is stepped over, by those from the next ones.

        A walk from a next event back to this one ends with the order into this one."""
        before, cost = self.lead(event)
        costs = [
            self.costs[event, end] + back[end][event] - cost
            for end in self.after.get(event, ())
            if event in back[end]
        ]
        return {before: min(costs)} if costs else {}


def other_of(event: str) -> str:
    """The other event of a node."""
    return event[:-1] + ("-" if event.endswith("+") else "+")


def exact(ways: list[Way], period: Period) -> Iterator[Optional[Fraction]]:
    """The margin of each order; None where no cycle goes through it."""
    walks = Walks(ways)
    back = {target: walks.back(target) for target in walks.into if target not in walks.before}
    back.update({event: walks.by_next(event, back) for event in walks.before})
    for way in ways:
        rest = back[way.target].get(way.source)
        yield None if rest is None else Fraction(way.cost + rest, period.q)


def bounds(ways: list[Way], period: Period) -> Iterator[Optional[Fraction]]:
    """A bound of the margin of each order: it is no less than its reduced cost, by Q."""
    for way in ways:
        yield Fraction(way.cost, period.q)
