"""The shortest walks from one vertex to some others, in a graph whose steps cost 0 or more.

A search goes on from its start until it meets what is near the vertices that it looks for. The
last vertex that is not near the end of a walk is as far from that end as the reach or farther. So
where the walk is shorter than the way gone and the reach together, the search has passed that
vertex, and has come to the one behind it, which is near the end.
"""

from __future__ import annotations

from heapq import heappop, heappush
from math import inf
from typing import NamedTuple

# Where steps lead, each with its cost; the cheaper ones come first.
Steps = list[tuple[int, int]]
# So many vertices are near one at most: with more a search is shorter, and they take longer.
MOST_NEAR = 32


class Near(NamedTuple):
    """Vertices from which walks to one are short, each with the shortest: all from which it is
    shorter than the reach."""

    walks: Steps
    reach: float


class Goals:
    """The vertices that a search looks for: the shortest walk to each that is known, and what is
    near those to which a shorter one may be found. Walks as long as `most` are too long, and no way
    is gone farther than the end."""

    def __init__(self, found: dict[int, float], near: dict[int, Near]) -> None:
        self.found, self.near = found, near
        self.tries = sum(len(one.walks) for one in near.values())
        self.most = self.end = max(found.values())

    def meet(self, least: list[float], gone: float) -> None:
        """Takes the walks that a search has found which has gone so far."""
        found, near = self.found, self.near
        for target, one in list(near.items()):
            shortest = min([least[vertex] + cost for vertex, cost in one.walks])
            found[target] = min(shortest, found[target])
            if one.reach == inf or found[target] - one.reach <= gone:
                del near[target]
        self.most = max((found[target] for target in near), default=0)
        self.end = max((found[target] - one.reach for target, one in near.items()), default=0)


class Shortest:
    """A graph of vertices from 0: for each one where its steps lead, with their costs."""

    def __init__(self, out: list[dict[int, int]]) -> None:
        into: list[dict[int, int]] = [{} for _ in out]
        for source, steps in enumerate(out):
            for target, cost in steps.items():
                into[target][source] = cost
        self.out, self.into = list(map(cheaper_first, out)), list(map(cheaper_first, into))
        # A distance and a vertex wait as one number, the distance above so many bits.
        self.bits = len(out).bit_length()
        self.known: dict[int, Near] = {}

    def near(self, target: int, most: float) -> Near:
        """What is near a vertex to which walks are looked for that are shorter than a bound."""
        if target not in self.known:
            self.known[target] = self.around(target, most / 2)
        return self.known[target]

    def around(self, target: int, most: float) -> Near:
        """The vertices from which walks to one are shortest; a greater reach is not needed."""
        bits, walks, heap = self.bits, dict[int, int](), [target]
        while heap:
            code = heappop(heap)
            distance, vertex = code >> bits, code & (1 << bits) - 1
            if vertex in walks:
                continue
            if len(walks) == MOST_NEAR or distance > most:
                return Near(list(walks.items()), distance)
            walks[vertex] = distance
            for other, cost in self.into[vertex]:
                if other not in walks:
                    heappush(heap, distance + cost << bits | other)
        return Near(list(walks.items()), inf)

    def least(self, start: int, bounds: dict[int, float]) -> dict[int, float]:
        """The shortest walk to each vertex with a bound, or the bound where no walk is shorter."""
        near = {target: self.near(target, bound) for target, bound in bounds.items()}
        goals, bits, tried = Goals(dict(bounds), near), self.bits, 0
        mask, check, most = (1 << bits) - 1, goals.tries, goals.most
        least, heap = [most] * len(self.out), [start]
        least[start] = 0
        while heap:
            code = heappop(heap)
            distance, vertex = code >> bits, code & mask
            if distance > least[vertex]:
                continue
            if distance >= goals.end:
                break
            for other, cost in self.out[vertex]:
                new = distance + cost
                if new >= most:
                    break
                if new < least[other]:
                    least[other] = new
                    heappush(heap, new << bits | other)
            tried += len(self.out[vertex])
            if tried >= check:
                check += tried
                goals.meet(least, distance)
                most = goals.most
        goals.meet(least, inf)
        return goals.found


def cheaper_first(steps: dict[int, int]) -> Steps:
    """Some steps, the cheaper ones first."""
    return sorted(steps.items(), key=lambda step: step[1])
