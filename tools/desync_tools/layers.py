"""Places the clusters of a split netlist in columns, from IN on the left to OUT on the right."""

from __future__ import annotations

from typing import Iterable, Iterator

BOX, GAP, ROW, COLUMN, TALLEST = 84, 12, 92, 264, 10
MARGIN = 60
# What follows each vertex, where a vertex is IN, OUT or a cluster's number, as a text.
After = dict[str, list[str]]
Point = list[float]


def follows(edges: Iterable[tuple[str, str]]) -> After:
    """What follows each vertex."""
    after: dict[str, set[str]] = {"IN": set(), "OUT": set()}
    for producer, consumer in edges:
        first, second = producer.lstrip("MS"), consumer.lstrip("MS")
        after.setdefault(first, set())
        after.setdefault(second, set())
        if first != second:
            after[first].add(second)
    return {vertex: sorted(after[vertex], key=order) for vertex in sorted(after, key=order)}


def order(vertex: str) -> int:
    """IN, then the clusters, then OUT."""
    return {"IN": -1, "OUT": 1 << 30}.get(vertex) or int(vertex)


class Components:
    """The components of a graph: vertices that lead to one another have one number.

    A component has a greater number than each one that it leads to.
    """

    def __init__(self, after: After) -> None:
        self.after = after
        self.count = 0
        self.number: dict[str, int] = {}
        self.place: dict[str, int] = {}
        self.low: dict[str, int] = {}
        self.line: list[str] = []
        for root in after:
            if root not in self.place:
                self.search(root)

    def search(self, root: str) -> None:
        """Numbers the components of all that a vertex leads to."""
        waiting = [self.enter(root)]
        while waiting:
            vertex, rest = waiting[-1]
            new = next((one for one in rest if one not in self.number), None)
            if new is None:
                waiting.pop()
                self.leave(vertex)
                for above, _ in waiting[-1:]:
                    self.low[above] = min(self.low[above], self.low[vertex])
            elif new in self.place:
                self.low[vertex] = min(self.low[vertex], self.place[new])
            else:
                waiting.append(self.enter(new))

    def enter(self, vertex: str) -> tuple[str, Iterator[str]]:
        """Begins with a vertex, and what follows it."""
        self.low[vertex] = self.place[vertex] = len(self.place)
        self.line.append(vertex)
        return vertex, iter(self.after[vertex])

    def leave(self, vertex: str) -> None:
        """Numbers the component of a vertex, where it is the first of it that was entered."""
        if self.low[vertex] == self.place[vertex]:
            while vertex not in self.number:
                self.number[self.line.pop()] = self.count
            self.count += 1


def depths(after: After) -> dict[str, int]:
    """The column of each vertex, behind all components that lead to its own; OUT stands last."""
    component = Components(after).number
    depth = {component["IN"]: 0}
    for vertex in sorted(after, key=lambda one: -component[one]):
        own = depth.setdefault(component[vertex], 1)
        for one in after[vertex]:
            if component[one] != component[vertex]:
                depth[component[one]] = max(depth.get(component[one], 1), own + 1)
    found = {vertex: depth[component[vertex]] for vertex in after}
    last = max(place for vertex, place in found.items() if vertex != "OUT")
    found["OUT"] = max(found["OUT"], last + 1)
    return found


def columns(after: After) -> list[list[str]]:
    """The vertices column by column, each near what it reads."""
    depth = depths(after)
    before: dict[str, list[str]] = {vertex: [] for vertex in after}
    for vertex, behind in after.items():
        for one in behind:
            before[one].append(vertex)
    found: list[list[str]] = []
    height: dict[str, float] = {}
    for level in sorted(set(depth.values())):
        here = [vertex for vertex in after if depth[vertex] == level]
        middle = {
            one: [height[other] for other in before[one] if other in height] or [0] for one in here
        }
        here.sort(key=lambda one: (sum(middle[one]) / len(middle[one]), order(one)))
        for first in range(0, len(here), TALLEST):
            found.append(here[first : first + TALLEST])
        for place, one in enumerate(here):
            height[one] = place % TALLEST - len(here) / 2
    return found


def places(edges: Iterable[tuple[str, str]]) -> dict[str, Point]:
    """The middle of each node's box, where all columns stand beside one another."""
    after = follows(edges)
    found = columns(after)
    tall = max(map(len, found))
    place: dict[str, Point] = {}
    x = MARGIN
    for column in found:
        pairs = any(vertex.isdigit() for vertex in column)
        for row, vertex in enumerate(column):
            y = MARGIN + (row + (tall - len(column)) / 2) * ROW
            if vertex.isdigit():
                place["M" + vertex] = [x, y]
                place["S" + vertex] = [x + BOX + GAP, y]
            else:
                place[vertex] = [x, y]
        x += COLUMN if pairs else COLUMN - BOX - GAP
    return place
