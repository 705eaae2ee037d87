"""Puts clusters that differ in one number of their names into groups, for pictures."""

from __future__ import annotations

import re
from typing import Iterable

LEAST, FEW = 3, 4
NUMBER = re.compile(r"([0-9]+)")
Pair = tuple[str, str]


def grouped(edges: Iterable[Pair], heads: dict[str, str]) -> dict[str, list[str]]:
    """The clusters of each box, by the number of its first one.

    `heads` has the name of each cluster by its number. Clusters are in one box where they have the
    same producers and consumers, but for themselves, and names that differ in one number.
    """
    around: dict[str, set[str]] = {number: set() for number in heads}
    for producer, consumer in edges:
        for own, other, way in ((producer, consumer, "to "), (consumer, producer, "from ")):
            if own[1:] in around:
                around[own[1:]].add(way + ("itself" if other[1:] == own[1:] else other))
    alike: dict[tuple[object, ...], list[str]] = {}
    for number, head in heads.items():
        for key in keys(head, around[number]):
            alike.setdefault(key, []).append(number)
    found: dict[str, list[str]] = {}
    placed: set[str] = set()
    for some in sorted(alike.values(), key=lambda one: (-len(one), int(one[0]))):
        rest = [number for number in some if number not in placed]
        if len(rest) >= LEAST:
            found[rest[0]] = rest
            placed.update(rest)
    found.update({number: [number] for number in heads if number not in placed})
    return dict(sorted(found.items(), key=lambda one: int(one[0])))


def keys(head: str, around: set[str]) -> Iterable[tuple[object, ...]]:
    """What a cluster has to share with others, for each number of its name that may differ."""
    parts = NUMBER.split(head)
    for place in range(1, len(parts), 2):
        if around:
            yield (tuple(parts[:place]), tuple(parts[place + 1 :]), frozenset(around))


def spans(names: list[str]) -> str:
    """One name for some names that differ in one number, as rf[0..31]."""
    parts = [NUMBER.split(name) for name in names]
    differ = [place for place, some in enumerate(zip(*parts)) if len(set(some)) > 1]
    if len(names) == 1 or not differ:
        return names[0]
    numbers = sorted(int(part[differ[0]]) for part in parts)
    is_row = numbers == list(range(numbers[0], numbers[-1] + 1))
    first, last = parts[0][: differ[0]], parts[0][differ[0] + 1 :]
    few = [str(number) for number in numbers]
    few = few if len(few) <= FEW else [*few[:2], "..", few[-1]]
    middle = "%d..%d" % (numbers[0], numbers[-1]) if is_row else ",".join(few)
    return "".join(first) + middle + "".join(last)
