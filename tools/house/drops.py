"""How much a function's ways out have to drop, roughly: what makes it slow to prove.

Where a function is left, by a `?`, a `return` or its end, each owned value that lives there is
dropped. A value counts by the vectors inside it: a `Vec` or a text 1, a map 4, a struct the sum of
its fields, an enum the largest of its variants; a type with a drop written by hand counts 1.
"""

from __future__ import annotations

import re
from typing import Iterator

import house

KNOWN = {"Vec": 1, "String": 1, "Box": 1, "IndexMap": 4, "IndexSet": 4, "Command": 8, "Bytes": 1}
TYPE = re.compile(r"\b(struct|enum) (\w+)[^;{(]*([{(])")
BY_HAND = re.compile(r"\bimpl(?:<[^{]*>)? Drop for (\w+)")
MADE = re.compile(r"\blet (?:mut )?(\w+)(?:: [^=;]+)? =\s*([^;{}]*?)\?\s*;")
WAY_OUT = re.compile(r"\?(?=[;,.)\s])|\breturn\b")


class Weights:
    """What values of each type weigh, and what each function of one name gives."""

    def __init__(self, sources: list[house.Source]) -> None:
        self.shapes: dict[str, tuple[str, str]] = {}
        self.by_hand: set[str] = set()
        self.known = dict(KNOWN)
        self.gives: dict[str, set[str]] = {}
        for source in sources:
            self.by_hand |= set(BY_HAND.findall(source.code))
            for found in TYPE.finditer(source.code):
                end = house.closing(source.code, found.end() - 1)
                self.shapes[found[2]] = (found[1], source.code[found.end() : end - 1])
            for one in source.functions:
                result = one.result.replace("Self", one.owner or "")
                self.gives.setdefault(one.name, set()).add(result)

    def of_type(self, text: str) -> int:
        """What a value of a type weighs."""
        text = re.sub(r"&(?:'\w+ )?(?:mut )?(?:\[[^\]]*\]|[\w:]+(?:<[^<>]*>)?)", "", text)
        return sum(self.of_name(word) for word in re.findall(r"\w+", text))

    def of_name(self, name: str) -> int:
        if name not in self.known:
            self.known[name] = 0
            kind, inside = self.shapes.get(name, ("struct", ""))
            parts = [self.of_type(part) for part in split(inside)]
            weight = max(parts, default=0) if kind == "enum" else sum(parts)
            self.known[name] = min(weight, 1) if name in self.by_hand else weight
        return self.known[name]

    def of_call(self, text: str) -> int:
        """What a call gives that ends a `let .. = ..?;`, without what it may refuse with."""
        called = re.findall(r"(\w+)\s*(?:::<[^>]*>)?\(", text)
        results: set[str] = self.gives.get(called[0], set()) if called else set()
        if len(results) != 1:
            return 1
        found = re.match(r"(?:Result|Option)<(.*?)(?:, \w+(?:<.*>)?)?>$", next(iter(results)))
        return self.of_type(found[1]) if found else 1


def split(text: str) -> list[str]:
    """The parts of a text between commas that stand in no bracket."""
    parts: list[str] = []
    depth = begin = 0
    for at, c in enumerate(text):
        depth += (c in "([{<") - (c in ")]}>")
        if c == "," and depth == 0:
            parts.append(text[begin:at])
            begin = at + 1
    parts.append(text[begin:])
    return [part.partition(":")[2] or part for part in parts]


def moved(body: str, name: str, at: int) -> int:
    """Where a value is given on, behind a place, or the end."""
    found = re.compile(r"[(,{]\s*%s\s*[,)}]|\b%s\.into_" % (name, name)).search(body, at)
    return found.start() if found else len(body)


def values(body: str, one: house.Function, weights: Weights) -> Iterator[tuple[int, int, int]]:
    """(from, to, weight) of each owned value of a function."""
    for parameter in one.parameters:
        name, _, kind = parameter.partition(":")
        weight = weights.of_type(kind)
        if weight and not kind.strip().startswith("&"):
            yield 0, moved(body, name.replace("mut ", "").strip(), 0), weight
    for found in MADE.finditer(body):
        yield found.end(), moved(body, found[1], found.end()), weights.of_call(found[2])


def cost(source: house.Source, one: house.Function, weights: Weights) -> int:
    """The sum over all ways out of a function of what lives there."""
    if not one.body:
        return 0
    body = source.code[slice(*one.body)]
    outs = [found.start() for found in WAY_OUT.finditer(body)] + [len(body)]
    alive = list(values(body, one, weights))
    return sum(weight for out in outs for low, high, weight in alive if low <= out <= high)
