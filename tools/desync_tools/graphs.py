"""Reads the text of a controller graph, as `desync graph` writes it."""

from __future__ import annotations

import re
from typing import Iterable, Iterator, Optional, Union

from desync_tools.text import BadText, Text

EVENT = re.compile(r"^(.+)([+-])$")
NODE = re.compile(r"^(IN|OUT|[MS]\d+)$")
ENTRY = re.compile(r"^(?:<([^,<>]+),([^,<>]+)>|([^<>=]+))(?:=(\d{1,3}))?$")
# A place has a name, or stands between two events. An arc: source, target and tokens.
Place = Union[str, tuple[str, str]]
Arc = tuple[str, str, int]
Pair = tuple[str, str]


class Graph:
    """The signals of a graph, of which most are nodes, and its dummies, each with its number; its
    places by their names, and the tokens of each; the arcs into each event."""

    def __init__(self, text: Text) -> None:
        self.path, self.name = text.name, "graph"
        self.nodes: dict[str, int] = {}
        self.dummies: dict[str, int] = {}
        self.sources: dict[Place, str] = {}
        self.targets: dict[Place, str] = {}
        self.tokens: dict[Place, int] = {}
        for number, words in text.rows():
            if words[0] == ".end":
                break
            try:
                self.read(words)
            except BadText as error:
                raise text.fault(str(error), number) from None
        if not self.nodes:
            raise text.fault("the text has no nodes")
        self.into: dict[str, list[tuple[str, int]]] = {}
        for source, target, tokens in self.arcs():
            self.into.setdefault(target, []).append((source, tokens))

    def read(self, words: list[str]) -> None:
        """Takes the words of a line."""
        if words[0] == ".graph":
            return
        if words[0] == ".model":
            self.name = " ".join(words[1:])
        elif words[0] in (".inputs", ".outputs", ".internal"):
            declare(self.nodes, words[1:])
        elif words[0] == ".dummy":
            declare(self.dummies, words[1:])
        elif words[0] == ".marking":
            entries = " ".join(words[1:]).strip("{} ").split(" ")
            self.mark(entry for entry in entries if entry)
        elif words[0].startswith("."):
            raise BadText("unknown command %s" % words[0])
        else:
            for target in words[1:]:
                self.join(words[0], target)

    def join(self, source: str, target: str) -> None:
        """Notes what stands on one line: two events with a place between, or one and a place."""
        if self.is_event(source) and self.is_event(target):
            place = (source, target)
            self.sources[place], self.targets[place] = source, target
        elif self.is_event(source):
            self.sources[target] = source
        elif self.is_event(target):
            self.targets[source] = target
        else:
            raise BadText("%s leads to %s, and neither is an event" % (source, target))

    def is_event(self, word: str) -> bool:
        parts = EVENT.match(word)
        return word in self.dummies or parts is not None and parts.group(1) in self.nodes

    def mark(self, entries: Iterable[str]) -> None:
        """Takes the entries of a marking."""
        for entry in entries:
            parts = ENTRY.match(entry)
            if not parts:
                raise BadText("bad marking %s" % entry)
            source, target, place, count = parts.groups()
            self.tokens[place or (source, target)] = int(count or 1)

    def arcs(self) -> Iterator[Arc]:
        """The source, the target and the tokens of each place."""
        for place, source in self.sources.items():
            if place in self.targets:
                yield source, self.targets[place], self.tokens.get(place, 0)

    def data_edges(self) -> Iterator[tuple[Pair, list[str]]]:
        """The pairs of nodes with both orders of a data edge, P+ to C+ and C- to P+, each with the
        names of the signals and dummies through which these orders go."""
        after: dict[str, list[str]] = {}
        for source, target, _ in self.arcs():
            after.setdefault(source, []).append(target)
        reached = {event: reached_from(event, after) for event in after if node_of(event)}
        for source, ways in reached.items():
            first = node_of(source) or ""
            for target, names in ways.items():
                second = node_of(target) or ""
                back = reached.get(second + "-", {})
                if source[-1] == target[-1] == "+" and source in back and carries(first, second):
                    yield (first, second), list(dict.fromkeys(names + back[source]))


def declare(names: dict[str, int], words: list[str]) -> None:
    """Numbers the words that are not yet among some names."""
    for word in words:
        names.setdefault(word, len(names))


def node_of(event: str) -> Optional[str]:
    """The node of an event; None where it is none's."""
    parts = EVENT.match(event)
    return parts.group(1) if parts and NODE.match(parts.group(1)) else None


def reached_from(source: str, after: dict[str, list[str]]) -> dict[str, list[str]]:
    """The events of nodes to which an event leads, along an arc or through events that are no
    node's, each with the names of those on the shortest way."""
    found: dict[str, list[str]] = {}
    seen = {source}
    waiting: list[tuple[str, list[str]]] = [(source, [])]
    for event, names in waiting:
        for target in after.get(event, []):
            if target in seen:
                continue
            seen.add(target)
            if node_of(target):
                found[target] = names
            else:
                parts = EVENT.match(target)
                waiting.append((target, names + [parts.group(1) if parts else target]))
    return found


def carries(first: str, second: str) -> bool:
    """Whether data may go from a node to another: from a master to its own slave alone."""
    if first[0] == "M" or second[0] == "S":
        return first[0] == "M" and second == "S" + first[1:]
    return second != "IN" and first != "OUT"
