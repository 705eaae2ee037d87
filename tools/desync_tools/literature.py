"""Reads a graph of the literature: the `.g` form with all that petrify, SIS and Workcraft write."""

from __future__ import annotations

import re
from typing import Iterator, Optional, Union

from desync_tools.text import BadText, Text

SIGNALS = (".inputs", ".outputs", ".internal")
DUMMY = ".dummy"
LEFT_OUT = (".capacity", ".coords", ".initial", ".slowenv", ".time")
TRANSITION = re.compile(r"^([^/]+)([+~-])(?:/(\d+))?$")
INSTANCE = re.compile(r"^([^/]+)/(\d+)$")
ENTRY = re.compile(r"^(?:<([^,<>]+),([^,<>]+)>|([^<>=]+))(?:=(\d+))?$")
SIGNS = {"+": "plus", "-": "minus", "~": "toggle"}
BAD_LETTER = re.compile(r"[/~<>,{}=+-]")
# The number of a line, and what is said of it.
Note = tuple[int, str]


class Line:
    """A logical line: the number of its first physical line, and its words."""

    def __init__(self, number: int, words: list[str]) -> None:
        self.number, self.words = number, words


class Literature:
    """A graph as it is read: its model, its declarations, its arcs and its marking, and what was
    changed so that Desync can read it."""

    def __init__(self, text: Text) -> None:
        self.text, self.model = text, ""
        self.declared: dict[str, dict[str, None]] = {kind: {} for kind in SIGNALS + (DUMMY,)}
        # The targets of each source, all targets, and the tokens of each place.
        self.arcs: dict[str, dict[str, None]] = {}
        self.aimed: set[str] = set()
        self.marking: dict[Union[str, tuple[str, str]], int] = {}
        # The first line of each arc.
        self.line_of: dict[tuple[str, str], int] = {}
        self.changes: list[Note] = []
        # The dummies that stand for words, and these words.
        self.own: dict[str, str] = {}
        self.words: dict[str, str] = {}
        # The number of the line that is read.
        self.at = 0
        lines = list(logical_lines(text))
        self.taken = {word for line in lines for word in line.words}
        for line in lines:
            if line.words[0] in self.declared:
                self.declared[line.words[0]].update(dict.fromkeys(line.words[1:]))
        # A marking may stand before the arcs that it marks.
        for line in sorted(lines, key=lambda line: line.words[0] == ".marking"):
            self.read(line)

    def read(self, line: Line) -> None:
        """Takes what a line says, but for its declarations."""
        first = line.words[0]
        self.at = line.number
        if first in (".model", ".name"):
            self.name(line)
        elif first in LEFT_OUT:
            self.changes.append((line.number, "left out %s" % first))
        elif first == ".marking":
            self.mark(line)
        elif first == ".graph" or first in self.declared:
            return
        elif first == ".state":
            raise self.fault("a graph of states has no transitions to read")
        elif first.startswith("."):
            raise self.fault("unknown command %s" % first)
        else:
            self.join(line)

    def name(self, line: Line) -> None:
        """Takes the name of the model."""
        if not self.model and len(line.words) > 1:
            self.model = line.words[1]
        if line.words[0] == ".name":
            self.changes.append((line.number, "took .name for .model"))

    def join(self, line: Line) -> None:
        """Takes the arcs of a line of the graph."""
        source = self.item(line.words[0])
        if len(line.words) == 1:
            raise self.fault("%s leads to nothing" % line.words[0])
        for word in line.words[1:]:
            target = self.item(word)
            if not self.is_event(source) and not self.is_event(target):
                told = "%s leads to %s, and neither is an event" % (line.words[0], word)
                raise self.fault(told + ": a dummy may lack its .dummy")
            self.arcs.setdefault(source, {})[target] = None
            self.line_of.setdefault((source, target), line.number)
            self.aimed.add(target)

    def mark(self, line: Line) -> None:
        """Takes the entries of a marking."""
        for entry in entries_of(" ".join(line.words[1:])):
            parts = ENTRY.match(entry)
            if not parts:
                raise self.fault("bad marking %s" % entry)
            source, target, place, count = parts.groups()
            key = place or (self.item(source), self.item(target))
            if not self.has(key):
                kind = "place" if isinstance(key, str) else "arc"
                raise self.fault("no %s for the marking %s" % (kind, entry))
            self.marking[key] = int(count or 1)

    def has(self, key: Union[str, tuple[str, str]]) -> bool:
        """Whether there is a place, or an arc."""
        if isinstance(key, tuple):
            return key[1] in self.arcs.get(key[0], {})
        return (key in self.arcs or key in self.aimed) and not self.is_event(key)

    def item(self, word: str) -> str:
        """What stands for a word of the graph: an event that Desync reads, or a place."""
        if word in self.own:
            return self.own[word]
        parts = TRANSITION.match(word)
        if parts and self.is_signal(parts.group(1)):
            signal, sign, number = parts.groups()
            if number is None and sign != "~":
                return word
            return self.stand_for(word, "%s_%s" % (signal, SIGNS[sign]), number)
        if parts:
            raise self.fault("the signal of %s is not declared" % word)
        parts = INSTANCE.match(word)
        if parts and parts.group(1) in self.declared[DUMMY]:
            return self.stand_for(word, parts.group(1), parts.group(2))
        return word

    def stand_for(self, word: str, stem: str, number: Optional[str]) -> str:
        """A dummy of its own for an instance or a toggle."""
        name = BAD_LETTER.sub("_", stem if number is None else "%s_%s" % (stem, number))
        while name in self.taken:
            name += "_"
        self.taken.add(name)
        self.declared[DUMMY][name] = None
        self.own[word], self.words[name] = name, word
        self.changes.append((self.at, "%s is the dummy %s" % (word, name)))
        return name

    def fault(self, why: str) -> BadText:
        """The refusal of the line that is read."""
        return self.text.fault(why, self.at)

    def is_signal(self, name: str) -> bool:
        return any(name in self.declared[kind] for kind in SIGNALS)

    def is_event(self, item: str) -> bool:
        parts = TRANSITION.match(item)
        return item in self.declared[DUMMY] or bool(parts and self.is_signal(parts.group(1)))

    def places(self) -> Iterator[tuple[str, list[str], list[str]]]:
        """Each explicit place with its sources and its targets."""
        into: dict[str, list[str]] = {}
        behind: dict[str, list[str]] = {}
        for source, targets in self.arcs.items():
            for target in targets:
                if not self.is_event(target):
                    into.setdefault(target, []).append(source)
                if not self.is_event(source):
                    behind.setdefault(source, []).append(target)
        for place in dict.fromkeys([*into, *behind]):
            yield place, into.get(place, []), behind.get(place, [])

    def faults(self) -> Iterator[Note]:
        """Why the graph is no marked graph: for each place with a choice or a merge a text, with
        the line on which the second of its events is."""
        for place, sources, targets in self.places():
            hint = "" if place in self.marking else " (or %s lacks its .dummy)" % place
            if len(targets) > 1:
                told = "a choice at %s%s: %s" % (place, hint, self.told(targets))
                yield self.line_of[place, targets[1]], told
            if len(sources) > 1:
                told = "a merge at %s%s: %s" % (place, hint, self.told(sources))
                yield self.line_of[sources[1], place], told
            if not targets:
                yield self.line_of[sources[0], place], "%s has no target" % place
            if not sources:
                yield self.line_of[place, targets[0]], "%s has no source" % place

    def told(self, events: list[str]) -> str:
        """Some events as the text names them."""
        return " ".join(self.words.get(event, event) for event in events)

    def lines(self) -> Iterator[str]:
        """The lines of the graph as Desync reads them."""
        yield ".model %s" % (self.model or "graph")
        for kind, names in self.declared.items():
            if names:
                yield "%s %s" % (kind, " ".join(names))
        yield ".graph"
        for source, targets in self.arcs.items():
            yield "%s %s" % (source, " ".join(targets))
        yield ".marking { %s}" % "".join("%s " % entry for entry in self.entries())
        yield ".end"

    def entries(self) -> Iterator[str]:
        """The entries of the marking."""
        for key, count in self.marking.items():
            place = key if isinstance(key, str) else "<%s,%s>" % key
            if count:
                yield place if count == 1 else "%s=%d" % (place, count)


def logical_lines(text: Text) -> Iterator[Line]:
    """The lines of a text up to `.end`; a marking goes on to its brace, on whatever line."""
    marking: Optional[Line] = None
    for number, words in text.rows():
        if marking:
            marking.words += words
        elif words[0].startswith(".marking"):
            rest = words[0][len(".marking") :]
            marking = Line(number, [".marking", *([rest] if rest else []), *words[1:]])
        elif words[0] == ".end":
            return
        else:
            yield Line(number, words)
        if marking and any("}" in word for word in marking.words):
            yield marking
            marking = None
    if marking:
        raise text.fault("the marking has no end", marking.number)


def entries_of(text: str) -> list[str]:
    """The entries between the braces of a marking, with no blanks inside of one."""
    inside = re.sub(r"\s*([<,>=])\s*", r"\1", text.strip().strip("{}"))
    return re.sub(r">(?=[^=\s])", "> ", re.sub(r"(?<=[^\s,<>=])<", " <", inside)).split()
