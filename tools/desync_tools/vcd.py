"""Reads waveforms (VCD): which variables there are, and the values of nets turn by turn.

With a clock a turn ends at each of its edges, and its values are those just before. Without one
each unit of time is a turn, as `tools/trace2vcd` writes it.
"""

from __future__ import annotations

import argparse
import re
from typing import Any, Iterable, Iterator, NamedTuple, Optional, Sequence

from desync_tools.text import BadText, Text, as_bytes

RANGE = re.compile(r"^(.*?) ?\[(\d{1,9}):(\d{1,9})\]$")
INDEX = re.compile(r"^(.*?) ?\[(\d{1,9})\]$")
EDGES = {"re": "1", "fe": "0"}
MOST_WIDE = 1 << 20
# As many names are told; a clock rises as often or more, and as many units of time apart.
MOST_TOLD, LEAST_RISES, LEAST_APART = 6, 3, 4


class Bit(NamedTuple):
    """A bit of a variable: its code, its place from the left, and how many scopes are around it."""

    code: str
    place: int
    depth: int


class Wave:
    """The variables of a waveform, and its changes as words."""

    def __init__(self, text: Text, scope: Optional[str] = None) -> None:
        self.name, self.scope = text.name, [] if scope is None else scope.split(".")
        self.bits: dict[str, Bit] = {}
        # The nets and the scopes by their whole names.
        self.nets: list[str] = []
        self.scopes: dict[str, None] = {}
        self.widths: dict[str, int] = {}
        head, mark, self.changes = text.text.partition("$enddefinitions")
        if not mark:
            raise text.fault("this is no waveform: it has no $enddefinitions")
        self.read_head(head.split())
        if scope is not None and scope not in self.scopes:
            raise text.fault("there is no scope %s (%s)" % (scope, self.has_scopes()))

    def read_head(self, words: list[str]) -> None:
        """Takes the scopes and variables."""
        around: list[str] = []
        at = 0
        while at < len(words):
            end = words.index("$end", at) if "$end" in words[at:] else len(words)
            command, rest = words[at], words[at + 1 : end]
            if command == "$scope":
                around.append(rest[-1])
                self.scopes[".".join(around)] = None
            elif command == "$upscope" and around:
                around.pop()
            elif command == "$var" and len(rest) > 3:
                self.take(around, rest)
            at = end + 1

    def take(self, around: list[str], rest: list[str]) -> None:
        """Takes a variable, if it lies in the scope."""
        if around[: len(self.scope)] != self.scope or not rest[1].isdigit():
            return
        width, code = int(rest[1]), rest[2]
        if rest[0] in ("real", "realtime", "event", "string") or not 0 < width <= MOST_WIDE:
            return
        self.widths[code] = width
        inner = around[len(self.scope) :]
        for name, place in self.names(" ".join(rest[3:]).lstrip("\\"), width):
            bit = Bit(code, place, len(inner))
            self.nets.append(".".join(inner + [name]))
            # With a scope a name is told from there on; else it may begin at any scope.
            for behind in range(1 if self.scope else len(inner) + 1):
                whole = ".".join(inner[behind:] + [name])
                if whole not in self.bits or self.bits[whole].depth > bit.depth:
                    self.bits[whole] = bit

    def names(self, name: str, width: int) -> Iterator[tuple[str, int]]:
        """The nets of a variable, each with its place from the left."""
        found = RANGE.match(name)
        if found:
            left, right = int(found.group(2)), int(found.group(3))
            step = 1 if right >= left else -1
            for place in range(min(width, abs(right - left) + 1)):
                yield "%s[%d]" % (found.group(1), left + step * place), place
            if width == 1:
                yield found.group(1), 0
            return
        found = INDEX.match(name)
        if width == 1:
            yield ("%s[%s]" % found.groups() if found else name), 0
        else:
            for place in range(width):
                yield "%s[%d]" % (name, width - 1 - place), place

    def times(self) -> Iterator[tuple[int, list[tuple[str, str]]]]:
        """Each time with the changes of it, as codes and values."""
        time, found = 0, list[tuple[str, str]]()
        words = iter(self.changes.split())
        for word in words:
            if word[0] == "#" and word[1:].isdigit():
                yield time, found
                time, found = int(word[1:]), []
            elif word[0] in "bB":
                code = next(words, "")
                found.append((code, self.filled(word[1:].lower(), self.widths.get(code, 1))))
            elif word[0] in "rRsS":
                next(words, "")
            elif word[0] in "01xzXZ" and len(word) > 1:
                found.append((word[1:], word[0].lower()))
        yield time, found

    @staticmethod
    def filled(value: str, width: int) -> str:
        """A value as wide as its variable; what is left out is as its first digit, or 0."""
        value = value.replace("z", "x")
        first = "x" if value[:1] == "x" else "0"
        return value.rjust(width, first)[-width:]

    def bit(self, name: str) -> Bit:
        """The bit of a net."""
        if name not in self.bits:
            where = " in the scope %s" % ".".join(self.scope) if self.scope else ""
            raise BadText("%s: there is no %s%s (%s)" % (self.name, name, where, self.has_scopes()))
        return self.bits[name]

    def clock_bit(self, name: str) -> Bit:
        """The bit of a clock."""
        if name not in self.bits:
            raise BadText("%s: there is no clock %s (%s)" % (self.name, name, self.has_clocks()))
        return self.bits[name]

    def has_scopes(self) -> str:
        """The scopes, as they are told."""
        return "scopes: %s" % told(self.scopes)

    def has_clocks(self) -> str:
        """The variables of one bit, as they are told: those that rise most often first."""
        rises = self.rises()
        names = sorted(rises, key=lambda name: -len(rises[name]))
        return "variables of one bit: %s" % told(names)

    def rises(self) -> dict[str, list[int]]:
        """The times at which each variable of one bit becomes 1, by the first name of each."""
        names: dict[str, str] = {}
        for net in self.nets:
            bit = self.bits[net]
            if self.widths[bit.code] == 1:
                names.setdefault(bit.code, net)
        found: dict[str, list[int]] = {name: [] for name in names.values()}
        for time, changes in self.times():
            for code, value in changes:
                if code in names and value == "1":
                    found[names[code]].append(time)
        return found

    def ticks(self) -> list[str]:
        """The variables that look like a clock: they rise again and again, equally far apart."""
        found = []
        for name, times in self.rises().items():
            apart = {behind - before for before, behind in zip(times, times[1:])}
            if len(times) >= LEAST_RISES and len(apart) == 1 and apart.pop() >= LEAST_APART:
                found.append(name)
        return found

    def turns(self, names: Sequence[str], clock: Optional[str], edge: str = "re") -> Iterator[str]:
        """The values of some nets, turn by turn."""
        bits = [self.bit(name) for name in names]
        if clock is None:
            return self.by_time(bits)
        return self.by_clock(bits, self.clock_bit(clock), edge)

    def by_clock(self, bits: Sequence[Bit], clock: Bit, edge: str) -> Iterator[str]:
        """The values before each edge of the clock; the values that it begins with are no edge."""
        values = {code: "x" * width for code, width in self.widths.items()}
        is_first = True
        for _, changes in self.times():
            new = dict(changes).get(clock.code)
            before = values[clock.code][clock.place]
            if new is not None and new[clock.place] == EDGES[edge] != before and not is_first:
                yield row(bits, values)
            values.update(changes)
            is_first = is_first and not changes

    def by_time(self, bits: Sequence[Bit]) -> Iterator[str]:
        """The values at each time but the last one, which ends the waveform."""
        values = {code: "x" * width for code, width in self.widths.items()}
        now = 0
        for time, changes in self.times():
            while now < time:
                yield row(bits, values)
                now += 1
            values.update(changes)


def row(bits: Sequence[Bit], values: dict[str, str]) -> str:
    """The values of some bits."""
    return "".join(values[bit.code][bit.place] for bit in bits).replace("z", "x")


def told(names: Iterable[str]) -> str:
    """Some names, of many the first ones."""
    some = list(names)
    return ", ".join(some[:MOST_TOLD]) + (", .." if len(some) > MOST_TOLD else "") or "none"


def is_wave(text: Text) -> bool:
    """Whether a text is a waveform."""
    return text.text.lstrip().startswith("$")


def take_wave(words: argparse.ArgumentParser) -> None:
    """Adds the options that say how a waveform is read to the words of a tool."""
    named: dict[str, Any] = {"metavar": "NAME", "type": as_bytes}
    words.add_argument("--clock", help="the clock of a waveform", **named)
    says = "the scope of a waveform that is looked at, as tb.dut"
    words.add_argument("--scope", help=says, **named)
