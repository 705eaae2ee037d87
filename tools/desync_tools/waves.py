"""Declares the variables of a waveform (VCD), and says which of them change."""

from __future__ import annotations

from typing import Iterable, Iterator, Sequence

from desync_tools.buses import buses
from desync_tools.netlist import Net

FIRST, LAST = 33, 126


def code(number: int) -> str:
    """A short name of a variable, as VCD wants it."""
    text = ""
    while True:
        number, digit = divmod(number, LAST - FIRST + 1)
        text += chr(FIRST + digit)
        if not number:
            return text
        number -= 1


def shown(name: str) -> str:
    """A name that a reader of waveforms does not take for a command."""
    return "\\" + name if name.startswith("$") else name


def path_of(name: str) -> list[str]:
    """The parts of a name between dots; a name with an empty part is one."""
    parts = name.split(".")
    return parts if all(parts) else [name]


class Part:
    """A scope as it is declared: its variables, and the scopes in it by their names."""

    def __init__(self, name: str) -> None:
        self.name = name
        self.variables: list[str] = []
        self.parts: dict[str, Part] = {}

    def part_at(self, path: list[str]) -> Part:
        """The scope at the end of a path."""
        found = self
        for name in path:
            found = found.parts.setdefault(name, Part(name))
        return found

    def declared(self) -> Iterator[str]:
        """The lines that declare it, with what is in it; they may be nested deeply."""
        waiting: list[tuple[Part, bool]] = [(self, False)]
        while waiting:
            part, is_declared = waiting.pop()
            if is_declared:
                yield "$upscope $end"
                continue
            yield "$scope module %s $end" % shown(part.name)
            yield from part.variables
            waiting.append((part, True))
            waiting.extend((one, False) for one in reversed(list(part.parts.values())))


class Scope:
    """The variables of some nets, their codes, and the row that was seen last."""

    def __init__(self, name: str, nets: Sequence[Net], first: int) -> None:
        self.name, self.size = name, len(nets)
        self.buses = list(buses(nets))
        self.codes = [code(first + bus.first) for bus in self.buses]
        self.old = "?" * self.size
        self.wide = [pair for pair in zip(self.buses, self.codes) if pair[0].width > 1]
        self.runs = list(self.runs_of_single())

    def runs_of_single(self) -> Iterator[tuple[int, list[str]]]:
        """(first, codes) of each run of variables of one bit."""
        first = 0
        codes: list[str] = []
        for bus, own in zip(self.buses, self.codes):
            if bus.width > 1:
                yield first, codes
                first, codes = bus.first + bus.width, []
            else:
                codes.append(own)
        yield first, codes

    def declared(self) -> Iterator[str]:
        """The lines that declare it."""
        whole = Part(self.name)
        for bus, own in zip(self.buses, self.codes):
            *path, name = path_of(bus.name)
            span = " " + bus.span() if bus.span() else ""
            line = "$var wire %d %s %s%s $end" % (bus.width, own, shown(name), span)
            whole.part_at(path).variables.append(line)
        yield from whole.declared()

    def changes(self, new: str) -> list[str]:
        """The variables whose values are not as they were."""
        old, self.old = self.old, new
        if old == new:
            return []
        found = []
        for bus, own in self.wide:
            if old[bus.first : bus.first + bus.width] != new[bus.first : bus.first + bus.width]:
                found.append("b%s %s" % (bus.bits(new), own))
        for first, codes in self.runs:
            pairs = zip(old[first : first + len(codes)], new[first : first + len(codes)], codes)
            found += [bit + own for before, bit, own in pairs if bit != before]
        return found


class Parted:
    """The variables of a scope, some of whose places change while the others keep their values."""

    def __init__(self, scope: Scope, start: str) -> None:
        self.scope, self.values = scope, list(start)
        # The number of the bus at each place.
        self.bus_at = [at for at, bus in enumerate(scope.buses) for _ in range(bus.width)]

    def taken(self, places: Iterable[int], row: str) -> list[str]:
        """The variables that change where some places take their values of a row."""
        touched: dict[int, None] = {}
        for place in places:
            if self.values[place] != row[place]:
                self.values[place] = row[place]
                touched[self.bus_at[place]] = None
        return [self.line(at) for at in touched]

    def line(self, at: int) -> str:
        """The value of a variable."""
        bus, own = self.scope.buses[at], self.scope.codes[at]
        bits = "".join(self.values[bus.first : bus.first + bus.width])[::-1]
        return bits + own if bus.width == 1 else "b%s %s" % (bits, own)
