"""Prints a trace as a table, a column a bus, with the names of the netlist.

It reads the trace from a file or, where none is named, from the standard input. The first row says
which part is which, the second has the names. Each further row is a turn: the columns of the
vectors where --vectors names them, the outputs, and the registers before it. The last row has the
registers after the last turn, and `-` for what is not known then. A digit of which some bits are
`x` is `X`, and `x` where all are.
"""

from __future__ import annotations

import argparse
import sys
from collections import Counter
from typing import Iterator, Optional, Sequence

from desync_tools.buses import Bus, buses
from desync_tools.command import Parser, parser, put
from desync_tools.manual import NETLIST, VECTORS, Example, File, Manual, read
from desync_tools.netlist import Net, Netlist, read_netlist
from desync_tools.text import BadText, as_bytes, shown, text_of
from desync_tools.traces import fitting, vectors_beside

RADIX = {"x": 4, "b": 1}
TITLES = ["", "outputs", "registers"]
# A line: the cells of each part. A row: the values of each part, where they are known.
Line = list[list[str]]
Row = tuple[Optional[str], ...]


def digit(bits: str) -> str:
    """The digit of some bits, in hexadecimal."""
    if "x" in bits:
        return "X" if bits.strip("x") else "x"
    return "%x" % int(bits, 2)


def number(bits: str, radix: str) -> str:
    """The number that some bits are, the leftmost first."""
    if radix == "d":
        return digit(bits) if "x" in bits else str(int(bits, 2))
    size = RADIX[radix]
    bits = bits.rjust(-(-len(bits) // size) * size, "x" if bits[0] == "x" else "0")
    return "".join(digit(bits[at : at + size]) for at in range(0, len(bits), size))


class Part:
    """The columns of a table that show nets of one kind."""

    def __init__(self, nets: Sequence[Net], only: Optional[list[str]], radix: str) -> None:
        self.radix, found = radix, list(buses(nets))
        names = Counter(bus.name for bus in found)
        self.heads: list[str] = []
        self.buses: list[Bus] = []
        for bus in found:
            whole = bus.name if bus.width > 1 or not bus.span() else bus.name + bus.span()
            head = whole if names[bus.name] == 1 else bus.name + bus.span()
            if not only or {bus.name, head} & set(only):
                self.heads.append(head)
                self.buses.append(bus)

    def cells(self, row: Optional[str]) -> list[str]:
        """The numbers of a row."""
        if row is None:
            return ["-"] * len(self.buses)
        return [number(bus.bits(row), self.radix) for bus in self.buses]


def lines_of(parts: list[Part], rows: list[Row]) -> Iterator[Line]:
    """The heads and the rows, each a list of cells for each part."""
    yield [["turn"]] + [[shown(head) for head in part.heads] for part in parts]
    for turn, row in enumerate(rows):
        name = "end" if turn == len(rows) - 1 else str(turn)
        yield [[name]] + [part.cells(values) for part, values in zip(parts, row)]


def set_out(titles: list[str], lines: list[Line]) -> Iterator[str]:
    """The lines with cells one below another, a bar between parts, and the titles of the parts."""
    kept = [place for place, cells in enumerate(lines[0]) if cells]
    lines = [[line[place] for place in kept] for line in lines]
    sizes = [[max(map(len, cells)) for cells in zip(*part)] for part in zip(*lines)]
    heads = [titles[place] for place in kept]
    for head, widths in zip(heads, sizes):
        widths[0] += max(0, len(head) - sum(widths) - len(widths) + 1)
    wide = [sum(widths) + len(widths) - 1 for widths in sizes]
    yield " | ".join(head.ljust(size) for head, size in zip(heads, wide)).rstrip()
    for line in lines:
        yield " | ".join(
            " ".join(cell.rjust(size) for cell, size in zip(cells, widths))
            for cells, widths in zip(line, sizes)
        )


def asked_for(asked: argparse.Namespace, netlist: Netlist) -> tuple[list[Part], list[Row]]:
    """The parts of the table, and the rows with values for each part."""
    turns = fitting(netlist, text_of(asked.trace))
    rows: list[Row] = list(turns)
    kinds = [netlist.outputs, netlist.registers]
    if asked.vectors is not None:
        found: list[Optional[str]] = [*vectors_beside(netlist, asked.vectors, turns), None]
        kinds = [netlist.columns] + kinds
        rows = [(vector,) + row for vector, row in zip(found, rows)]
    return [Part(nets, asked.only, asked.radix) for nets in kinds], rows


def checked(parts: list[Part], netlist: Netlist, only: Optional[list[str]]) -> list[Part]:
    """Refuses a name that no part has."""
    known = {bus.name for part in parts for bus in part.buses}
    known |= {head for part in parts for head in part.heads}
    for name in only or ():
        if name not in known:
            raise BadText("%s: there is no %s" % (netlist.path, name))
    return parts


MANUAL = Manual(
    (
        NETLIST,
        read("trace", "a trace", "Trace"),
        VECTORS,
        File("output", "a table as text, written"),
    ),
    (
        Example(
            "Shows a run of the counter with its vectors.",
            """
$ tools/table examples/counter.blif examples/counter.trace --vectors examples/counter.vec
     | vectors      | outputs | registers
turn | reset enable |   count |     state
   0 |     0      1 |       0 |         0
   1 |     0      1 |       1 |         1
   2 |     0      0 |       2 |         2
   3 |     0      1 |       2 |         2
   4 |     0      1 |       3 |         3
   5 |     0      1 |       0 |         0
   6 |     1      1 |       1 |         1
   7 |     0      1 |       0 |         0
 end |     -      - |       - |         1
""",
        ),
    ),
)


def words(name: str) -> Parser:
    taken = parser(name, __doc__, MANUAL)
    taken.add_argument("netlist", help="the netlist in BLIF")
    taken.add_argument("trace", nargs="?", help="what desync run or clock printed")
    taken.add_argument("--vectors", metavar="FILE", help="the vectors of the run")
    says = "show these buses alone"
    taken.add_argument("--only", metavar="NAME", nargs="+", type=as_bytes, help=says)
    says = "hexadecimal (the default), decimal or binary"
    taken.add_argument("--radix", choices=("x", "d", "b"), default="x", help=says)
    return taken


def main(argv: list[str]) -> int:
    asked = words(argv[0]).parse_args(argv[1:])
    if hasattr(sys, "set_int_max_str_digits"):
        sys.set_int_max_str_digits(0)
    netlist = read_netlist(asked.netlist)
    parts, rows = asked_for(asked, netlist)
    lines = lines_of(checked(parts, netlist, asked.only), rows)
    titles = TITLES if len(parts) < len(TITLES) else ["", "vectors", *TITLES[1:]]
    put("utf-8", set_out(titles, list(lines)))
    return 0
