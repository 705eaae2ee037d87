"""Turns a trace into a waveform (VCD), with the names of the netlist, for gtkwave and others.

It reads the trace from a file or, where none is named, from the standard input, and prints the
waveform. Turn k stands at the time k: the outputs in that turn, and the registers before it. The
registers of the `end` line stand at the time after the last turn, where the outputs are unknown.
With --vectors the columns are there too. A value is `0`, `1` or `x`, there as in the trace.

With --times the waveform is one of the latches: the file has a line `EVENT TURN TIME` for each
firing, as `M0+ 2 7`, with the turns counted from 1. `desync times` prints such lines, and --delays
asks it for them. Each node is 1 while it is open, each register changes when its slave opens, each
output when OUT opens, and each column when IN opens. A node that opens and closes at one time has a
pulse without width. `M3:pc,u5/flag` is the master of the bus `pc` and of `u5.flag`; a `*` stands
for all but three where a cluster has more than four such names.

Bits of one bus that stand beside one another are one variable, the first of them its rightmost bit:
`q[0] q[1]` is `q [1:0]`, and `q[1] q[0]` is `q [0:1]`. A dot in a name opens a scope: `u5.f.a` is
the variable `a` of the scope `f` in the scope `u5`.
"""

from __future__ import annotations

import re
from typing import Iterator, Optional

from desync_tools.clusters import MOST_NAMED, Split, names_of, take_groups, take_mode
from desync_tools.command import Parser, parser, put
from desync_tools.manual import GROUPS, NETLIST, TIMES, VECTORS, Example, File, Manual, read
from desync_tools.netlist import Netlist, read_netlist
from desync_tools.text import Text, text_of
from desync_tools.times import Firing, alternate, firings_of, take_times, times_of
from desync_tools.traces import Turn, fitting, vectors_beside
from desync_tools.waves import Parted, Scope, code, shown

RANGE = re.compile(r"\[[0-9]+:[0-9]+\]")


class Scopes:
    """The variables of a netlist: its columns where vectors are there, outputs and registers."""

    def __init__(self, netlist: Netlist, has_vectors: bool) -> None:
        self.name = netlist.name or "top"
        columns = netlist.columns if has_vectors else []
        self.column = Scope("columns", columns, 0)
        self.output = Scope("outputs", netlist.outputs, len(columns))
        first = len(columns) + len(netlist.outputs)
        self.register = Scope("registers", netlist.registers, first)
        # The first code that is free.
        self.free = first + len(netlist.registers)

    def declared(self, nodes: list[str]) -> Iterator[str]:
        """The head of a waveform."""
        yield "$timescale 1ns $end"
        yield "$scope module %s $end" % shown(self.name)
        if nodes:
            yield "$scope module nodes $end"
            for place, node in enumerate(nodes):
                yield "$var wire 1 %s %s $end" % (code(self.free + place), node)
            yield "$upscope $end"
        for scope in (self.column, self.output, self.register):
            yield from scope.declared()
        yield "$upscope $end"
        yield "$enddefinitions $end"


def waveform(netlist: Netlist, rows: list[Turn], vectors: Optional[list[str]]) -> Iterator[str]:
    """The waveform: its head, and a text for each turn."""
    scopes = Scopes(netlist, vectors is not None)
    column, output, register = scopes.column, scopes.output, scopes.register
    yield from scopes.declared([])
    values = (vectors or [""] * (len(rows) - 1)) + ["x" * column.size]
    for turn, (outputs, registers) in enumerate(rows):
        outputs = "x" * output.size if outputs is None else outputs
        changed = column.changes(values[turn]) + output.changes(outputs)
        yield "\n".join(["#%d" % turn] + changed + register.changes(registers))
    yield "#%d" % len(rows)


class Timed:
    """A waveform by the times of firings."""

    def __init__(self, split: Split, rows: list[Turn], vectors: Optional[list[str]]) -> None:
        self.split, self.rows, self.vectors = split, rows, vectors
        self.scopes = Scopes(split.netlist, vectors is not None)
        starts = ("x" * self.scopes.column.size, "x" * self.scopes.output.size, rows[0][1])
        scopes = (self.scopes.column, self.scopes.output, self.scopes.register)
        self.column, self.output, self.register = map(Parted, scopes, starts)
        self.codes = {node: code(self.scopes.free + at) for at, node in enumerate(split.nodes)}

    def lines(self, firings: list[Firing]) -> Iterator[str]:
        """The waveform: its head, and a line for each time and each change."""
        yield from self.scopes.declared(list(map(self.title, self.split.nodes)))
        yield "#0"
        yield from ("0" + own for own in self.codes.values())
        for part in (self.column, self.output, self.register):
            yield from map(part.line, range(len(part.scope.buses)))
        now = 0
        for firing in firings:
            if firing.time > now:
                now = firing.time
                yield "#%d" % now
            yield from self.changes(firing)
        yield "#%d" % (now + 1)

    def title(self, node: str) -> str:
        """The name of a node: that of a latch has the names of its registers, with no range, as a
        reader would take it for that of the node, and with no dots, which would open scopes."""
        if node[0] not in "MS":
            return node
        found = names_of(self.split.registers(int(node[1:])))
        names = [RANGE.sub("", name).replace(".", "/") for name in found]
        if len(names) > MOST_NAMED + 1:
            names = names[:MOST_NAMED] + ["*"]
        return "%s:%s" % (node, ",".join(names))

    def changes(self, firing: Firing) -> Iterator[str]:
        """The variables that change with a firing."""
        node, is_opening = firing.event[:-1], firing.event[-1] == "+"
        if node not in self.codes:
            return  # A signal or a dummy of a graph of the user's.
        yield "%d%s" % (is_opening, self.codes[node])
        if is_opening and node == "IN" and self.vectors is not None:
            row = self.vectors[firing.turn - 1]
            yield from self.column.taken(range(len(row)), row)
        elif is_opening and node == "OUT":
            row = self.rows[firing.turn - 1][0] or ""
            yield from self.output.taken(range(len(row)), row)
        elif is_opening and node[0] == "S":
            places = self.split.clusters[int(node[1:])].places
            yield from self.register.taken(places, self.rows[firing.turn][1])


def fitting_firings(text: Text, split: Split, turns: int) -> list[Firing]:
    """The firings of a text, which are to be those of the nodes of a netlist and a trace."""
    firings = firings_of(text)
    known = {firing.event[:-1] for firing in firings}
    whole = "%s by %s" % (split.netlist.path, split.how)
    for node in split.nodes:
        if node not in known:
            raise text.fault("there is no %s, which %s has" % (node, whole))
    for node in sorted(known - set(split.nodes)):
        if node[0] in "MS" and node[1:].isdigit():
            raise text.fault("there is %s, which %s has not" % (node, whole))
    most = max(firing.turn for firing in firings)
    if most > turns:
        raise text.fault("the times are of %d turns, the trace of %d" % (most, turns))
    alternate(text, firings, split.nodes)
    return firings


MANUAL = Manual(
    (
        NETLIST,
        read("trace", "a trace", "Trace"),
        VECTORS,
        GROUPS,
        *TIMES,
        File("output", "a waveform in VCD (IEEE 1364-2005), written"),
    ),
    (
        Example(
            "Makes a waveform of the counter, turn by turn.",
            """
$ tools/trace2vcd examples/counter.blif examples/counter.trace > counter.vcd
""",
        ),
        Example(
            "Makes a waveform of the latches of the toggle, by their delays.",
            """
$ tools/trace2vcd examples/toggle.blif examples/toggle.trace --delays examples/toggle.delays > q.vcd
""",
        ),
    ),
)


def words(name: str) -> Parser:
    taken = parser(name, __doc__, MANUAL)
    taken.add_argument("netlist", help="the netlist in BLIF")
    taken.add_argument("trace", nargs="?", help="what desync run or clock printed")
    taken.add_argument("--vectors", metavar="FILE", help="the vectors of the run")
    take_times(taken)
    take_mode(taken)
    take_groups(taken)
    return taken


def main(argv: list[str]) -> int:
    taken = words(argv[0])
    asked = taken.parse_args(argv[1:])
    if asked.groups is not None and asked.times is None and asked.delays is None:
        taken.error("--groups goes with --times or --delays")
    netlist = read_netlist(asked.netlist)
    rows = fitting(netlist, text_of(asked.trace))
    vectors = None
    if asked.vectors is not None:
        vectors = vectors_beside(netlist, asked.vectors, rows)
    turns = len(rows) - 1
    times = times_of(asked, turns, None)
    if times is None:
        put("latin-1", waveform(netlist, rows, vectors))
        return 0
    split = Split(netlist, asked.clusters, asked.groups)
    firings = fitting_firings(times, split, turns)
    put("latin-1", Timed(split, rows, vectors).lines(firings))
    return 0
