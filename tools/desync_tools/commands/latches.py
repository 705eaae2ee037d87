"""Writes the latches of a netlist and the controllers of its graph in Verilog, to be simulated.

The module has the tables as assignments, a master and a slave latch for each register, and for each
node of the graph a process that waits for the tokens of its orders, and then for a delay that is
drawn by --seed: of 4 to 19 units, and each fourth time of up to 259. A latch that is open follows
its data one unit later. Each time OUT closes it prints `TURN OUTPUTS`.

These are the rows of `desync clock`, without the registers and the last line, for every seed, where
`desync accept` takes the graph. It is not checked here: take an order out, and look. A graph with
further signals or dummies is refused. Another seed may be given to the simulator too:
`vvp -n latches +seed=2`.
"""

from __future__ import annotations

import argparse
import re
from typing import Iterator

from desync_tools.clusters import Cluster, Split, take_groups, take_mode
from desync_tools.command import Parser, number_word, parser, put
from desync_tools.graphs import Graph
from desync_tools.manual import GROUPS, NETLIST, Example, File, Manual, read
from desync_tools.netlist import Net, Netlist, Table, printed, read_netlist
from desync_tools.text import BadText, text_of
from desync_tools.vectors import vectors_of

QUICKEST, SPREAD, SLOW = 4, 16, 256
NODE = r"(IN|OUT|[MS]\d+)"
OWN = re.compile(r"^(vectors?|turn|seed|M:.*|node_%s|%s(_open|[+-]))$" % (NODE, NODE))


def word_of(text: str) -> str:
    """A name of Verilog: it is escaped, so that all characters but blanks may stand in it. A byte
    that none may have, or a backquote, which begins a macro there too, stands between two `#`,
    which no name of a netlist has."""
    kept = "".join(c if "!" <= c <= "~" and c != "`" else "#%x#" % ord(c) for c in text)
    return "\\%s " % kept


def comment(text: str) -> str:
    """A name in a comment: none of its bytes ends the line, or the comment."""
    return "".join(c if " " <= c <= "~" else "#%x#" % ord(c) for c in text)


def net(one: Net) -> str:
    """The word of a net, which is that of the slave of a register. Behind a name that the module
    has itself stands a `#`."""
    name = printed(one)
    return word_of(name + "#" if OWN.match(name) else name)


def master(one: Net) -> str:
    """The word of the master of a register."""
    return word_of("M:" + printed(one))


def counted(event: str) -> str:
    """The number of firings of an event."""
    return word_of(event)


def is_open(node: str) -> str:
    """The word that says whether a node is open."""
    return word_of(node + "_open")


def expression(table: Table) -> str:
    """A table as an expression."""
    rows = table.rows
    if not table.inputs:
        return "1'b%s" % (rows[-1][0] if rows else "0")
    terms = []
    for row in rows:
        signs = [(net(one), bit) for one, bit in zip(table.inputs, row[0]) if bit != "-"]
        literals = [name if bit == "1" else "~" + name for name, bit in signs]
        terms.append("(%s)" % " & ".join(literals or ["1'b1"]))
    joined = " | ".join(terms) or "1'b0"
    return "~(%s)" % joined if rows and rows[0][1] == "0" else joined


def stored(netlist: Netlist) -> Iterator[str]:
    """What holds values: the vector, and the latches."""
    if netlist.columns:
        yield "  reg [%d:0] vector = 0;" % (len(netlist.columns) - 1)
    for place, one in enumerate(netlist.columns):
        yield "  wire %s= vector[%d];" % (net(one), len(netlist.columns) - 1 - place)
    for one, bit in zip(netlist.registers, netlist.starts):
        yield "  reg %s= 1'b%s, %s= 1'bx;" % (net(one), bit, master(one))


def logic(netlist: Netlist) -> Iterator[str]:
    """The tables."""
    for table in netlist.tables:
        yield "  wire %s;" % net(table.output)
    for table in netlist.tables:
        yield "  assign %s= %s;" % (net(table.output), expression(table))


def latches(netlist: Netlist, found: list[Cluster]) -> Iterator[str]:
    """A master and a slave for each register, which follow their data while they are open."""
    for number, cluster in enumerate(found):
        for place in cluster.places:
            register, data = netlist.registers[place], netlist.data[place]
            names = (is_open("M%d" % number), master(register), net(data))
            yield "  always @* if (%s) %s<= #1 %s;" % names
            names = (is_open("S%d" % number), net(register), master(register))
            yield "  always @* if (%s) %s<= #1 %s;" % names


def waiting(graph: Graph, event: str) -> str:
    """The wait for the tokens of an event, and for a delay."""
    into = graph.into.get(event, [])
    terms = ["%s+ %d > turn" % (counted(source), tokens) for source, tokens in into]
    waits = "wait (%s) " % " && ".join(terms) if terms else ""
    spread = "({$random(seed)} %% 4 ? %d : %d)" % (SPREAD, SLOW)
    return "      %s#(%d + {$random(seed)} %% %s);" % (waits, QUICKEST, spread)


class Run:
    """What is simulated: a netlist by a graph with vectors, and the number of its delays."""

    def __init__(self, netlist: Netlist, graph: Graph, vectors: list[str], seed: int) -> None:
        self.netlist, self.graph, self.vectors, self.seed = netlist, graph, vectors, seed
        self.turns = len(vectors)


def process(run: Run, node: str) -> Iterator[str]:
    """The controller of a node. The seed may be given to the simulator too, as `+seed=2`."""
    netlist, graph, turns = run.netlist, run.graph, run.turns
    yield "  initial begin : %s" % word_of("node_" + node)
    yield "    integer turn, seed;"
    yield '    if (!$value$plusargs("seed=%%d", seed)) seed = %d;' % run.seed
    yield "    seed = seed + %d;" % (7919 * graph.nodes[node])
    yield "    for (turn = 0; turn < %d; turn = turn + 1) begin" % turns
    yield waiting(graph, node + "+")
    if node == "IN" and netlist.columns and turns:
        yield "      vector = vectors[turn];"
    yield "      %s= 1; %s= turn + 1;" % (is_open(node), counted(node + "+"))
    yield waiting(graph, node + "-")
    yield "      %s= 0; %s= turn + 1;" % (is_open(node), counted(node + "-"))
    if node == "OUT":
        outputs = ", ".join(map(net, netlist.outputs))
        shown = ' "%%b", {%s}' % outputs if netlist.outputs else ' "-"'
        yield '      $display("%%0d ", turn,%s);' % shown
    yield "    end"
    yield "  end"


def module(run: Run, split: Split, has_dump: bool) -> Iterator[str]:
    """The lines of the module. It ends in any case, long after the last event that may fire."""
    netlist, graph, vectors = run.netlist, run.graph, run.vectors
    yield "`timescale 1ns/1ns"
    yield "module latches;"
    if netlist.columns and vectors:
        width, last = len(netlist.columns), len(vectors) - 1
        yield "  reg [%d:0] vectors [0:%d];" % (width - 1, last)
        yield "  initial begin"
        for turn, vector in enumerate(vectors):
            yield "    vectors[%d] = %d'b%s;" % (turn, width, vector)
        yield "  end"
    if has_dump:
        yield '  initial begin $dumpfile("latches.vcd"); $dumpvars; end'
    for node in graph.nodes:
        names = (is_open(node), counted(node + "+"), counted(node + "-"))
        yield "  reg %s= 0; integer %s= 0, %s= 0;" % names
    yield from stored(netlist)
    yield from logic(netlist)
    yield from latches(netlist, split.clusters)
    held = split.names()
    for node in graph.nodes:
        yield "  // %s" % " ".join(dict.fromkeys((node, comment(held[node]))))
        yield from process(run, node)
    latest = 10 * (2 * len(graph.nodes) * run.turns + 1) * (QUICKEST + SLOW)
    yield "  initial #(64'd%d) $finish(0);" % latest
    yield "endmodule"


def checked(graph: Graph, split: Split) -> Graph:
    """A graph, which is to have the nodes of a netlist in clusters and nothing else."""
    whole = "%s by %s" % (split.netlist.path, split.how)
    for node in split.nodes:
        if node not in graph.nodes:
            raise BadText("%s has no %s, which %s has" % (graph.path, node, whole))
    known = set(split.nodes)
    for name in [*graph.dummies, *(name for name in graph.nodes if name not in known)]:
        raise BadText("%s has %s, which is no node of %s" % (graph.path, name, whole))
    return graph


MANUAL = Manual(
    (
        NETLIST,
        read("graph", "`.g`", "Controller graph"),
        read("vectors", "vectors", "Vectors"),
        GROUPS,
        File("output", "Verilog (IEEE 1364-2005), written"),
        File("latches.vcd", "a waveform, written by the simulator with --dump"),
    ),
    (
        Example(
            "Simulates the latches of the toggle by Icarus Verilog.",
            """
$ desync graph examples/toggle.blif > toggle.g
$ tools/latches examples/toggle.blif toggle.g examples/toggle.vec --seed 1 > latches.v
$ iverilog -o latches latches.v
$ vvp -n latches
0 0
1 1
2 0
3 0
""",
        ),
    ),
)


def words(name: str) -> Parser:
    taken = parser(name, __doc__, MANUAL)
    taken.add_argument("netlist", help="the netlist in BLIF")
    taken.add_argument("graph", help="its controller graph")
    taken.add_argument("vectors", help="the vectors")
    take_mode(taken)
    take_groups(taken)
    says = "the number that the delays come from (the default is 0)"
    taken.add_argument("--seed", type=number_word, default=0, help=says)
    taken.add_argument("--dump", action="store_true", help="write a waveform, latches.vcd, too")
    return taken


def main(argv: list[str]) -> int:
    asked: argparse.Namespace = words(argv[0]).parse_args(argv[1:])
    netlist = read_netlist(asked.netlist, True)
    split = Split(netlist, asked.clusters, asked.groups)
    graph = checked(Graph(text_of(asked.graph)), split)
    vectors = list(vectors_of(text_of(asked.vectors), len(netlist.columns)))
    run = Run(netlist, graph, vectors, asked.seed)
    put("latin-1", module(run, split, asked.dump))
    return 0
