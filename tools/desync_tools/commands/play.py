"""Makes a page, one file of HTML, that plays what the workers of a run have fired.

It reads what `desync run --log` printed from a file or, where none is named, from the standard
input.

The page shows the nodes and data edges of the graph, the latches as waves, and the log. It computes
no logic: the values that it shows are those of the trace. The graph is to be the one by which the
run fired, and without slack; a data edge is where both of its orders stand there as arcs, and an
order that is given by a walk alone shows none. Its events are those of the nodes alone. There are
200 nodes and 20,000 firings at most.

With --times, a file with a line `EVENT TURN TIME` for each firing, the page goes by these times,
with the speed that the reader sets; the run needs no log then, so a trace will do. `desync times`
prints such lines, and --delays asks it for them.
"""

from __future__ import annotations

import json
import os
from typing import Any, Iterator, Optional, Sequence

from desync_tools.buses import buses
from desync_tools.clusters import Cluster, Split, take_groups, take_mode
from desync_tools.command import Parser, parser, put
from desync_tools.graphs import Arc, Graph
from desync_tools.layers import places
from desync_tools.logs import Line, is_firing, log_of
from desync_tools.manual import GROUPS, NETLIST, TIMES, VECTORS, Example, File, Manual, read
from desync_tools.netlist import Net, Netlist, read_netlist
from desync_tools.text import BadText, Text, shown, text_of
from desync_tools.times import firings_of, take_times, times_of
from desync_tools.traces import Turn, fitting, vectors_beside

PARTS_FOLDER = os.path.join(os.path.dirname(os.path.realpath(__file__)), "..", "page")
PARTS = {"/*RULE*/": "play_rule.js", "/*LAYOUT*/": "play_layout.js", "/*PAGE*/": "play_page.js"}
MOST_NODES, MOST_FIRINGS = 200, 20000


def nodes_of(split: Split, graph: Graph) -> list[str]:
    """The nodes of the clusters, which are to be those of the graph."""
    nodes, path = split.nodes, split.netlist.path
    if len(nodes) > MOST_NODES:
        raise BadText("%s: %d nodes (limit %d)" % (path, len(nodes), MOST_NODES))
    for node in nodes:
        if node not in graph.nodes:
            told = (graph.path, node, path, split.how)
            raise BadText("%s has no %s, which %s by %s has" % told)
    for node in [*graph.nodes, *graph.dummies]:
        if node not in nodes:
            told = (graph.path, node, path, split.how)
            raise BadText("%s has %s, which %s by %s has not" % told)
    return nodes


def events_of(run: Run, arcs: list[Arc], nodes: list[str]) -> Iterator[str]:
    """The events of the log of a run, each of which may fire where it stands."""
    turns = run.turns()
    if len(run.log) > MOST_FIRINGS:
        raise run.text.fault("%d firings (limit %d)" % (len(run.log), MOST_FIRINGS))
    counts = {node + sign: 0 for node in nodes for sign in "+-"}
    into: dict[str, list[tuple[str, int]]] = {event: [] for event in counts}
    for source, target, tokens in arcs:
        into[target].append((source, tokens))
    for number, firing in run.log:
        why = refusal(firing, counts, into, turns)
        if why:
            raise run.text.fault(why, number)
        counts[firing[0]] += 1
        yield firing[0]


def refusal(
    firing: list[str], counts: dict[str, int], into: dict[str, list[tuple[str, int]]], turns: int
) -> Optional[str]:
    """Why a line of a log is none, as `desync replay` says it."""
    if not is_firing(firing):
        return "bad word"
    event, turn = firing
    if event not in counts:
        return "unknown event %s" % event
    number = counts[event] + 1
    if int(turn) != number:
        return "wrong turn"
    if number > turns:
        return "over limit"
    for source, tokens in into[event]:
        if counts[source] + tokens < number:
            return "not enabled: %s to %s" % (source, event)
    return None


class Shown:
    """How the values of some nets are shown: buses with the leftmost bit first."""

    def __init__(self, nets: Sequence[Net]) -> None:
        self.buses = list(buses(nets))
        self.is_plain = all(bus.width == 1 for bus in self.buses)

    def title(self) -> str:
        """The names of the buses."""
        return shown(" ".join(bus.name + bus.span() for bus in self.buses))

    def of(self, row: str) -> str:
        """The values of a row, bus by bus."""
        return row if self.is_plain else " ".join(bus.bits(row) for bus in self.buses)


def cluster_rows(netlist: Netlist, cluster: Cluster, rows: list[Turn]) -> tuple[str, list[str]]:
    """The title of a cluster, and its values before turn 0, 1 and so on."""
    nets = [netlist.registers[place] for place in cluster.places]
    kind = Shown(nets)
    title = kind.title() if len(kind.buses) == 1 else shown(cluster.title())
    values = [kind.of("".join(row[place] for place in cluster.places)) for _, row in rows]
    return title, values


class Run:
    """A run of a netlist: the rows of its trace, its log, where that stands, and its vectors."""

    def __init__(self, netlist: Netlist, text: Text, vectors: Optional[str]) -> None:
        self.netlist, self.text = netlist, text
        self.log: list[Line] = []
        self.times: Optional[list[int]] = None
        self.rows = fitting(netlist, text)
        self.vectors = [] if vectors is None else vectors_beside(netlist, vectors, self.rows)

    def turns(self) -> int:
        """The number of turns."""
        return len(self.rows) - 1

    def take_log(self, times: Optional[Text]) -> None:
        """Takes the firings from behind the trace or, by their times, from another text."""
        if times is None:
            self.log = log_of(self.text)
            return
        firings = firings_of(times)
        self.text, self.times = times, [firing.time for firing in firings]
        self.log = [(firing.line, [firing.event, str(firing.turn)]) for firing in firings]


def values_of(run: Run, found: list[Cluster]) -> tuple[dict[str, str], dict[str, list[str]]]:
    """The titles and the values of IN, of OUT and of each cluster."""
    columns, outputs = Shown(run.netlist.columns), Shown(run.netlist.outputs)
    titles = {"IN": columns.title(), "OUT": outputs.title()}
    values = {"IN": [columns.of(row) for row in run.vectors]}
    values["OUT"] = [outputs.of(row or "") for row, _ in run.rows[:-1]]
    for number, cluster in enumerate(found):
        titles[str(number)], values[str(number)] = cluster_rows(run.netlist, cluster, run.rows)
    return titles, values


def model(run: Run, graph: Graph, split: Split) -> dict[str, Any]:
    """What the page is told."""
    found = split.clusters
    nodes, arcs = nodes_of(split, graph), sorted(graph.arcs())
    edges = sorted(pair for pair, _ in graph.data_edges())
    titles, values = values_of(run, found)
    events = list(events_of(run, arcs, nodes))
    place = places(edges)
    for node in nodes:
        if node not in place:
            raise BadText("%s lacks the orders of %s" % (graph.path, node))
    told = {
        "name": shown(run.netlist.name),
        "turns": run.turns(),
        "nodes": nodes,
        "titles": titles,
        "places": place,
        "edges": edges,
        "values": values,
        "arcs": [list(arc) for arc in arcs],
        "log": events,
    }
    return told if run.times is None else dict(told, times=run.times)


def read_part(name: str) -> str:
    """A part of the page."""
    with open(os.path.join(PARTS_FOLDER, name), encoding="utf-8") as file:
        return file.read().rstrip("\n")


def page(told: dict[str, Any]) -> str:
    """The page, with its parts and what it is told."""
    text = read_part("play.html")
    for mark, name in PARTS.items():
        text = text.replace(mark, read_part(name))
    title = told["name"].replace("&", "&amp;").replace("<", "&lt;")
    data = json.dumps(told, separators=(",", ":")).replace("<", "\\u003c")
    before, behind = text.split("/*MODEL*/")
    return before.replace("<!--NAME-->", title) + data + behind


MANUAL = Manual(
    (
        NETLIST,
        read("graph", "`.g`", "Controller graph"),
        read("run", "a trace and a log", "Trace and Firing logs"),
        VECTORS,
        GROUPS,
        *TIMES,
        File("output", "a page of HTML, written"),
    ),
    (
        Example(
            "Makes a page of a run of the shift register.",
            """
$ desync graph examples/shift.blif > shift.g
$ desync run examples/shift.blif examples/shift.vec --log > shift.run
$ tools/play examples/shift.blif shift.g shift.run --vectors examples/shift.vec > shift.html
""",
        ),
        Example(
            "Makes a page of the run that is stored with the examples.",
            """
$ tools/play examples/shift.blif examples/shift.g examples/shift.run > shift.html
""",
        ),
    ),
)


def words(name: str) -> Parser:
    taken = parser(name, __doc__, MANUAL)
    taken.add_argument("netlist", help="the netlist in BLIF")
    taken.add_argument("graph", help="the graph by which the run fired")
    taken.add_argument("run", nargs="?", help="what desync run --log printed")
    taken.add_argument("--vectors", metavar="FILE", help="the vectors of the run, to be shown too")
    take_mode(taken)
    take_groups(taken)
    take_times(taken)
    return taken


def main(argv: list[str]) -> int:
    asked = words(argv[0]).parse_args(argv[1:])
    netlist = read_netlist(asked.netlist)
    graph = Graph(text_of(asked.graph))
    run = Run(netlist, text_of(asked.run), asked.vectors)
    run.take_log(times_of(asked, run.turns(), asked.graph))
    split = Split(netlist, asked.clusters, asked.groups)
    put("utf-8", [page(model(run, graph, split))])
    return 0
