"""Turns the text of a controller graph into a picture for Graphviz.

From left to right it has a box for each cluster of registers, with the cells M and S of its master
and its slave, and an arrow for each data edge whose two orders stand there as arcs, or go through
signals that are no nodes, and then it has their names: what a node takes when it opens. Where a
graph gives them by walks through nodes alone the arrow is missing, and --orders shows what is
there. With --net a box has the names of the registers too: three or more clusters whose names
differ in one number, and that have the same producers and consumers, are one box, as rf[0..31],
unless --apart is there.

With --orders it has each signal with its two events in place of that, `+` where a node opens and
`-` where it closes, each dummy, and an arrow for each order; one with a token is red and has a dot.
Some twenty clusters are as many as one can read there.

With --critical the orders of the slowest cycle are red, and the others the darker the less margin
they have, by what `tools/critical` printed with `--most 0`. What it printed for another graph is
refused and, with --net, for other clusters.

The text is to be one that `desync graph` writes, or one that `desync accept` takes.
"""

from __future__ import annotations

from typing import Iterator, Optional

from desync_tools.clusters import Split, take_groups, take_mode
from desync_tools.command import Parser, as_installed, parser, put
from desync_tools.graphs import EVENT, NODE, Graph, Pair
from desync_tools.groups import grouped, spans
from desync_tools.heat import CYCLE, Heat
from desync_tools.manual import GROUPS, Example, File, Manual, read
from desync_tools.netlist import read_netlist
from desync_tools.text import BadText, file_text, shown, text_of

MANY = 200
QUICK = "splines=line; nslimit=0.2; nslimit1=0.2; mclimit=0.05; ranksep=2;"
# Of many lines some lie behind boxes.
BEHIND = 'outputorder=edgesfirst; node [style=filled fillcolor=white]; edge [color="#55555560"];'
CELLS = ('<td port="M" bgcolor="#cfe2f3">M%s</td>', '<td port="S" bgcolor="#fce5cd">S%s</td>')
WITH_TOKENS = 'color="#cc0000" fontcolor="#cc0000" constraint=false'
TOKEN = "\u25cf".encode("utf-8").decode("latin-1")
OWN = 'penwidth=0.4 arrowsize=0.4 color="#888888"'


def quoted(text: str) -> str:
    return '"%s"' % text.replace("\\", "\\\\").replace('"', '\\"')


def plain(text: str) -> str:
    """A text inside of a label."""
    return text.replace("&", "&amp;").replace("<", "&lt;").replace(">", "&gt;")


def table(node: str, head: str, cells: str, looks: str = "") -> str:
    """A node as a box with a head, where there is one, and a row of cells."""
    if head:
        head = '<tr><td colspan="2" border="0">%s</td></tr>' % plain(head)
    form = '<table border="1"%s cellborder="1" cellspacing="2">%s<tr>%s</tr></table>'
    return "  %s [label=<%s>];" % (quoted(node), form % (looks, head, cells))


def at(node: str, side: str) -> str:
    """Where an arrow leaves or meets a node."""
    if node[0] in "MS":
        return '"C%s":%s:%s' % (node[1:], node[0], side)
    return "%s:%s" % (quoted(node), side)


def ends(graph: Graph) -> list[str]:
    """The numbers of the clusters of a graph, from 0 on: both latches of each are there."""
    nodes, count = set(graph.nodes), 0
    while {"M%d" % count, "S%d" % count} <= nodes:
        count += 1
    return [str(number) for number in range(count)]


def titles(graph: Graph, split: Optional[Split]) -> dict[str, str]:
    """The head of each box, by the number of its cluster."""
    if split is None:
        return {number: "" for number in ends(graph)}
    found = split.clusters
    if set(ends(graph)) != {str(number) for number in range(len(found))}:
        told = (graph.path, len(ends(graph)), split.netlist.path, split.how, len(found))
        raise BadText("%s has %d clusters, and %s by %s has %d" % told)
    return {str(number): cluster.title() for number, cluster in enumerate(found)}


def box_of(node: str) -> str:
    """The box that has a node."""
    return node[1:] if node[0] in "MS" else node


def first_ways(edges: list[Pair]) -> set[Pair]:
    """The edges by which boxes are reached first: from IN, then from those that are left."""
    after: dict[str, list[Pair]] = {}
    seen: set[str] = set()
    ways: set[Pair] = set()
    for source, target in edges:
        after.setdefault(box_of(source), []).append((source, target))
    for root in ["IN"] + list(after):
        waiting = [] if root in seen else [root]
        seen.add(root)
        for box in waiting:
            for edge in after.get(box, []):
                if box_of(edge[1]) not in seen:
                    seen.add(box_of(edge[1]))
                    waiting.append(box_of(edge[1]))
                    ways.add(edge)
    return ways


def data(
    graph: Graph, heads: dict[str, str], is_apart: bool, heat: Optional[Heat]
) -> Iterator[str]:
    """The picture of the clusters and the data edges; of many, few say where the boxes stand."""
    found = {pair: names for pair, names in graph.data_edges() if pair[0][0] != "M"}
    groups = grouped([] if is_apart else list(found), heads)
    names = named_edges(found, groups)
    edges = sorted(names)
    ways = set(edges) if len(edges) <= MANY else first_ways(edges)
    yield "digraph %s {" % quoted(graph.name)
    yield "  rankdir=LR; nodesep=0.3; ranksep=0.6;"
    if len(edges) > MANY:
        yield "  " + QUICK
    yield '  node [shape=plain fontname="Helvetica" fontsize=12];'
    yield '  edge [arrowsize=0.6 color="#555555"];'
    if len(edges) > MANY:
        yield "  " + BEHIND
    for node in ("IN", "OUT"):
        yield '  %s [shape=cds style=filled fillcolor="#d9ead3" margin="0.15,0.08"];' % node
    yield "  {rank=source; IN} {rank=sink; OUT}"
    for first, numbers in groups.items():
        head = spans([heads[number] for number in numbers])
        is_hot = heat is not None and (heat.has("M" + first) or heat.has("S" + first))
        looks = ' color="%s"' % CYCLE if is_hot else ""
        yield table("C" + first, head, "".join(cell % spans(numbers) for cell in CELLS), looks)
    for source, target in edges:
        arrow = [] if (source, target) in ways else ["constraint=false"]
        if heat is not None:
            both = ((source + "+", target + "+"), (target + "-", source + "+"))
            arrow.append(heat.looks(both))
        if names[source, target]:
            arrow.append("fontsize=9 label=%s" % quoted(" ".join(names[source, target])))
        yield "  %s -> %s%s;" % (at(source, "e"), at(target, "w"), bracketed(arrow))
    yield "}"


def named_edges(
    found: dict[Pair, list[str]], groups: dict[str, list[str]]
) -> dict[Pair, list[str]]:
    """The arrows between the boxes, with the names of the signals on each."""
    first = {number: one for one, numbers in groups.items() for number in numbers}
    names: dict[Pair, list[str]] = {}
    for pair, some in found.items():
        source, target = (node[0] + first[node[1:]] if node[0] in "MS" else node for node in pair)
        names.setdefault((source, target), []).extend(some)
    return names


def bracketed(looks: list[str]) -> str:
    """How an arrow is drawn, behind it."""
    return " [%s]" % " ".join(looks) if looks else ""


def signal_of(event: str) -> tuple[Optional[str], Optional[str]]:
    """The signal of an event, and the cell of its box; a dummy has neither."""
    parts = EVENT.match(event)
    return (parts.group(1), "open" if parts.group(2) == "+" else "close") if parts else (None, None)


def end_of(event: str) -> str:
    """Where the arrow of an order begins or ends."""
    name, cell = signal_of(event)
    return "%s:%s" % (quoted(name), cell) if name else quoted(event)


def head_of(node: str, heads: dict[str, str]) -> str:
    """The head of a signal's box; the master and the slave of a cluster have its head too."""
    has_more = NODE.match(node) and node[0] in "MS"
    return " ".join(filter(None, (node, heads.get(node[1:], "") if has_more else "")))


def looks_of(is_own: bool, tokens: int, hot: str) -> Iterator[str]:
    """How the arrow of an order is drawn, or how it is told to be drawn."""
    if is_own:
        yield OWN
    yield from [hot] * bool(hot)
    if tokens:
        yield "constraint=false" if hot else WITH_TOKENS
        yield 'label="%s"' % (TOKEN * tokens if tokens < 4 else "%s %d" % (TOKEN, tokens))


def orders(
    graph: Graph, heads: dict[str, str], hides_own: bool, heat: Optional[Heat]
) -> Iterator[str]:
    """The picture of the events and the orders."""
    cells = '<td port="open">+</td><td port="close">&#8722;</td>'
    yield "digraph %s {" % quoted(graph.name)
    yield "  rankdir=LR;"
    yield "  edge [arrowsize=0.6];"
    yield '  node [shape=plain fontname="Helvetica" fontsize=12];'
    for node in graph.nodes:
        yield table(node, head_of(node, heads), cells)
    for dummy in graph.dummies:
        yield "  %s [shape=box];" % quoted(dummy)
    for source, target, tokens in graph.arcs():
        is_own = signal_of(source)[0] == signal_of(target)[0] is not None
        if not (is_own and hides_own):
            hot = "" if heat is None else heat.looks([(source, target)])
            looks = bracketed(list(looks_of(is_own, tokens, hot)))
            yield "  %s -> %s%s;" % (end_of(source), end_of(target), looks)
    yield "}"


MANUAL = Manual(
    (
        read("graph", "`.g`", "Controller graph"),
        read("--net NET", "BLIF", "Netlists"),
        GROUPS,
        File("--critical FILE", "what tools/critical printed with `--most 0`, read"),
        File("output", "a picture in the language DOT of Graphviz, written"),
    ),
    (
        Example(
            "Draws the clusters of a pipeline, with the names of their registers.",
            """
$ desync graph examples/pipeline.blif --clusters bus > pipeline.g
$ tools/g2dot pipeline.g --net examples/pipeline.blif --clusters bus > pipeline.dot
$ dot -Tsvg -o pipeline.svg pipeline.dot
""",
        ),
    ),
)


def words(name: str) -> Parser:
    taken = parser(name, __doc__, MANUAL)
    taken.add_argument("graph", nargs="?", help="the text (the default is the standard input)")
    taken.add_argument("--net", metavar="NET", help="the netlist, for the names of registers")
    take_mode(taken)
    take_groups(taken)
    taken.add_argument("--orders", action="store_true", help="events and orders")
    says = "draw each cluster by itself"
    taken.add_argument("--apart", action="store_true", help=says)
    says = "what tools/critical printed: its cycle in red, orders with little margin dark"
    taken.add_argument("--critical", metavar="FILE", help=as_installed(name, says))
    says = "with --orders: leave the two orders between the events of one node out"
    taken.add_argument("--hide-own", action="store_true", help=says)
    return taken


def main(argv: list[str]) -> int:
    taken = words(argv[0])
    asked = taken.parse_args(argv[1:])
    if asked.hide_own and not asked.orders:
        taken.error("--hide-own goes with --orders")
    graph = Graph(text_of(asked.graph))
    if not asked.orders and not any(map(NODE.match, graph.nodes)):
        raise BadText("%s: no nodes of a netlist: --orders shows its events" % graph.path)
    split = None
    if asked.net is not None:
        split = Split(read_netlist(asked.net), asked.clusters, asked.groups)
    heads = titles(graph, split)
    heat = None
    if asked.critical is not None:
        heat = Heat(file_text(asked.critical))
        heat.check(graph, split)
    if asked.orders:
        lines = orders(graph, heads, asked.hide_own, heat)
    else:
        lines = data(graph, heads, asked.apart or heat is not None, heat)
    put("utf-8", map(shown, lines))
    return 0
