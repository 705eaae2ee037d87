"""The tables of a netlist: which nodes they join, and the longest path of them from one to another.

A data edge leads from IN or a slave to a master or to OUT where a net of the one is, or reaches
through tables, what the other takes; and from each master to its slave.
"""

from __future__ import annotations

from functools import reduce
from typing import Callable, Iterator

from desync_tools.clusters import Split
from desync_tools.lanes import Lanes
from desync_tools.netlist import Net, NotAccepted, Table

# From each producer, in the order of nodes, the longest path to each consumer, in that order too.
Edges = dict[str, dict[str, int]]
MOST_CLUSTERS, MOST_ORDERS = 4096, 1048576


class TooMany(NotAccepted):
    """The netlist has more clusters or orders than a graph may have."""

    def __init__(self, split: Split, what: str, most: int) -> None:
        super().__init__("%s: too many %s (limit %d)" % (split.netlist.path, what, most))


def orders(split: Split, edges: Edges) -> int:
    """The number of required orders."""
    return 2 * (len(split.nodes) + sum(map(len, edges.values())))


class Logic:
    """The tables, each behind those that it reads, by numbers of nets."""

    def __init__(self, split: Split, delay: Callable[[Table], int]) -> None:
        if len(split.clusters) > MOST_CLUSTERS:
            raise TooMany(split, "clusters", MOST_CLUSTERS)
        self.split, self.ids = split, dict[Net, int]()
        tables = split.netlist.tables
        # By the number of its output: the inputs, the delay and the place of a table.
        self.inputs: dict[int, list[int]] = {}
        self.delays: dict[int, int] = {}
        for table in tables:
            output = self.id(table.output)
            self.inputs[output] = [self.id(net) for net in table.inputs]
            self.delays[output] = delay(table)
        rows = ordered(self.inputs)
        if len(rows) < len(self.inputs):
            raise NotAccepted("%s: it has a cycle of tables" % split.netlist.path)
        self.rows = rows
        self.producers = dict(self.sources())

    def id(self, net: Net) -> int:
        """The number of a net."""
        return self.ids.setdefault(net, len(self.ids))

    def sources(self) -> Iterator[tuple[int, str]]:
        """The nets of IN and of the slaves, each with its node."""
        for net in self.split.netlist.columns:
            yield self.id(net), "IN"
        for number in range(len(self.split.clusters)):
            for net in self.split.registers(number):
                yield self.id(net), "S%d" % number

    def consumers(self) -> Iterator[tuple[str, list[int]]]:
        """OUT and each master, with the numbers of the nets that it takes."""
        netlist = self.split.netlist
        yield "OUT", [self.id(net) for net in netlist.outputs]
        for number, cluster in enumerate(self.split.clusters):
            yield "M%d" % number, [self.id(netlist.data[place]) for place in cluster.places]

    def longest(self) -> int:
        """The longest of all paths."""
        found: dict[int, int] = {}
        for output in self.rows:
            before = [found.get(net, 0) for net in self.inputs[output]]
            found[output] = max(before, default=0) + self.delays[output]
        return max(found.values(), default=0)

    def paths(self, some: list[str], lanes: Lanes, start: int) -> dict[int, int]:
        """What nets of some producers reach: nets, each with lanes in the order of the producers.
        In a lane is the longest path and the start; less than the start where there is none."""
        place = {producer: number for number, producer in enumerate(some)}
        found = {
            net: lanes.single(place[producer], start)
            for net, producer in self.producers.items()
            if producer in place
        }
        for output in self.rows:
            before = [found[net] for net in self.inputs[output] if net in found]
            if before:
                found[output] = reduce(lanes.greatest, before) + self.delays[output] * lanes.ones
        return found

    def edges(self) -> Edges:
        """The data edges, each with the longest path of tables."""
        edges: Edges = {node: {} for node in self.split.nodes}
        start = self.longest() + 1
        lanes, producers = Lanes(2 * start), list(dict.fromkeys(self.producers.values()))
        for first in range(0, len(producers), lanes.count):
            some = producers[first : first + lanes.count]
            found, rows = self.paths(some, lanes, start), [edges[producer] for producer in some]
            for consumer, taken in self.consumers():
                into = [found[net] for net in taken if net in found]
                for row, path in zip(rows, lanes.numbers(reduce(lanes.greatest, into, 0))):
                    if path >= start:
                        row[consumer] = path - start
            if orders(self.split, edges) > MOST_ORDERS:
                raise TooMany(self.split, "arcs", MOST_ORDERS)
        for number in range(len(self.split.clusters)):
            edges["M%d" % number]["S%d" % number] = 0
        return edges


def ordered(inputs: dict[int, list[int]]) -> list[int]:
    """The outputs of tables, each behind those that its table reads, but for those of cycles."""
    waits = {output: sum(net in inputs for net in nets) for output, nets in inputs.items()}
    readers: dict[int, list[int]] = {}
    for output, nets in inputs.items():
        for net in nets:
            readers.setdefault(net, []).append(output)
    found = [output for output, count in waits.items() if not count]
    for output in found:
        for reader in readers.get(output, ()):
            waits[reader] -= 1
            if not waits[reader]:
                found.append(reader)
    return found
