"""Puts the registers of a netlist into clusters, as `--clusters` and `--groups` do, and names the
nodes of these."""

from __future__ import annotations

import argparse
import re
from typing import Iterator, Optional, Sequence, Union

from desync_tools import program
from desync_tools.buses import Bus, buses
from desync_tools.named_groups import read_groups
from desync_tools.delays import Order
from desync_tools.netlist import Net, Netlist, printed
from desync_tools.text import as_bytes

MODES = ("each", "one", "bus")
BIT = re.compile(r"\[[0-9]+\]$")
SLACK = re.compile("^[0-9]+$")
# As many buses of a cluster are named; a producer may run ahead as often.
MOST_NAMED, MOST_SLACK = 3, 15


class Cluster:
    """Some registers: the name that they share, and their places among all."""

    def __init__(self, name: str) -> None:
        self.name = name
        self.places: list[int] = []

    def title(self) -> str:
        """The name, and the width where that is not 1."""
        width = len(self.places)
        return self.name if width == 1 else "%s (%d)" % (self.name, width)


def bus_of(net: Net) -> Net:
    """What the registers of a bus share."""
    copy, name = net
    return copy, BIT.sub("", name)


def key_of(net: Net, mode: str) -> Union[Net, str]:
    """What the registers of a cluster share."""
    if mode == "one":
        return "all"
    return net if mode == "each" else bus_of(net)


def clusters(netlist: Netlist, mode: str, groups: Sequence[Sequence[int]] = ()) -> list[Cluster]:
    """The clusters, numbered by their first registers: the groups, and the rest by the mode."""
    in_group = {place: number for number, group in enumerate(groups) for place in group}
    found: dict[Union[Net, str, int], Cluster] = {}
    for place, net in enumerate(netlist.registers):
        key: Union[Net, str, int] = in_group.get(place, -1)
        if key == -1:
            key = key_of(net, mode)
        if key not in found:
            found[key] = Cluster(
                key if isinstance(key, str) else named(key, netlist.registers, groups)
            )
        found[key].places.append(place)
    for cluster in found.values():
        if len(cluster.places) == 1:
            cluster.name = printed(netlist.registers[cluster.places[0]])
    return list(found.values())


def named(key: Union[Net, int], registers: Sequence[Net], groups: Sequence[Sequence[int]]) -> str:
    """The name of a bus, or of a group."""
    if isinstance(key, int):
        return spans([registers[place] for place in groups[key]])
    return printed(key)


def names_of(nets: Sequence[Net]) -> Iterator[str]:
    """The names of some nets. Those of a bus are told together, also where others stand between."""
    runs: dict[str, list[Bus]] = {}
    for bus in buses(nets):
        runs.setdefault(bus.name, []).append(bus)
    for name, some in runs.items():
        if len(some) == 1 or any(bus.ends is None for bus in some):
            yield from (bus.name + bus.span() for bus in some)
        else:
            bits = sorted({bit for bus in some for bit in bus.numbers()}, reverse=True)
            yield from (name + span for span in spans_of(bits))


def spans_of(bits: list[int]) -> Iterator[str]:
    """The ranges of some numbers that fall."""
    first = 0
    for at in range(1, len(bits) + 1):
        if at == len(bits) or bits[at] != bits[at - 1] - 1:
            ends = (bits[first], bits[at - 1])
            yield "[%d]" % ends[0] if first == at - 1 else "[%d:%d]" % ends
            first = at


def spans(nets: Sequence[Net], most: int = MOST_NAMED) -> str:
    """The names of some nets, those of a bus together; of many the last one and a few."""
    found = list(names_of(nets))
    if len(found) <= most + 1:
        return " ".join(found)
    return " ".join(found[:most] + ["..", found[-1]])


class Split:
    """A netlist in clusters. Its nodes are IN, OUT, and M and S of each cluster."""

    def __init__(self, netlist: Netlist, mode: str, groups: Optional[str] = None) -> None:
        self.netlist = netlist
        # How it is asked for.
        self.how = "--clusters " + mode
        if groups is not None:
            self.how += " --groups " + as_bytes(groups)
        places = [] if groups is None else read_groups(groups, netlist.registers)
        self.clusters = clusters(netlist, mode, places)
        self.nodes = ["IN", "OUT"]
        for number in range(len(self.clusters)):
            self.nodes += ["M%d" % number, "S%d" % number]

    def count(self) -> int:
        """The number of clusters."""
        return len(self.clusters)

    def registers(self, number: int) -> list[Net]:
        """The registers of a cluster."""
        return [self.netlist.registers[place] for place in self.clusters[number].places]

    def names(self) -> dict[str, str]:
        """What stands in each node, by name: columns, outputs or registers; else the node."""
        found = {"IN": spans(self.netlist.columns), "OUT": spans(self.netlist.outputs)}
        for number in range(len(self.clusters)):
            found["M%d" % number] = found["S%d" % number] = spans(self.registers(number))
        return {node: name or node for node, name in found.items()}


def names_of_order(names: dict[str, str], order: Order) -> str:
    """What stands in the nodes of the two events of an order, by the names of the nodes."""
    nodes = [event[:-1] if event[-1] in "+-" else event for event in order]
    source, target = (names.get(node, node) for node in nodes)
    return source if source == target else "%s to %s" % (source, target)


def take_mode(words: argparse.ArgumentParser, default: Optional[str] = "each") -> None:
    """Adds the option that says how registers share latches to the words of a tool."""
    says = "how registers share latches: each%s, one or bus"
    says %= " (the default)" if default else ""
    words.add_argument("--clusters", choices=MODES, default=default, help=says)


def take_groups(words: argparse.ArgumentParser) -> None:
    """Adds the option that names groups to the words of a tool."""
    says = "registers that share latches, a line a cluster, no pipe; others share by --clusters"
    words.add_argument("--groups", metavar="FILE", help=says)


def options(mode: str, groups: Optional[str]) -> list[str]:
    """The words by which the program makes the same clusters."""
    return ["--clusters", mode] + (
        [] if groups is None else ["--groups", program.file_word(groups)]
    )


def slack_word(word: str) -> str:
    """A slack of the command line."""
    if not SLACK.match(word) or int(word) > MOST_SLACK:
        raise argparse.ArgumentTypeError("%s is not from 0 to %d" % (word, MOST_SLACK))
    return word
