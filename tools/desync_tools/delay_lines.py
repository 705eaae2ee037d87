"""Writes the delays of all orders of a split netlist."""

from __future__ import annotations

from typing import Iterator

from desync_tools.clusters import Split
from desync_tools.delays import MOST
from desync_tools.text import BadText

# The longest file that `desync` reads.
MOST_BYTES = 16777216
ORDER, HOLD = "%s+ %s+ %s # %s to %s", "%s- %s+ 0 # hold, %s to %s"
LEFT_OUT = "# names, and orders that take 0, are left out: with them the file would be too long"


class DelayLines:
    """What the two orders of each node take, and from each producer what each order to a consumer
    takes. Behind the lines stand names. These, and orders that take 0, are left out where `desync`
    would not read the file whole."""

    def __init__(self, split: Split, controller: int, delays: dict[str, dict[str, int]]) -> None:
        self.nodes, self.names = split.nodes, split.names()
        self.controller, self.delays = controller, delays
        for producer, found in delays.items():
            for consumer, delay in found.items():
                if delay > MOST:
                    long = (split.netlist.path, producer, consumer, MOST)
                    raise BadText("%s: %s+ to %s+ takes more than %d" % long)

    def lines(self) -> list[str]:
        """The lines."""
        if self.size() > MOST_BYTES:
            return [LEFT_OUT, *self.short()]
        nodes = [line + " # " + self.names[node] for node, line in self.of_nodes()]
        return [*nodes, *self.named()]

    def of_nodes(self) -> Iterator[tuple[str, str]]:
        """The lines of the nodes without names, each with its node."""
        for node in self.nodes:
            for form in ("%s+ %s- %s", "%s- %s+ %s"):
                yield node, form % (node, node, self.controller)

    def named(self) -> Iterator[str]:
        """The lines of the data edges, with the names of the nodes."""
        for producer, found in self.delays.items():
            for consumer, delay in found.items():
                told = (self.names[producer], self.names[consumer])
                yield ORDER % (producer, consumer, delay, *told)
                yield HOLD % (consumer, producer, *told)

    def size(self) -> int:
        """The bytes of all lines with names."""
        nodes = sum(len(line + " # \n" + self.names[node]) for node, line in self.of_nodes())
        rest = len(ORDER % ("", "", "", "", "") + "\n" + HOLD % ("", "", "", "") + "\n")
        long = {node: 2 * len(node + name) for node, name in self.names.items()}
        return nodes + sum(
            long[producer] + long[consumer] + rest + len(str(delay))
            for producer, found in self.delays.items()
            for consumer, delay in found.items()
        )

    def short(self) -> Iterator[str]:
        """The lines of the orders that take more than 0, without names."""
        if self.controller:
            yield from (line for _, line in self.of_nodes())
        for producer, found in self.delays.items():
            for consumer, delay in found.items():
                if delay:
                    yield "%s+ %s+ %s" % (producer, consumer, delay)
