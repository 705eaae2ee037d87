"""Lists the columns of the vectors, the outputs and the registers of a netlist, in their order.

The first line names the model that is taken for the design: the first one of the file. A line of
vectors has one character per column. A line of the trace has the outputs, and then the registers.
The netlist is to be one that `desync check` accepts.

With --clusters there is a line for each cluster too, with its number, its master and slave latch,
and its registers: `cluster 33 M33 S33: pc[3:0]`.
"""

from __future__ import annotations

from typing import Iterator, Optional

from desync_tools.clusters import Split, spans, take_groups, take_mode
from desync_tools.command import Parser, parser, put
from desync_tools.manual import GROUPS, NETLIST, Example, File, Manual
from desync_tools.netlist import Net, printed, read_netlist


def listed(model: str, kinds: dict[str, list[Net]], only: Optional[str]) -> Iterator[str]:
    """The lines: the names of one kind, or the model and all kinds with their numbers."""
    if not only:
        yield "model %s" % model
    for kind, nets in kinds.items():
        if only == kind:
            yield from map(printed, nets)
        elif not only:
            yield "%s %d" % (kind, len(nets))
            for place, net in enumerate(nets):
                yield "  %d %s" % (place, printed(net))


def cluster_lines(split: Split) -> Iterator[str]:
    """The clusters."""
    for number in range(len(split.clusters)):
        registers = split.registers(number)
        told = spans(registers, len(registers))
        yield "cluster %d M%d S%d: %s" % (number, number, number, told)


MANUAL = Manual(
    (NETLIST, GROUPS, File("output", "lines of names, written")),
    (
        Example(
            "Lists the nets of a small netlist, and its clusters by buses.",
            """
$ tools/ports examples/bus.blif --clusters bus
model b
columns 1
  0 a
outputs 1
  0 r
registers 3
  0 q[0]
  1 r
  2 q[1]
cluster 0 M0 S0: q[1:0]
cluster 1 M1 S1: r
""",
        ),
    ),
)


def words(name: str) -> Parser:
    taken = parser(name, __doc__, MANUAL)
    taken.add_argument("netlist", help="a netlist in BLIF")
    taken.add_argument(
        "--only",
        choices=("columns", "outputs", "registers"),
        help="print the names of one kind alone, one a line",
    )
    take_mode(taken, None)
    take_groups(taken)
    return taken


def main(argv: list[str]) -> int:
    taken = words(argv[0])
    asked = taken.parse_args(argv[1:])
    if asked.only and (asked.clusters or asked.groups):
        taken.error("--only does not go with --clusters and --groups")
    netlist = read_netlist(asked.netlist)
    kinds = {
        "columns": netlist.columns,
        "outputs": netlist.outputs,
        "registers": netlist.registers,
    }
    lines = list(listed(netlist.name, kinds, asked.only))
    if asked.clusters or asked.groups:
        lines += cluster_lines(Split(netlist, asked.clusters or "each", asked.groups))
    put("latin-1", lines)
    return 0
