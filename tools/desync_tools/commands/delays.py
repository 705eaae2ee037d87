"""Writes delays for `desync period`, from the paths of tables between the registers of a netlist.

An order from a producer to a consumer takes the longest path of tables from the nets of the one to
those of the other, and the latch; the two orders of a node take the controller each; an order back
from a consumer takes 0. A line is `SOURCE TARGET DELAY`, in any unit of time; behind it stand the
names of the registers as a comment. Names, and orders that take 0, are left out where the file
would be longer than the 16 MiB that `desync` reads.

With --gates a file of lines `INPUTS DELAY` or `NET DELAY` says how long tables take: by the number
of their inputs, or by the net that they drive, which counts first. A word of digits is a number of
inputs; a net of such a name is given as `0/NAME`. A number or a net that stands twice is refused.
Tables without a line take --table.
"""

from __future__ import annotations

from desync_tools.clusters import Split, take_groups, take_mode
from desync_tools.command import Parser, parser, put
from desync_tools.gates import Gates, edges_of, lines, take_delays
from desync_tools.manual import GROUPS, NETLIST, Example, File, Manual
from desync_tools.netlist import read_netlist


MANUAL = Manual(
    (
        NETLIST,
        GROUPS,
        File("--gates FILE", "lines `INPUTS DELAY` or `NET DELAY`, read"),
        File("output", "delays, written; FORMATS, Delays"),
    ),
    (
        Example(
            "Writes the delays of the toggle, and asks for the period under them.",
            """
$ tools/delays examples/toggle.blif > toggle.delays
$ desync period examples/toggle.blif toggle.delays
period 5/1
cycle M0+ S0+
potential IN+ 0
potential IN- 1
potential OUT+ 2
potential OUT- 3
potential M0+ 3
potential M0- 4
potential S0+ 5
potential S0- 6
""",
        ),
    ),
)


def words(name: str) -> Parser:
    taken = parser(name, __doc__, MANUAL)
    taken.add_argument("netlist", help="the netlist in BLIF")
    take_mode(taken)
    take_groups(taken)
    take_delays(taken)
    return taken


def main(argv: list[str]) -> int:
    asked = words(argv[0]).parse_args(argv[1:])
    netlist = read_netlist(asked.netlist, True)
    gates = Gates(asked, netlist)
    split = Split(netlist, asked.clusters, asked.groups)
    put("latin-1", lines(split, gates, edges_of(split, gates)))
    return 0
