"""Makes a graph of the literature readable for Desync.

The `.g` files of petrify, SIS and Workcraft have lines and words that `desync accept` refuses. The
same marked graph is printed in the form that it reads:

- lines for layout and synthesis are left out: .capacity, .coords, .initial, .slowenv, .time;
- .name is taken for .model;
- an instance of a transition, such as a+/1, becomes a dummy of its own, and so does a toggle, a~;
- all declarations come first;
- a marking may stand on several lines, and blanks may stand in an entry, as in <a+, b+>.

Each change is named on the error output. A graph with a choice or a merge is no marked graph: it
is refused with a line for each such place. So are a marking of what is not there, a transition of a
signal that is not declared, and a graph of states.

`desync rate` says the period of what is printed, under delays that have a line `SOURCE TARGET
DELAY` for each arc that takes time. Dummies stand there by the names that they have got.
"""

from __future__ import annotations

from desync_tools.command import Parser, parser, put, say
from desync_tools.literature import Literature
from desync_tools.manual import Example, File, Manual
from desync_tools.text import text_of


FAILS = "The graph is no marked graph"


MANUAL = Manual(
    (
        File("graph", "`.g` of petrify, SIS or Workcraft, read"),
        File("output", "`.g`, written; FORMATS, Graphs that are read"),
    ),
    (
        Example(
            "Makes a graph readable, and asks for its period under some delays.",
            """
$ tools/astg examples/toggle.g > readable.g
$ desync rate readable.g examples/toggle.delays
period 7/1
cycle M0+ S0+
potential IN+ 0
potential IN- 0
potential OUT+ 0
potential OUT- 0
potential M0+ 0
potential M0- 2
potential S0+ 3
potential S0- 3
""",
        ),
    ),
)


def words(name: str) -> Parser:
    taken = parser(name, __doc__, MANUAL)
    taken.add_argument("graph", nargs="?", help="the text (the default is the standard input)")
    return taken


def main(argv: list[str]) -> int:
    asked = words(argv[0]).parse_args(argv[1:])
    text = text_of(asked.graph)
    graph = Literature(text)
    if not graph.arcs:
        raise text.fault("the text has no arcs")
    faults = sorted(graph.faults())
    if not faults:
        put("latin-1", graph.lines())
    for line, why in faults or graph.changes:
        say(argv[0], str(text.fault(why, line)))
    return 1 if faults else 0
