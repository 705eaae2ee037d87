"""Compares the ways to put the registers of a netlist into clusters, a row each.

There is a row for each mode of `--clusters` and for each file of --groups: how many clusters,
latches and orders there are, how wide the widest cluster is, the period, and what refuses it. The
delays are those that `tools/delays` gives for that row, with the same options. With a file of
delays they are those of the file, for the rows whose orders it names. --slack asks for the period
with a slack, a column each. The status is 1 where no row has a period, or the row of a file of
groups is refused. The row of such a file is called by the mode of --clusters and by the file.
"""

from __future__ import annotations

import argparse
import csv
import html
import io
from typing import Iterator, Optional

from desync_tools import program
from desync_tools.clusters import MODES, Split, options, slack_word
from desync_tools.command import Parser, parser, put
from desync_tools.gates import Gates, lines, take_delays
from desync_tools.logic import Logic, TooMany, orders
from desync_tools.manual import GROUPS, NETLIST, Example, File, Manual, read
from desync_tools.netlist import Netlist, read_netlist
from desync_tools.periods import Period, number_of
from desync_tools.text import BadText, as_bytes, file_text, shown

FAILS = "No row has a period, or the row of a file of groups is refused"
HEADS = ["clusters by", "clusters", "latches", "orders", "widest"]
FORMS = ("text", "csv", "html")
PAGE = """<!doctype html>
<html lang="en">
<head>
<meta charset="utf-8">
<title>%s</title>
<style>
body { font: 14px/1.4 sans-serif; margin: 12px; }
table { border-collapse: collapse; }
td, th { border: 1px solid #ccc; padding: 3px 8px; text-align: right; }
td:first-child, th:first-child, td:last-child, th:last-child { text-align: left; }
</style>
</head>
<body>
<h1>%s</h1>
<table>
%s
</table>
</body>
</html>"""


class Kind:
    """A way to put registers into clusters: a mode, or a file of groups."""

    def __init__(self, mode: str, groups: Optional[str] = None) -> None:
        self.mode, self.groups = mode, groups
        self.title = mode if groups is None else "%s and %s" % (mode, as_bytes(groups))

    def options(self) -> list[str]:
        """The words of it for the program."""
        return options(self.mode, self.groups)


class Report:
    """A netlist, and what is asked of it."""

    def __init__(self, asked: argparse.Namespace) -> None:
        self.asked = asked
        self.netlist: Netlist = read_netlist(asked.netlist, True)
        self.gates = Gates(asked, self.netlist)
        self.delays = None if asked.delays is None else file_text(asked.delays).text
        self.slacks: list[Optional[str]] = asked.slack or [None]

    def heads(self) -> list[str]:
        """The heads of the columns."""
        told = ["period" if one is None else "slack %s" % one for one in self.slacks]
        return HEADS + told + ["refused"]

    def kinds(self) -> Iterator[Kind]:
        """The rows: the modes, then the groups."""
        yield from (Kind(mode) for mode in MODES)
        yield from (Kind(self.asked.clusters, groups) for groups in self.asked.groups)

    def row(self, kind: Kind) -> list[str]:
        """The cells of a row."""
        try:
            split = Split(self.netlist, kind.mode, kind.groups)
        except BadText as error:
            return self.refused([kind.title], str(error))
        widths = [len(cluster.places) for cluster in split.clusters]
        cells = [kind.title, str(len(widths)), str(2 * len(widths))]
        widest = str(max(widths, default=0))
        try:
            edges = Logic(split, self.gates.delay).edges()
            cells += [str(orders(split, edges)), widest]
            text = self.delays
            if text is None:
                text = "\n".join(lines(split, self.gates, edges))
            return cells + [self.period(kind, text, slack) for slack in self.slacks] + [""]
        except TooMany as error:
            return self.refused(cells + ["", widest], str(error))
        except BadText as error:
            return self.refused(cells, str(error))

    def refused(self, cells: list[str], why: str) -> list[str]:
        """A row that ends with what refuses it."""
        return cells + [""] * (len(self.heads()) - len(cells) - 1) + [why]

    def period(self, kind: Kind, text: str, slack: Optional[str]) -> str:
        """The period under some delays."""
        options = kind.options() + ([] if slack is None else ["--slack", slack])
        words = ["period", program.file_word(self.asked.netlist)]
        said = program.answer_to(words, self.asked.delays or "delays", text, options)
        return number_of(Period(said).ratio())


def as_text(rows: list[list[str]]) -> Iterator[str]:
    """The rows with cells one below another."""
    sizes = [max(map(len, column)) for column in zip(*rows)]
    for first, *row in rows:
        cells = [cell.rjust(size) for cell, size in zip(row[:-1], sizes[1:])]
        yield "  ".join([first.ljust(sizes[0]), *cells, row[-1]]).rstrip()


def as_csv(rows: list[list[str]]) -> Iterator[str]:
    """The rows as comma-separated values."""
    for row in rows:
        line = io.StringIO()
        csv.writer(line, lineterminator="").writerow(row)
        yield line.getvalue()


def as_html(title: str, rows: list[list[str]]) -> str:
    """The rows as a page."""
    told = []
    for number, row in enumerate(rows):
        cell = "th" if number == 0 else "td"
        cells = ("<%s>%s</%s>" % (cell, html.escape(text), cell) for text in row)
        told.append("<tr>%s</tr>" % "".join(cells))
    return PAGE % (html.escape(title), html.escape(title), "\n".join(told))


MANUAL = Manual(
    (
        NETLIST,
        read("delays", "delays", "Delays"),
        GROUPS,
        File("--gates FILE", "lines `INPUTS DELAY` or `NET DELAY`, read"),
        File("output", "a table as text, CSV (RFC 4180) or HTML, written"),
    ),
    (
        Example(
            "Compares the modes and a file of groups, without slack and with slack 1.",
            """
$ tools/report examples/pipeline.blif --slack 0 --slack 1 --groups examples/pipeline.groups
clusters by                        clusters  latches  orders  widest  slack 0  slack 1  refused
each                                     18       36     294       1       13       13
one                                       1        2      16      18       13       13
bus                                       4        8      42       5       13       13
each and examples/pipeline.groups         3        6      32       8       13       13
""",
        ),
    ),
)


def words(name: str) -> Parser:
    taken = parser(name, __doc__, MANUAL)
    taken.add_argument("netlist", help="the netlist in BLIF")
    taken.add_argument("delays", nargs="?", help="the delays of its orders")
    says = "a row for registers that share latches by the lines of a file; may stand several times"
    taken.add_argument("--groups", metavar="FILE", action="append", default=[], help=says)
    says = "how registers that are in no group share latches: each (the default), one or bus"
    taken.add_argument("--clusters", choices=MODES, default="each", help=says)
    says = "a column with this slack, 0 to 15; may stand several times"
    taken.add_argument("--slack", metavar="S", type=slack_word, action="append", help=says)
    says = "the form (the default is text)"
    taken.add_argument("--as", dest="form", choices=FORMS, default="text", help=says)
    take_delays(taken)
    return taken


def main(argv: list[str]) -> int:
    asked = words(argv[0]).parse_args(argv[1:])
    report = Report(asked)
    kinds = list(report.kinds())
    found = [report.row(kind) for kind in kinds]
    rows = [[shown(cell) for cell in row] for row in [report.heads(), *found]]
    if asked.form == "html":
        put("utf-8", [as_html(shown(report.netlist.name or "netlist"), rows)])
    else:
        put("utf-8", (as_csv if asked.form == "csv" else as_text)(rows))
    refused = [row[-1] != "" for row in found]
    groups = [kind.groups is not None for kind in kinds]
    return 1 if all(refused) or any(map(all, zip(refused, groups))) else 0
