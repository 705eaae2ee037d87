"""How long tables, latches and controllers take, and the delays of all orders that come of it."""

from __future__ import annotations

import argparse
import re

from desync_tools.clusters import Split
from desync_tools.delay_lines import DelayLines
from desync_tools.delays import is_delay
from desync_tools.logic import Edges, Logic
from desync_tools.netlist import Netlist, Table, printed
from desync_tools.text import file_text

DIGITS = re.compile("^[0-9]+$")
OPTIONS = (
    ("table", 1, "how long a table takes"),
    ("latch", 2, "how long a latch takes"),
    ("controller", 1, "how long each of the two orders of a node takes"),
)


class Gates:
    """How long a latch, a controller and each table of a netlist take, by the words of a tool."""

    def __init__(self, asked: argparse.Namespace, netlist: Netlist) -> None:
        self.table, self.latch, self.controller = asked.table, asked.latch, asked.controller
        self.by_inputs: dict[int, int] = {}
        self.by_net: dict[str, int] = {}
        if asked.gates is not None:
            self.read(asked.gates, {printed(table.output) for table in netlist.tables})

    def read(self, path: str, known: set[str]) -> None:
        """Takes the lines of a file; the nets that tables drive are known."""
        text = file_text(path)
        for number, words in text.rows():
            if len(words) != 2 or not is_delay(words[1]):
                raise text.fault("not INPUTS DELAY or NET DELAY", number)
            name, delay = words[0], int(words[1])
            if DIGITS.match(name):
                if int(name) in self.by_inputs:
                    raise text.fault("%d inputs twice" % int(name), number)
                self.by_inputs[int(name)] = delay
                continue
            name = name[2:] if name.startswith("0/") else name
            if name not in known:
                raise text.fault("no table drives %s" % name, number)
            if name in self.by_net:
                raise text.fault("net %s twice" % name, number)
            self.by_net[name] = delay

    def delay(self, table: Table) -> int:
        """How long a table takes."""
        found = self.by_net.get(printed(table.output)) if self.by_net else None
        return self.by_inputs.get(len(table.inputs), self.table) if found is None else found


def edges_of(split: Split, gates: Gates) -> Edges:
    """The data edges, each with the longest path of tables."""
    return Logic(split, gates.delay).edges()


def lines(split: Split, gates: Gates, edges: Edges) -> list[str]:
    """The lines of delays: those of each node, then those of each data edge."""
    delays = {
        producer: {consumer: path + gates.latch for consumer, path in paths.items()}
        for producer, paths in edges.items()
    }
    return DelayLines(split, gates.controller, delays).lines()


def delay_word(word: str) -> int:
    """A delay of the command line."""
    if not is_delay(word):
        raise argparse.ArgumentTypeError("this is no delay: %s" % word)
    return int(word)


def take_delays(words: argparse.ArgumentParser) -> None:
    """Adds the options that say how long things take to the words of a tool."""
    words.add_argument("--gates", metavar="FILE", help="how long tables take")
    for option, default, says in OPTIONS:
        told = "%s (the default is %d)" % (says, default)
        name, takes = option.upper(), delay_word
        words.add_argument("--" + option, type=takes, metavar=name, default=default, help=told)
