"""Reads the times of a run: a line `EVENT TURN TIME` for each of its firings.

They are those of a file, or those that `desync times` prints for the delays of a file.
"""

from __future__ import annotations

import argparse
import re
from typing import NamedTuple, Optional

from desync_tools import program
from desync_tools.clusters import options
from desync_tools.text import Text, as_bytes, text_of

TURN, TIME = re.compile("^[0-9]{1,10}$"), re.compile("^[0-9]{1,39}$")
# As large a time is a whole number in a page too.
MOST = 9007199254740991


class Firing(NamedTuple):
    """A firing: the number of its line, its event, its turn and its time."""

    line: int
    event: str
    turn: int
    time: int


def firings_of(text: Text) -> list[Firing]:
    """The firings by their times; those of one time stand as in the text."""
    last: dict[str, Firing] = {}
    found = []
    for number, words in text.rows():
        firing = firing_of(text, number, words)
        why = refusal(firing, last.get(firing.event))
        if why:
            raise text.fault(why, number)
        last[firing.event] = firing
        found.append(firing)
    if not found:
        raise text.fault("the times have no firings")
    return sorted(found, key=lambda firing: firing.time)


def firing_of(text: Text, line: int, words: list[str]) -> Firing:
    """The firing of a line."""
    if len(words) != 3 or not TURN.match(words[1]) or not TIME.match(words[2]):
        raise text.fault("not EVENT TURN TIME", line)
    if int(words[2]) > MOST:
        raise text.fault("%s is too late (limit %d)" % (words[2], MOST), line)
    return Firing(line, words[0], int(words[1]), int(words[2]))


def refusal(firing: Firing, before: Optional[Firing]) -> Optional[str]:
    """Why a firing does not come behind the one before of its event, where it does not."""
    if firing.turn != (before.turn if before else 0) + 1:
        return "wrong turn"
    if before and firing.time < before.time:
        return "%s is earlier than in the turn before" % firing.event
    return None


def alternate(text: Text, firings: list[Firing], nodes: list[str]) -> None:
    """Refuses firings of a text in which a node does not open and close in turn."""
    is_open = dict.fromkeys(nodes, False)
    for firing in firings:
        node, sign = firing.event[:-1], firing.event[-1]
        if node in is_open:
            if is_open[node] == (sign == "+"):
                does = "opens" if sign == "+" else "closes"
                raise text.fault("%s %s twice" % (node, does), firing.line)
            is_open[node] = sign == "+"


def take_times(words: argparse.ArgumentParser) -> None:
    """Adds the options that say when what fires to the words of a tool."""
    one = words.add_mutually_exclusive_group()
    says = "a line EVENT TURN TIME for each firing, as desync times prints them"
    one.add_argument("--times", metavar="FILE", help=says)
    says = "the delays by which desync times is asked for these lines"
    one.add_argument("--delays", metavar="FILE", help=says)


def times_of(asked: argparse.Namespace, turns: int, graph: Optional[str]) -> Optional[Text]:
    """The text of times that the words of a tool ask for, if they do, for a trace of some turns.
    The orders are those of the file of a graph, or the required ones."""
    if asked.delays is None:
        return None if asked.times is None else text_of(asked.times)
    files = [program.file_word(name) for name in (asked.netlist, asked.delays)]
    words = ["times", *files, str(turns)]
    words += options(asked.clusters, asked.groups)
    if graph is not None:
        words += ["--graph", program.file_word(graph)]
    return Text("times by %s" % as_bytes(asked.delays), program.answer(words))
