"""Makes vectors for a netlist: at random from a number, or out of a recorded test bench.

The same number gives the same vectors. Each column is 1 in half of the turns; --p says in how many
for a bus or a net of it, and --set gives it a value in one turn, the leftmost bit first. Both may
stand several times.

With --from a waveform (VCD) of a test bench gives them: the values of the columns, by their names,
just before each edge of --clock at which the registers take theirs. `z` is `x`, and values with
which the waveform begins are no edge.
"""

from __future__ import annotations

import argparse
import random
import re
from typing import Any, Iterator

from desync_tools.buses import buses
from desync_tools.command import Parser, number_word, parser, put
from desync_tools.manual import NETLIST, Example, File, Manual
from desync_tools.netlist import Netlist, printed, read_netlist
from desync_tools.text import BadText, as_bytes, file_text, shown
from desync_tools.vcd import Wave, take_wave

MOST = 65536
SHARE = re.compile(r"(.+)=(\d*\.?\d+)")
VALUE = re.compile(r"(.+)=([01x]+)@(\d{1,9})")
# A column, and how often it is 1.
Share = tuple[str, float]
# A column, its bits, and the turn in which it has them.
Value = tuple[str, str, str]


def share_word(word: str) -> Share:
    """A share of ones of the command line."""
    parts = SHARE.fullmatch(as_bytes(word))
    if not parts or float(parts.group(2)) > 1:
        raise argparse.ArgumentTypeError("this is no NAME=P with P from 0 to 1: %s" % word)
    return parts.group(1), float(parts.group(2))


def value_word(word: str) -> Value:
    """A value of the command line."""
    parts = VALUE.fullmatch(as_bytes(word))
    if not parts:
        raise argparse.ArgumentTypeError("this is no NAME=BITS@TURN: %s" % word)
    return parts.group(1), parts.group(2), parts.group(3)


def places_of(netlist: Netlist, name: str) -> list[int]:
    """The places of a bus or a net among the columns, the leftmost bit first."""
    for place, net in enumerate(netlist.columns):
        if printed(net) == name:
            return [place]
    found = [bus for bus in buses(netlist.columns) if bus.name == name]
    if not found:
        raise BadText("%s: there is no column %s" % (netlist.path, name))
    places = [bus.first + k for bus in found for k in range(bus.width)]
    return places[::-1]


def shares(netlist: Netlist, given: list[Share]) -> list[float]:
    """How often each column is 1."""
    found = [0.5] * len(netlist.columns)
    for name, share in given:
        for place in places_of(netlist, name):
            found[place] = share
    return found


def values(netlist: Netlist, given: list[Value], turns: int) -> dict[tuple[int, int], str]:
    """(turn, place) -> the bit that it is to have."""
    found: dict[tuple[int, int], str] = {}
    for name, bits, told in given:
        places, turn, word = places_of(netlist, name), int(told), "%s=%s@%s" % (name, bits, told)
        if len(bits) != len(places):
            raise BadText("--set: %s has %d bits: %s" % (name, len(places), word))
        if turn >= turns:
            raise BadText("--set: there is no turn %d: %s" % (turn, word))
        found.update(((turn, place), bit) for place, bit in zip(places, bits))
    return found


def vectors(
    chances: list[float], given: dict[tuple[int, int], str], turns: int, seed: int
) -> Iterator[str]:
    """The vectors, one after the other."""
    drawn = random.Random(seed)
    for turn in range(turns):
        bits = ["1" if drawn.random() < chance else "0" for chance in chances]
        yield "".join(given.get((turn, place), bit) for place, bit in enumerate(bits)) or "-"


def sampled(netlist: Netlist, asked: argparse.Namespace) -> Iterator[str]:
    """The values of the columns in a waveform before each edge of its clock."""
    wave = Wave(file_text(asked.wave), asked.scope)
    names = [printed(net) for net in netlist.columns]
    rows = wave.turns(names, asked.clock, netlist.edge)
    most = MOST if asked.turns is None else asked.turns
    for turn, row in enumerate(rows):
        if turn == most:
            if asked.turns is None:
                told = (wave.name, MOST, asked.clock)
                raise BadText("%s: more than %d edges of %s: --turns takes as many" % told)
            return
        yield row or "-"


def drawn(netlist: Netlist, asked: argparse.Namespace) -> Iterator[str]:
    """Vectors at random."""
    given = values(netlist, asked.set, asked.turns)
    return vectors(shares(netlist, asked.p), given, asked.turns, asked.seed)


MANUAL = Manual(
    (
        NETLIST,
        File("--from FILE", "a waveform in VCD (IEEE 1364-2005), read"),
        File("output", "vectors, written; FORMATS, Vectors"),
    ),
    (
        Example(
            "Makes four vectors; reset is 1 in the first turn and seldom after it.",
            """
$ tools/vectors examples/counter.blif --turns 4 --seed 7 --p reset=0.03 --set reset=1@0
11
01
01
00
""",
        ),
    ),
)


def words(name: str) -> Parser:
    taken = parser(name, __doc__, MANUAL)
    taken.add_argument("netlist", help="the netlist in BLIF")
    taken.add_argument("--turns", type=number_word, help="how many vectors, %d at most" % MOST)
    taken.add_argument("--seed", type=number_word, help="the number that they come from")
    many: dict[str, Any] = {"action": "append", "default": []}
    says = "the share of ones"
    taken.add_argument("--p", metavar="NAME=P", type=share_word, help=says, **many)
    says = "the value in one turn"
    taken.add_argument("--set", metavar="NAME=BITS@TURN", type=value_word, help=says, **many)
    says = "a recorded test bench, in place of --seed"
    taken.add_argument("--from", dest="wave", metavar="FILE", help=says)
    take_wave(taken)
    return taken


def checked(taken: Parser, asked: argparse.Namespace) -> None:
    """Refuses words that do not go together."""
    if asked.wave is None:
        missing = [name for name in ("turns", "seed") if getattr(asked, name) is None]
        if missing:
            told = ", ".join("--" + name for name in missing)
            taken.error("the following arguments are required: %s" % told)
        if asked.clock or asked.scope:
            taken.error("--clock and --scope go with --from")
    elif asked.clock is None:
        has = Wave(file_text(asked.wave), asked.scope).has_clocks()
        taken.error("--from takes --clock, the clock of the test bench (%s)" % shown(has))
    elif asked.seed is not None or asked.p or asked.set:
        taken.error("--seed, --p and --set do not go with --from")
    if asked.turns is not None and not 0 <= asked.turns <= MOST:
        taken.error("--turns is from 0 to %d" % MOST)


def main(argv: list[str]) -> int:
    taken = words(argv[0])
    asked = taken.parse_args(argv[1:])
    checked(taken, asked)
    netlist = read_netlist(asked.netlist)
    put("latin-1", (drawn if asked.wave is None else sampled)(netlist, asked))
    return 0
