"""Says whether two runs have the same values, net by net, and how many bits it has compared.

Each of the two is a trace; rows `TURN OUTPUTS`, as a test bench of `tools/testbench` prints them;
or a waveform (VCD). Nets are matched by their names, which the netlist --net says for a trace, and
--other for the second one where it has its own. Without --net two traces are matched by places. A
waveform is looked at before each edge of --clock; without it each unit of time is a turn. `z` is
`x`. With --x an `x` of that side stands for any value, and such bits are not counted.

The last line says how many turns and bits were compared. The first difference is told with its
turn, its net and both values, and the status is 1; it is 1 too where fewer bits than --least were
compared.
"""

from __future__ import annotations

import argparse
from itertools import chain, zip_longest
from typing import Iterator, NamedTuple, Optional

from desync_tools.command import Parser, number_word, parser, put
from desync_tools.manual import Example, File, Manual, read
from desync_tools.netlist import Netlist, printed, read_netlist
from desync_tools.text import BadText, Text, file_text, given
from desync_tools.vcd import Wave, is_wave, take_wave, told
from desync_tools.vectors import bits

FAILS = "The two differ, or fewer bits were compared than --least asks for"
SIDES = ("first", "second", "both")
# What a row has in place of a value that is not there.
NONE = "?"


class Run(NamedTuple):
    """A run: what it is called, its nets, their values turn by turn, and behind the last turn."""

    name: str
    nets: list[str]
    rows: Iterator[str]
    end: list[str]
    wave: Optional[Wave] = None
    has_names: bool = True


def trace_rows(text: Text) -> Iterator[tuple[str, Optional[str]]]:
    """The outputs of each line of a trace or of rows, and the registers where they are there."""
    for turn, line in enumerate(text.text.splitlines()):
        words = line.split()
        if words[:1] == ["end"] and len(words) == 2:
            yield NONE, bits(words[1])
            return
        if words[:1] != [str(turn)] or len(words) not in (2, 3):
            raise text.fault("this is not turn %d of a trace: %s" % (turn, line), turn + 1)
        row = words[1].lower().replace("z", "x")
        yield bits(row), bits(words[2]) if len(words) == 3 else None


def trace(text: Text, netlist: Optional[Netlist]) -> Run:
    """A trace, or rows."""
    rows = list(trace_rows(text))
    outputs = max((len(row) for row, _ in rows if row != NONE), default=0)
    registers = max((len(row) for _, row in rows if row is not None), default=0)
    nets = ["output %d" % at for at in range(outputs)]
    nets += ["register %d" % at for at in range(registers)]
    if netlist is not None:
        found = [list(map(printed, kind)) for kind in (netlist.outputs, netlist.registers)]
        if len(found[0]) != outputs or registers not in (0, len(found[1])):
            raise text.fault("this does not fit %s" % netlist.path)
        nets = found[0] + (found[1] if registers else [])
    whole = []
    for row, states in rows:
        row = NONE * outputs if row == NONE else row
        whole.append(row + (NONE * registers if states is None else states))
    for turn, row in enumerate(whole):
        if len(row) != len(nets):
            raise text.fault("turn %d has not as many values as others" % turn, turn + 1)
    turns = sum(row != NONE for row, _ in rows)
    has_names = netlist is not None
    return Run(text.name, nets, iter(whole[:turns]), whole[turns:], None, has_names)


def wave(text: Text, asked: argparse.Namespace, wanted: Optional[list[str]]) -> Run:
    """A waveform, with the nets that are wanted of it; all without that."""
    found = Wave(text, asked.scope)
    nets = [net for net in (found.nets if wanted is None else wanted) if net in found.bits]
    return Run(text.name, nets, found.turns(nets, asked.clock, asked.edge), [], found)


def runs(asked: argparse.Namespace) -> tuple[Run, Run]:
    """The two runs."""
    texts = [given() if p == "-" else file_text(p) for p in (asked.first, asked.second)]
    first = None if asked.net is None else read_netlist(asked.net)
    second = first if asked.other is None else read_netlist(asked.other)
    traces = [
        None if is_wave(text) else trace(text, netlist)
        for text, netlist in zip(texts, (first, second))
    ]
    known = next((run.nets for run in traces if run is not None), None)
    a, b = (run or wave(text, asked, known) for run, text in zip(traces, texts))
    return a, b


def first_places(nets: list[str]) -> dict[str, int]:
    """The place of each net: of one that is an output and a register too, that of the output."""
    return {net: place for place, net in reversed(list(enumerate(nets)))}


def hints(first: Run, second: Run) -> Iterator[str]:
    """What may be missing where two runs have no net in common."""
    waves = [run.wave for run in (first, second) if run.wave is not None]
    unnamed = [run.name for run in (first, second) if not run.has_names]
    if waves and unnamed:
        yield "--net takes the netlist of %s, which names its nets" % unnamed[0]
    elif waves:
        yield from ("--scope takes one of %s (%s)" % (w.name, w.has_scopes()) for w in waves)


def clock_hint(run: Run, asked: argparse.Namespace) -> Iterator[str]:
    """Says that a waveform is read by units of time, where it seems to have a clock."""
    clocks = [] if run.wave is None or asked.clock else run.wave.ticks()
    if clocks:
        yield "each unit of time of %s is a turn: --clock takes %s" % (run.name, told(clocks))


class Pairs:
    """The nets that both runs have, and the values of each row at them."""

    def __init__(self, first: Run, second: Run) -> None:
        at = first_places(second.nets)
        self.nets = [net for net in dict.fromkeys(first.nets) if net in at]
        own = first_places(first.nets)
        self.places = {
            id(first): [own[net] for net in self.nets],
            id(second): [at[net] for net in self.nets],
        }
        if not self.nets:
            why = "%s and %s have no net in common" % (first.name, second.name)
            raise BadText("; ".join([why, *hints(first, second)]))
        self.only = (set(first.nets) - set(self.nets), set(second.nets) - set(self.nets))

    def row(self, run: Run, row: Optional[str]) -> str:
        """The values of a row of a run, net by net."""
        return "".join(map((row or "").__getitem__, self.places[id(run)]))


class Count:
    """How many turns and bits were compared, and how many were left out for an `x`."""

    def __init__(self, wild: str) -> None:
        self.turns = self.bits = self.left_out = 0
        self.is_wild = (wild in ("first", "both"), wild in ("second", "both"))

    def difference(self, first: str, second: str) -> Optional[int]:
        """The place where two rows differ, if they do."""
        self.turns += 1
        if first == second and not {"x", NONE} & set(first):
            self.bits += len(first)
            return None
        for place, (a, b) in enumerate(zip(first, second)):
            if NONE in (a, b):
                continue
            if a == "x" and self.is_wild[0] or b == "x" and self.is_wild[1]:
                self.left_out += 1
                continue
            self.bits += 1
            if a != b:
                return place
        return None

    def told(self) -> str:
        """The last line."""
        told = "compared: turns %d, bits %d" % (self.turns, self.bits)
        return told + (", left out for x %d" % self.left_out if self.left_out else "")


def compared(pairs: Pairs, first: Run, second: Run, count: Count) -> Iterator[str]:
    """The first difference, if there is one."""
    has_end = all(run.end or run.wave for run in (first, second))
    rows = [chain(run.rows, run.end if has_end else []) for run in (first, second)]
    for turn, (a, b) in enumerate(zip_longest(*rows)):
        if a is None or b is None:
            if not (first.wave or second.wave):
                yield "%s has no turn %d" % ((first if a is None else second).name, turn)
            return
        values = pairs.row(first, a), pairs.row(second, b)
        place = count.difference(*values)
        if place is not None:
            told = (turn, pairs.nets[place], values[0][place], first.name, values[1][place])
            yield "turn %d, %s: %s in %s, %s in %s" % (told + (second.name,))
            return


MANUAL = Manual(
    (
        File("first", "a trace, rows or VCD (IEEE 1364-2005), read; FORMATS, Trace"),
        File("second", "the same"),
        read("--net NET", "BLIF", "Netlists"),
        read("--other NET", "BLIF", "Netlists"),
    ),
    (
        Example(
            "Compares a trace with a waveform of the same run.",
            """
$ tools/compare examples/counter.trace examples/counter.vcd --net examples/counter.blif
compared: turns 9, bits 34
""",
        ),
        Example(
            "Compares a trace with what a simulator prints for the source in Verilog.",
            """
$ tools/testbench examples/counter.blif examples/counter.vec --top counter > counter_tb.v
$ iverilog -o counter_tb counter_tb.v examples/counter.v
$ vvp -n counter_tb > source
$ tools/compare examples/counter.trace source --net examples/counter.blif --x second
only in examples/counter.trace: nets 2, state[0] state[1]
compared: turns 8, bits 16
""",
        ),
    ),
)


def words(name: str) -> Parser:
    taken = parser(name, __doc__, MANUAL)
    taken.add_argument("first", help="a trace, rows or a waveform; - is the standard input")
    taken.add_argument("second", help="another one")
    taken.add_argument("--net", metavar="NET", help="the netlist of the traces")
    taken.add_argument("--other", metavar="NET", help="the netlist of the second trace")
    taken.add_argument("--x", choices=SIDES, help="whose x stands for any value")
    says = "the fewest bits (the default is 1)"
    taken.add_argument("--least", type=number_word, metavar="N", default=1, help=says)
    take_wave(taken)
    says = "the edge of the clock: re, rising (the default), or fe, falling"
    taken.add_argument("--edge", choices=("re", "fe"), default="re", help=says)
    return taken


def main(argv: list[str]) -> int:
    taken = words(argv[0])
    asked = taken.parse_args(argv[1:])
    first, second = runs(asked)
    if (asked.clock or asked.scope) and not (first.wave or second.wave):
        taken.error("--clock and --scope go with a waveform")
    pairs, count = Pairs(first, second), Count(asked.x or "")
    found = list(compared(pairs, first, second, count))
    for run, only in zip((first, second), pairs.only):
        if only:
            names = " ".join(sorted(only)[:3]) + (" .." if len(only) > 3 else "")
            found.insert(0, "only in %s: nets %d, %s" % (run.name, len(only), names))
    is_wrong = any(line.startswith("turn ") or " has no turn " in line for line in found)
    if is_wrong:
        found += [hint for run in (first, second) for hint in clock_hint(run, asked)]
    is_short = count.bits < asked.least
    found += ["fewer than %d bits" % asked.least] * is_short + [count.told()]
    put("latin-1", found)
    return 1 if is_wrong or is_short else 0
