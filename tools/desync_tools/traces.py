"""Reads the traces that `desync run` and `desync clock` print."""

from __future__ import annotations

from typing import Iterator, Optional

from desync_tools.netlist import Netlist
from desync_tools.text import Text, text_of
from desync_tools.vectors import ROW, bits, vectors_of

# A row of a trace: the outputs, which the last one has not, and the registers.
Turn = tuple[Optional[str], str]


def rows_of(trace: Text) -> Iterator[Turn]:
    """The outputs and the registers, turn by turn, the `end` line last with no outputs."""
    for turn, line in enumerate(trace.text.splitlines()):
        words = line.split(" ")
        if any(not ROW.match(word) for word in words[1:]):
            raise trace.fault("this is no line of a trace: %s" % line, turn + 1)
        if words[0] == "end" and len(words) == 2:
            yield None, bits(words[1])
            return
        if len(words) != 3 or words[0] != str(turn):
            raise trace.fault("this is not turn %d of a trace: %s" % (turn, line), turn + 1)
        yield bits(words[1]), bits(words[2])
    raise trace.fault("the trace has no `end` line")


def fitting(netlist: Netlist, trace: Text) -> list[Turn]:
    """The rows of a trace, which are to fit a netlist."""
    rows = list(rows_of(trace))
    for turn, (outputs, registers) in enumerate(rows):
        is_wide = outputs is None or len(outputs) == len(netlist.outputs)
        if not is_wide or len(registers) != len(netlist.registers):
            raise trace.fault("turn %d does not fit %s" % (turn, netlist.path), turn + 1)
    return rows


def vectors_beside(netlist: Netlist, path: str, rows: list[Turn]) -> list[str]:
    """The vectors of a file, which are to be one a turn of a trace."""
    text = text_of(path)
    vectors = list(vectors_of(text, len(netlist.columns)))
    if len(vectors) != len(rows) - 1:
        raise text.fault("%d vectors, and %d turns of the trace" % (len(vectors), len(rows) - 1))
    return vectors
