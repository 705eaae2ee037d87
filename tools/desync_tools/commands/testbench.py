"""Writes a test bench in Verilog, by which a simulator says whether a netlist is its source.

It gives the vectors to the module --top of the source, a turn each, and prints `TURN OUTPUTS`: what
`desync clock NET VEC` prints, without the registers and the last line. So `tools/compare` decides,
and takes an `x` of the source for any value.

The names of the netlist's inputs and outputs are to be those of the ports, as Yosys writes them.
Where --clock is left out, the clock is that of the netlist.
"""

from __future__ import annotations

import re
from typing import Any, Iterable, Iterator, Optional

from desync_tools.buses import bit_of
from desync_tools.command import Parser, parser, put
from desync_tools.manual import NETLIST, Example, File, Manual, read
from desync_tools.netlist import Net, Netlist, printed, read_netlist
from desync_tools.text import BadText, as_bytes, shown, text_of
from desync_tools.vectors import vectors_of

PLAIN = re.compile(r"^[A-Za-z_]\w*$", re.A)
NAME = re.compile(r"^[^\s]+$")
# The words of Verilog itself, of IEEE 1364-2005.
KEYWORDS = set(
    """always and assign automatic begin buf bufif0 bufif1 case casex casez cell cmos config
    deassign default defparam design disable edge else end endcase endconfig endfunction endgenerate
    endmodule endprimitive endspecify endtable endtask event for force forever fork function
    generate genvar highz0 highz1 if ifnone incdir include initial inout input instance integer join
    large liblist library localparam macromodule medium module nand negedge nmos nor
    noshowcancelled not notif0 notif1 or output parameter pmos posedge primitive pull0 pull1
    pulldown pullup pulsestyle_ondetect pulsestyle_onevent rcmos real realtime reg release repeat
    rnmos rpmos rtran rtranif0 rtranif1 scalared showcancelled signed small specify specparam
    strong0 strong1 supply0 supply1 table task time tran tranif0 tranif1 tri tri0 tri1 triand trior
    trireg unsigned use uwire vectored wait wand weak0 weak1 while wire wor xnor xor""".split()
)


def word_of(name: str) -> str:
    """A name as Verilog reads it; one that is no plain word, or one of its own, is escaped."""
    return name if PLAIN.match(name) and name not in KEYWORDS else "\\%s " % name


class Port:
    """A port of the source, and the numbers of its bits; none where it is a single net."""

    def __init__(self, name: str) -> None:
        self.word = word_of(name)
        self.bits: list[int] = []

    def declared(self, kind: str) -> str:
        """The line that declares it."""
        if not self.bits:
            return "  %s %s;" % (kind, self.word)
        ends = (max(self.bits), min(self.bits))
        left, right = ends[::-1] if self.bits[0] > self.bits[-1] else ends
        return "  %s [%d:%d] %s;" % (kind, left, right, self.word)


def ports_of(nets: Iterable[Net]) -> tuple[dict[str, Port], list[str]]:
    """The ports of some nets, by their names, and each net as Verilog reads it."""
    ports: dict[str, Port] = {}
    names: list[str] = []
    for net in nets:
        name, bit = bit_of(net)
        port = ports.setdefault(name, Port(name))
        names.append(port.word if bit is None else "%s[%d]" % (port.word, bit))
        port.bits += [] if bit is None else [bit]
    return ports, names


def joined(names: list[str]) -> str:
    return "{%s}" % ", ".join(names)


def turn_of(columns: list[str], outputs: list[str], clock: str, edge: str) -> Iterator[str]:
    """The task of one turn: columns are given, outputs are shown, the clock ticks."""
    yield "  task desync_take%s;" % (" (input [%d:0] row)" % (len(columns) - 1) if columns else "")
    yield "    begin"
    if columns:
        yield "      %s = row;" % joined(columns)
    told = ', "%%b", %s' % joined(outputs) if outputs else ', "-"'
    yield '      #4 $display("%%0d ", desync_turn%s);' % told
    if clock:
        yield "      %s = %d;" % (clock, 0 if edge == "fe" else 1)
        yield "      #3 %s = %d;" % (clock, 1 if edge == "fe" else 0)
    yield "      #3 desync_turn = desync_turn + 1;"
    yield "    end"
    yield "  endtask"


def bench(netlist: Netlist, vectors: list[str], top: str, clock: str) -> Iterator[str]:
    """The lines of the test bench."""
    given, columns = ports_of(netlist.columns)
    taken, outputs = ports_of(netlist.outputs)
    yield "`timescale 1ns/1ns"
    yield "module desync_testbench;"
    if clock:
        yield "  reg %s = %d;" % (clock, 1 if netlist.edge == "fe" else 0)
    for port in given.values():
        yield port.declared("reg")
    for port in taken.values():
        yield port.declared("wire")
    names = [clock] * bool(clock)
    names += [port.word for ports in (given, taken) for port in ports.values()]
    yield "  integer desync_turn = 0;"
    yield "  %s desync_source (%s);" % (word_of(top), ", ".join(".%s(%s)" % (w, w) for w in names))
    yield from turn_of(columns, outputs, clock, netlist.edge)
    yield "  initial begin"
    for vector in vectors:
        yield "    desync_take%s;" % ("(%d'b%s)" % (len(vector), vector) if vector else "")
    yield "    $finish(0);"
    yield "  end"
    yield "endmodule"


def both(first: Iterable[str], second: Iterable[str], told: str) -> Iterator[str]:
    """A text for each name that stands in two lists."""
    yield from (told % name for name in sorted(set(first) & set(second)))


def doubled(netlist: Netlist) -> Iterator[str]:
    """What has no ports of its own: a text for each name that stands for two things."""
    columns, outputs = netlist.columns, netlist.outputs
    told = "%s is an input and an output"
    yield from both(map(printed, columns), map(printed, outputs), told)
    yield from both(ports_of(columns)[0], ports_of(outputs)[0], told)
    for bits in [list(map(bit_of, nets)) for nets in (columns, outputs)]:
        wide = [name for name, bit in bits if bit is not None]
        yield from both([name for name, bit in bits if bit is None], wide, "%s is a net and a bus")


def checked(netlist: Netlist) -> Netlist:
    """Refuses what has no ports of its own."""
    for why in doubled(netlist):
        raise BadText("%s: %s" % (netlist.path, why))
    return netlist


def clock_of(netlist: Netlist, asked: Optional[str]) -> str:
    """The port of the clock: the one that was asked for, else that of the netlist."""
    if asked is None:
        return "".join(printed(net) for net in netlist.controls[:1])
    if asked in map(printed, netlist.columns):
        raise BadText("%s: %s is a column of the vectors" % (netlist.path, asked))
    return asked


MANUAL = Manual(
    (
        NETLIST,
        read("vectors", "vectors", "Vectors"),
        File("output", "Verilog (IEEE 1364-2005), written"),
    ),
    (
        Example(
            "Compares a netlist with its source by Icarus Verilog.",
            """
$ tools/testbench examples/counter.blif examples/counter.vec --top counter > counter_tb.v
$ iverilog -o counter_tb counter_tb.v examples/counter.v
$ vvp -n counter_tb > source
$ tools/compare examples/counter.trace source --net examples/counter.blif --x second
only in examples/counter.trace: nets 2, state[0] state[1]
compared: turns 8, bits 16
""",
        ),
    ),
)


def words(name: str) -> Parser:
    taken = parser(name, __doc__, MANUAL)
    taken.add_argument("netlist", help="the netlist in BLIF")
    taken.add_argument("vectors", help="the vectors")
    named: dict[str, Any] = {"metavar": "NAME", "type": as_bytes}
    taken.add_argument("--top", required=True, help="the module of the source", **named)
    taken.add_argument("--clock", help="the port of the clock", **named)
    return taken


def main(argv: list[str]) -> int:
    taken = words(argv[0])
    asked = taken.parse_args(argv[1:])
    for word in (asked.top, asked.clock):
        if word is not None and not NAME.match(word):
            taken.error("this is no name: %r" % shown(word))
    netlist = checked(read_netlist(asked.netlist))
    clock = clock_of(netlist, asked.clock)
    vectors = vectors_of(text_of(asked.vectors), len(netlist.columns))
    lines = bench(netlist, list(vectors), asked.top, word_of(clock) if clock else "")
    put("latin-1", lines)
    return 0
