#!/usr/bin/env python3
"""Draws docs/simulators.svg from the results, by gnuplot.

It has the microseconds of a turn by Desync's `clock` and by other simulators, for each netlist of
results/simulators.txt. A cell `-` is left out.
"""

import argparse
import os
import re
import shutil
import subprocess
import sys

from report import HERE, Results

DOCS = os.path.join(os.path.dirname(HERE), "docs")
COLOURS = ("#1f77b4", "#8c8c8c", "#bdbdbd", "#d62728", "#2ca02c", "#9467bd", "#e6a700")
STYLE = """set terminal svg size 640,360 font "Helvetica,12" background rgb "white"
set border 3
set tics nomirror
set grid ytics linecolor rgb "#dddddd"
set datafile missing "-"
"""


def number(cell):
    """The first number of a cell, or nothing."""
    found = re.match(r"[\d.]+", cell.replace(",", ""))
    return found[0] if found else "-"


def quoted(text):
    return '"%s"' % text.replace('"', "'")


def simulators():
    """Bars: microseconds a turn, on a scale of tens."""
    head, *rows = Results("simulators").rows()
    names = [name for name in head[2:] if name != "run"]
    data = []
    for row in rows:
        cells = dict(zip(head, row))
        turns = float(number(cells["turns"]))
        told = [number(cells[name]) for name in names]
        each = ["-" if one == "-" else "%.3f" % (1e6 * float(one) / turns) for one in told]
        data.append(" ".join([quoted(row[0].replace(" ", "\\n"))] + each))
    yield "set logscale y"
    yield 'set ylabel "microseconds a turn"'
    yield "set style data histograms"
    yield "set style fill solid"
    yield "set boxwidth 0.9"
    yield "set bmargin 3.5"
    yield 'set xtics font ",9"'
    yield "set key outside right center"
    yield from drawn(data, "%d:xtic(1)", names)


def drawn(data, using, names):
    """The data, and the commands that draw a column of them for each name."""
    yield "$data << END\n%s\nEND" % "\n".join(data)
    parts = []
    for at, name in enumerate(names):
        style = "linecolor rgb %s linewidth 2" % quoted(COLOURS[at % len(COLOURS)])
        parts.append("$data using %s title %s %s" % (using % (at + 2), quoted(name), style))
    yield "plot " + ", ".join(parts)


def main():
    argparse.ArgumentParser(description=__doc__.split("\n")[0]).parse_args()
    if not shutil.which("gnuplot"):
        sys.exit("plots.py: gnuplot is not there")
    path = os.path.join(DOCS, "simulators.svg")
    text = STYLE + 'set output "%s"\n' % path + "\n".join(simulators()) + "\n"
    subprocess.run(["gnuplot"], input=text.encode(), check=True)


if __name__ == "__main__":
    main()
