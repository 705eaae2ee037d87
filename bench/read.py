#!/usr/bin/env python3
"""Times how fast texts at the limits are read, and one whole `check`.

Each text but one ends in a fault that is met only once the whole text is read, so that no later
stage runs: a netlist whose first command uses a model that is not there (a fault of copies, which
come after all lines are read), and vectors whose last line has another width. The one is a netlist
of 60,000 tables and 4,000 registers without a fault, of which `check` makes a design as well. The
size is that of the text in bytes; each time is the median of some runs, processor time from the
start of the process to its end. The exit status is 1 where a run answers anything but what its text
asks for.
"""

import argparse
import os
import resource
import statistics
import subprocess
import sys
import tempfile

HERE = os.path.dirname(os.path.abspath(__file__))
PROGRAM = os.path.join(os.path.dirname(HERE), "crates", "desync", "out", "desync")
LIMIT = 16777216
HEAD = ".model top\n.inputs a\n.subckt nix a=a\n"
END = ".end\n"


def repeated(make, most):
    """Pieces by number, as many as have room in so many bytes."""
    pieces, size, number = [], 0, 0
    while True:
        piece = make(number)
        if size + len(piece) > most:
            return "".join(pieces)
        pieces.append(piece)
        size += len(piece)
        number += 1


def small_table(number):
    """A table of two inputs, as synthesis writes it."""
    return ".names n%d n%d n%d\n01 1\n10 1\n" % (number, number + 1, number + 2)


def wide_table(number):
    """A table of ten inputs with long names and sixteen rows."""
    names = " ".join("unit_%d/data[%d]" % (number, bit) for bit in range(10))
    rows = "".join("{:010b} 1\n".format(row * 63 % 1024) for row in range(16))
    return ".names %s unit_%d/result\n%s" % (names, number, rows)


def latch(number):
    """A register."""
    return ".latch d%d q%d re clk 0\n" % (number, number)


def comment(number):
    """A line that is a comment, and a joined line."""
    return "# line %d says nothing of the design\n.names a \\\n b%d\n1 1\n" % (number, number)


# The limits on tables and registers are met by a number of pieces; the texts stay below them.
NETLISTS = [
    ("tables of two inputs", small_table, 65000),
    ("tables of ten inputs, sixteen rows", wide_table, 65000),
    ("registers", latch, 16000),
    ("comments and joined lines", comment, 65000),
]
VECTORS = [("vectors of 255 columns", 255), ("vectors of 4,000 columns", 4000)]


def netlist(make, most):
    """A netlist of these pieces that uses a model that is not there."""
    room = LIMIT - len(HEAD) - len(END)

    def limited(number):
        return make(number) if number < most else "x" * (room + 1)

    return HEAD + repeated(limited, room) + END


def mapped():
    """A whole netlist as synthesis writes it: tables of two inputs, and registers behind them."""
    registers, tables = 4000, 60000
    lines = [".model mapped", ".inputs in_a in_b"]
    nets = ["in_a", "in_b"] + ["unit_%d/state" % number for number in range(registers)]
    for number in range(tables):
        net = "unit_%d/net" % number
        one, other = nets[-1 - number % 3001], nets[number * 7919 % len(nets)]
        lines.append(".names %s %s %s\n01 1\n10 1" % (one, other, net))
        nets.append(net)
    for number in range(registers):
        lines.append(".latch %s unit_%d/state re clk 0" % (nets[-1 - number], number))
    return "\n".join(lines + [".outputs " + nets[-1], ".end"]) + "\n"


def vectors(width):
    """As many vectors as have room, and one that is too short."""
    rows = ["".join("01"[(row >> bit % 16) & 1] for bit in range(width)) + "\n" for row in range(64)]
    count = min(65000, (LIMIT - 2) // (width + 1))
    return "".join(rows[row % 64] for row in range(count)) + "0\n"


def columns(width):
    """A netlist of columns alone."""
    return ".model top\n.inputs %s\n.end\n" % " ".join("x%d" % bit for bit in range(width))


def used():
    """The processor time of all runs so far."""
    times = resource.getrusage(resource.RUSAGE_CHILDREN)
    return times.ru_utime + times.ru_stime


def timed(words, fault, times):
    """The median time of a run that is to end with this fault, or, with none, with status 0."""
    taken = []
    for _ in range(times):
        before = used()
        done = subprocess.run(words, capture_output=True)
        taken.append(used() - before)
        if done.returncode != (1 if fault else 0) or fault not in done.stderr:
            sys.exit("%s: status %d, %r" % (words, done.returncode, done.stderr[:200]))
    return statistics.median(taken)


def report(name, size, seconds):
    """A line of the table."""
    print("| %s | %d | %.3f | %.0f |" % (name, size, seconds, size / seconds / 1e6))


def main():
    parser = argparse.ArgumentParser(description=__doc__.split("\n")[0])
    parser.add_argument("--times", type=int, default=5, help="runs that a median is of")
    parser.add_argument("--program", default=PROGRAM, help="the program to time")
    options = parser.parse_args()
    if not os.path.exists(options.program):
        sys.exit("%s is not there: build it first" % options.program)
    print("| Text | Bytes | Seconds | MB a second |\n|---|---|---|---|")
    with tempfile.TemporaryDirectory() as folder:
        net = os.path.join(folder, "net")
        vec = os.path.join(folder, "vec")
        for name, make, most in NETLISTS:
            with open(net, "w") as file:
                file.write(netlist(make, most))
            words = [options.program, "check", net]
            seconds = timed(words, b"unknown model nix", options.times)
            report(name, os.path.getsize(net), seconds)
        with open(net, "w") as file:
            file.write(mapped())
        seconds = timed([options.program, "check", net], b"", options.times)
        report("whole `check` of 60,000 tables of two inputs", os.path.getsize(net), seconds)
        for name, width in VECTORS:
            with open(net, "w") as file:
                file.write(columns(width))
            with open(vec, "w") as file:
                file.write(vectors(width))
            words = [options.program, "clock", net, vec]
            seconds = timed(words, b"bad width", options.times)
            report(name, os.path.getsize(vec), seconds)


if __name__ == "__main__":
    main()
