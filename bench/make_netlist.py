#!/usr/bin/env python3
"""Makes a netlist of a given size and vectors for it.

`random` has registers each of which takes a random table of three inputs; the inputs are drawn
among two columns and all registers. `pipeline` has stages of registers of a given width, with
levels of exclusive ors and ands between one stage and the next; `stages` is the same with a width
for each stage. `mapped` has random tables of two
to four inputs, as a mapper to tables of four inputs leaves them, and a register behind every tenth.
With `--hold N` about N vectors in a hundred are the one before. It writes PREFIX.blif and
PREFIX.vec. The same words and seed make the same files.
"""

import argparse
import random

PIPELINE = ("width", "stages", "levels")
STAGES = ("levels", "widths")
SIZES = {"random": ("registers",), "pipeline": PIPELINE, "stages": STAGES, "mapped": ("tables",)}
COLUMNS, NEAR = 32, 400
ROWS = ["000", "100", "010", "110", "001", "101", "011", "111"]


def random_netlist(draw, registers):
    """Each register takes a random table of three nets."""
    sources = ["x0", "x1"] + ["r%d" % j for j in range(registers)]
    yield ".model random"
    yield ".inputs clk x0 x1"
    yield ".outputs d0 r%d" % (registers - 1)
    for j in range(registers):
        yield ".names %s d%d" % (" ".join(draw.choice(sources) for _ in range(3)), j)
        table = draw.getrandbits(8)
        for place, row in enumerate(ROWS):
            if table >> place & 1:
                yield row + " 1"
        yield ".latch d%d r%d re clk %d" % (j, j, draw.getrandbits(1))
    yield ".end"


def gate(draw, level, a, b, output):
    """An exclusive or at odd levels; at even ones an and with one input inverted, or an or."""
    yield ".names %s %s %s" % (a, b, output)
    rows = ["10", "01"] if level % 2 else draw.choice((["10"], ["01"], ["1-", "-1"]))
    for row in rows:
        yield row + " 1"


def pipeline(draw, width, stages, levels):
    """Stages of registers with levels of tables between them."""
    return staged(draw, levels, [width] * stages)


def staged(draw, levels, widths):
    """The same with a width for each stage."""
    yield ".model pipeline"
    yield ".inputs clk " + " ".join("x%d" % i for i in range(widths[0]))
    yield ".outputs " + " ".join("s%d_%d" % (len(widths), i) for i in range(widths[-1]))
    before = ["x%d" % i for i in range(widths[0])]
    for stage, width in enumerate(widths, 1):
        for level in range(1, levels + 1):
            after = ["t%d_%d_%d" % (stage, level, i) for i in range(width)]
            count = len(before)
            for i in range(width):
                one, other = before[i % count], before[(i + level) % count]
                yield from gate(draw, level, one, other, after[i])
            before = after
        after = ["s%d_%d" % (stage, i) for i in range(width)]
        for i in range(width):
            yield ".latch %s %s re clk %d" % (before[i % len(before)], after[i], draw.getrandbits(1))
        before = after
    yield ".end"


def mapped(draw, tables):
    """Tables of two to four inputs that read nets near them, and a register behind every tenth."""
    registers = ["r%d" % k for k in range(0, tables, 10)]
    nets = ["x%d" % i for i in range(COLUMNS)] + registers
    yield ".model mapped"
    yield ".inputs clk " + " ".join(nets[:COLUMNS])
    yield ".outputs n%d" % (tables - 1)
    for k in range(tables):
        width = draw.choice((2, 2, 3, 3, 4, 4, 4))
        yield ".names %s n%d" % (" ".join(draw.sample(nets[-NEAR:], width)), k)
        truth = draw.randrange(1, 2 ** (2 ** width) - 1)
        for place in range(2 ** width):
            if truth >> place & 1:
                yield format(place, "0%db" % width) + " 1"
        nets.append("n%d" % k)
    for k, register in enumerate(registers):
        yield ".latch n%d %s re clk %d" % (10 * k, register, draw.getrandbits(1))
    yield ".end"


def vectors(draw, width, turns, hold=0):
    """Random bits, or in some turns of a hundred those of the turn before."""
    vector = None
    for _ in range(turns):
        if vector is None or not hold or draw.randrange(100) >= hold:
            vector = format(draw.getrandbits(width), "0%db" % width)
        yield vector


def make(prefix, seed, turns, kind, sizes, hold=0):
    """Writes both files."""
    draw = random.Random(seed)
    if kind == "random":
        lines, width = random_netlist(draw, *sizes), 2
    elif kind == "mapped":
        lines, width = mapped(draw, *sizes), COLUMNS
    elif kind == "stages":
        lines, width = staged(draw, *sizes), sizes[1][0]
    else:
        lines, width = pipeline(draw, *sizes), sizes[0]
    for name, text in ((".blif", list(lines)), (".vec", list(vectors(draw, width, turns, hold)))):
        with open(prefix + name, "w") as file:
            file.writelines(line + "\n" for line in text)


def at_least(least):
    """A reader of numbers that are not less."""

    def number(word):
        if int(word) < least:
            raise ValueError
        return int(word)

    return number


def main():
    parser = argparse.ArgumentParser(prog="make_netlist.py", description=__doc__)
    parser.add_argument("prefix", help="the files are PREFIX.blif and PREFIX.vec")
    parser.add_argument("--seed", type=int, default=1)
    parser.add_argument("--turns", type=at_least(0), default=1000, help="how many vectors")
    parser.add_argument("--hold", type=at_least(0), default=0, help="how many of a hundred stay")
    kinds = parser.add_subparsers(dest="kind", required=True)
    one = kinds.add_parser("random")
    one.add_argument("registers", type=at_least(1))
    two = kinds.add_parser("pipeline")
    for name in PIPELINE:
        two.add_argument(name, type=at_least(0 if name == "levels" else 1))
    uneven = kinds.add_parser("stages")
    uneven.add_argument("levels", type=at_least(1))
    uneven.add_argument("widths", type=at_least(1), nargs="+", help="the registers of each stage")
    three = kinds.add_parser("mapped")
    three.add_argument("tables", type=at_least(10))
    asked = parser.parse_args()
    sizes = [getattr(asked, name) for name in SIZES[asked.kind]]
    make(asked.prefix, asked.seed, asked.turns, asked.kind, sizes, asked.hold)


if __name__ == "__main__":
    main()
