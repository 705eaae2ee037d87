#!/usr/bin/env python3
"""Times `accept` on graphs that give orders by walks: handshakes, and dummies on the way.

Each job is run some times, and its median processor time is printed beside its greatest memory. The
exit status is 1 where a job answers another status than the one it is to give.
"""

import argparse
import os
import random
import statistics
import subprocess
import sys
import tempfile

import limits

DUMMIES, CHAIN, REGISTERS = 1440, 57000, 4096


def sparse(count, most):
    """Registers each of which reads the vector and up to so many others."""
    draw = random.Random(30)
    yield from (".model sparse", ".inputs clk a", ".outputs r0")
    for i in range(count):
        read = ["a"] + ["r%d" % k for k in draw.sample(range(count), draw.randint(most - 1, most))]
        yield ".names %s d%d" % (" ".join(read), i)
        yield "1" * len(read) + " 1"
        yield ".latch d%d r%d re clk 0" % (i, i)
    yield ".end"


def alone(count):
    """Registers each of which reads the vector alone."""
    yield from (".model alone", ".inputs clk a", ".outputs r0")
    for i in range(count):
        yield ".latch a r%d re clk 0" % i
    yield ".end"


def orders(net):
    """The signals of the graph that `graph` prints, and its orders with their tokens."""
    text = subprocess.run([limits.PROGRAM, "graph", net], stdout=subprocess.PIPE, check=True).stdout
    signals, found = [], {}
    for line in text.decode().splitlines():
        words = line.split()
        if words[0] == ".outputs":
            signals = words[1:]
        elif words[0] == ".marking":
            for entry in words[2:-1]:
                pair, _, tokens = entry.partition("=")
                found[tuple(pair[1:-1].split(","))] = int(tokens or 1)
        elif not words[0].startswith("."):
            found.update({(words[0], target): 0 for target in words[1:]})
    return signals, found


def graph(signals, further, found):
    """The text of a graph of these signals and further declarations, with these orders."""
    by_source = {}
    for source, target in found:
        by_source.setdefault(source, []).append(target)
    yield ".outputs " + " ".join(signals)
    yield further
    yield ".graph"
    for source, targets in by_source.items():
        yield " ".join([source] + targets)
    marked = ["<%s,%s>=%d" % (pair + (tokens,)) for pair, tokens in found.items() if tokens]
    yield ".marking { %s }" % " ".join(marked)
    yield ".end"


def handshakes(net):
    """The graph with a request and an acknowledge for each data edge, in four phases."""
    signals, found = orders(net)
    edges = [(p[:-1], c[:-1]) for p, c in found if p[-1] == "+" and c[-1] == "+"]
    kept = {(u, v): n for (u, v), n in found.items() if u[:-1] == v[:-1]}
    for j, (p, c) in enumerate(edges):
        there, back = found[p + "+", c + "+"], found[c + "-", p + "+"]
        r, a = "r%d" % j, "a%d" % j
        kept.update({
            (p + "+", r + "+"): 0, (r + "+", c + "+"): there, (c + "-", a + "+"): 0,
            (a + "+", p + "+"): back, (a + "+", r + "-"): 0, (r + "-", a + "-"): 0,
            (a + "-", r + "+"): back, (a + "-", a + "+"): 1})
    names = " ".join("r%d a%d" % (j, j) for j in range(len(edges)))
    return graph(signals, ".internal " + names, kept)


def through(net, dummies, arcs, first, last, but=()):
    """The graph in which each master closes after it opened by way of the dummies alone."""
    signals, found = orders(net)
    masters = [name for name in signals if name[0] == "M"]
    kept = {pair: n for pair, n in found.items() if pair not in
            {(name + "+", name + "-") for name in masters}}
    kept.update({pair: 0 for pair in arcs})
    kept.update({(name + "+", first): 0 for name in masters})
    kept.update({(last, name + "-"): 0 for name in masters if name not in but})
    return graph(signals, ".dummy " + " ".join(dummies), kept)


def jobs(folder):
    """The name of each job, its words, and its status."""
    def accept(net, name, lines):
        return ["accept", net, limits.write(folder, name + ".g", lines)]

    net = limits.write(folder, "dense.blif", limits.dense(180))
    yield "180 registers that read each other, with handshakes", accept(net, "dense", handshakes(net)), 0
    net = limits.write(folder, "sparse.blif", sparse(REGISTERS, 5))
    yield "4,096 registers that read five others, with handshakes", accept(net, "sparse", handshakes(net)), 0
    net = limits.write(folder, "alone.blif", alone(REGISTERS))
    names = ["d%d" % k for k in range(DUMMIES)]
    arcs = [(names[i], names[j]) for i in range(DUMMIES) for j in range(i + 1, DUMMIES)]
    ends = (names[0], names[-1])
    lines = through(net, names, arcs[: 1048576 - 5 * REGISTERS * 2], *ends)
    yield "4,096 masters close by way of 1,440 dummies and a million arcs", accept(net, "wide", lines), 0
    lines = through(net, names, arcs[: 1048576 - 5 * REGISTERS * 2], *ends, but=("M7",))
    yield "the same with an arc less, refused", accept(net, "less", lines), 1
    names = ["e%d" % k for k in range(CHAIN)]
    arcs = list(zip(names[1:], names))
    yield "4,096 masters close by way of a chain of 57,000 dummies", accept(
        net, "chain", through(net, names, arcs, names[-1], names[0])), 0


def main():
    parser = argparse.ArgumentParser(description=__doc__.split("\n", maxsplit=1)[0])
    parser.add_argument("--times", type=int, default=3, help="runs that a median is of")
    parser.add_argument("--program", default=limits.PROGRAM, help="the built desync")
    options = parser.parse_args()
    limits.PROGRAM = os.path.abspath(options.program)
    if not os.path.exists(limits.PROGRAM):
        sys.exit("%s is not there: build it first" % limits.PROGRAM)
    print("| Job | Seconds | MB |\n|---|---|---|")
    with tempfile.TemporaryDirectory() as folder:
        for name, words, status in jobs(folder):
            runs = [limits.timed([limits.PROGRAM] + words, status) for _ in range(options.times)]
            seconds = statistics.median(seconds for seconds, _ in runs)
            print("| `accept`: %s | %.2f | %.0f |" % (name, seconds, max(it for _, it in runs)))


if __name__ == "__main__":
    main()
