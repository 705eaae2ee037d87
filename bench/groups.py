#!/usr/bin/env python3
"""Times groups of registers at the limits: many names, many patterns, long names, many copies.

Each job is run some times, and its median processor time is printed beside its greatest memory. The
exit status is 1 where a job answers another status than the one it is to give.
"""

import argparse
import os
import statistics
import sys
import tempfile

import limits

# As many registers as a netlist may have, and words of a line, so that there are 4,096 lines.
MANY, A_LINE = 16384, 4
# As many copies of a register with a name of so many bytes; so many of their names fill a file.
COPIES, LONG, NAMED = 900, 20000, 830


def four_a_line(words):
    """Lines of four words each."""
    for at in range(0, len(words), A_LINE):
        yield " ".join(words[at : at + A_LINE])


def copies(name, count):
    """As many copies of a model with one register of this name, all of which take the input."""
    yield from (".model top", ".inputs a")
    for _ in range(count):
        yield ".subckt leaf i=a"
    yield from (".end", ".model leaf", ".inputs i", ".latch i %s 0" % name, ".end")


def named(names):
    """Registers of these names, all of which take the input."""
    yield from (".model named", ".inputs i")
    for name in names:
        yield ".latch i %s 0" % name
    yield ".end"


def with_groups(command, net, lines, status=0):
    """The words of a command with groups of these lines, in a file beside the netlist."""
    folder, made = os.path.split(net)
    name = "%s.%d.groups" % (made, len(os.listdir(folder)))
    return [command, net, "--groups", limits.write(folder, name, lines)], status


def by_names(folder):
    """Words that are names of registers, all that there may be."""
    net = limits.write(folder, "row.blif", limits.registers(MANY))
    names = ["q%d" % i for i in range(MANY)]
    yield "clusters: 16,384 names, four a line", with_groups("clusters", net, four_a_line(names))
    yield "the same, all on one line", with_groups("clusters", net, [" ".join(names)])
    yield "the same, backwards", with_groups("clusters", net, four_a_line(names[::-1]))
    lines = list(four_a_line(names)) + ["q0"]
    yield "the same, and one of them again, refused", with_groups("clusters", net, lines, 1)


def by_patterns(folder):
    """Patterns that take one register each: those not taken yet are all looked at."""
    net = os.path.join(folder, "row.blif")
    ends = ["q*%d" % i for i in range(MANY)]
    names = ["register%05d" % i for i in range(MANY)]
    even = limits.write(folder, "even.blif", named(names))
    for title, of, words in (
        ("clusters: 16,384 patterns, from the longest name down", net, ends[::-1]),
        ("clusters: 16,384 patterns with a star at the front", even, ["*" + n for n in names]),
        ("the same, from the last register on", even, ["*" + n for n in names[::-1]]),
        ("the same, a star at each end", even, ["*%s*" % n[1:] for n in names]),
    ):
        yield title, with_groups("clusters", of, four_a_line(words))
    last = ["*"] * 2
    yield "clusters: a pattern that takes all, and one again, refused", with_groups(
        "clusters", even, last, 1
    )


def by_stars(folder):
    """Patterns against long names: each of ten takes one of a hundred registers."""
    names = ["a" * 80000 + "%03d" % i for i in range(100)]
    net = limits.write(folder, "long.blif", named(names))
    for title, start in (
        ("40,000 stars", "*a" * 40000),
        ("a piece of 40,000 bytes", "*" + "a" * 40000),
        ("10,000 pieces, the last of which is long", "*a" * 10000 + "*" + "a" * 30000),
    ):
        words = ["%s%03d" % (start, i) for i in range(10)]
        yield "graph: 100 names of 80,003 bytes, ten patterns: " + title, with_groups(
            "graph", net, words
        )
    words = ["*" + "a" * 80000 + "b"]
    yield "graph: the same names, a pattern that none of them matches, refused", with_groups(
        "graph", net, words, 1
    )


def of_copies(folder):
    """Copies of a register with a long name."""
    name = "q" * LONG
    net = limits.write(folder, "copies.blif", copies(name, COPIES))
    words = ["%d/%s" % (k, name) for k in range(1, NAMED + 1)]
    yield "graph: 900 copies, names of 20,000 bytes", with_groups("graph", net, [])
    yield "the same, 830 of them by their names", with_groups("graph", net, words)
    words = ["%d/*" % k for k in range(1, COPIES + 1)]
    yield "the same, each by a pattern", with_groups("graph", net, words)
    yield "the same, all by one pattern", with_groups("graph", net, ["*/q*"])


def jobs(folder):
    """The name of each job, its words, and its status."""
    for kind in (by_names, by_patterns, by_stars, of_copies):
        for title, (words, status) in kind(folder):
            yield title, words, status


def main():
    parser = argparse.ArgumentParser(description=__doc__.split("\n")[0])
    parser.add_argument("--times", type=int, default=3, help="runs that a median is of")
    options = parser.parse_args()
    if not os.path.exists(limits.PROGRAM):
        sys.exit("%s is not there: build it first" % limits.PROGRAM)
    print("| Job | Seconds | MB |\n|---|---|---|")
    with tempfile.TemporaryDirectory() as folder:
        for name, words, status in jobs(folder):
            runs = [limits.timed([limits.PROGRAM] + words, status) for _ in range(options.times)]
            seconds = statistics.median(seconds for seconds, _ in runs)
            print("| %s | %.2f | %.0f |" % (name, seconds, max(size for _, size in runs)))


if __name__ == "__main__":
    main()
