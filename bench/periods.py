#!/usr/bin/env python3
"""Times `period` at the limits: dense and sparse controller graphs with many delays.

Each job is run some times, and its median processor time is printed beside its greatest memory. The
exit status is 1 where a job answers another status than 0.

With `--base PROGRAM` each job is run turn about by that program and by the built one, so that what
else the machine does meets both alike. The least processor time of each is printed, and how many
times as long the base takes; the exit status is 1 too where the two write different bytes.
"""

import argparse
import os
import random
import re
import statistics
import subprocess
import sys
import tempfile

import limits


def orders(net):
    """The orders that `graph` prints, in its order: source, target."""
    text = subprocess.run([limits.PROGRAM, "graph", net], stdout=subprocess.PIPE, check=True).stdout
    found = []
    for line in text.decode().splitlines():
        if not line.startswith("."):
            source, *targets = line.split()
            found += [(source, target) for target in targets]
    return found


def reading(count, each):
    """Registers that read so many others each, drawn from a fixed number."""
    draws = random.Random(20)
    yield from (".model sparse", ".outputs r0")
    for i in range(count):
        read = sorted(draws.sample(range(count), each))
        yield ".names %s d%d" % (" ".join("r%d" % k for k in read), i)
        yield "1" * each + " 1"
        yield ".latch d%d r%d 1" % (i, i)
    yield ".end"


def lines(found, delay):
    """A line for each order that has a delay."""
    for k, (source, target) in enumerate(found):
        value = delay(k, source)
        if value is not None:
            yield "%s %s %d" % (source, target, value)


def number(event):
    """The number of an event's cluster, 0 for those of `IN` and `OUT`."""
    digits = re.sub(r"\D", "", event)
    return int(digits) if digits else 0


def jobs(folder):
    """The name of each job, and its words."""
    draws = random.Random(33)

    def job(name, net, delays, found, delay):
        return name, ["period", net, limits.write(folder, delays, lines(found, delay))]

    dense = limits.write(folder, "dense.blif", limits.dense(722))
    found = orders(dense)
    yield job(
        "722 registers that read each other, %s orders, three digits each" % format(len(found), ","),
        dense, "dense.delays", found, lambda k, _: draws.randrange(100, 1000),
    )
    yield "the same, no delays", ["period", dense, limits.write(folder, "none.delays", [])]
    sparse = limits.write(folder, "sparse.blif", reading(4096, 120))
    found = orders(sparse)
    yield job(
        "4,096 registers that read 120 each, 32 bits on every tenth of %s orders"
        % format(len(found), ","),
        sparse, "sparse.delays", found,
        lambda k, _: draws.randrange(2 ** 32) if k % 10 == 0 else None,
    )
    row = limits.write(folder, "row.blif", limits.registers(4096))
    found = orders(row)
    yield job(
        "4,096 registers in a row, 1 on each of %s orders" % format(len(found), ","),
        row, "row.delays", found, lambda k, _: 1,
    )
    yield job(
        "the same, falling along the row",
        row, "falling.delays", found, lambda _, source: 4096 - number(source),
    )


def medians(name, words, times):
    """The line of a job: the median time, and the greatest memory."""
    runs = [limits.timed([limits.PROGRAM] + words, 0) for _ in range(times)]
    seconds = statistics.median(seconds for seconds, _ in runs)
    return "| %s | %.2f | %.0f |" % (name, seconds, max(size for _, size in runs))


def ratios(name, words, times, base):
    """The line of a job: the least time of the base and of the program, and their ratio."""
    programs = [base, limits.PROGRAM]
    texts = [subprocess.run([path] + words, stdout=subprocess.PIPE).stdout for path in programs]
    if texts[0] != texts[1]:
        sys.exit("%s: different bytes" % name)
    runs = [[limits.timed([path] + words, 0)[0] for path in programs] for _ in range(times)]
    old, new = map(min, zip(*runs))
    return "| %s | %.3f | %.3f | %.2f |" % (name, old, new, old / new)


def main():
    parser = argparse.ArgumentParser(description=__doc__.split("\n")[0])
    parser.add_argument("--times", type=int, default=3, help="runs of each job by a program")
    parser.add_argument("--base", metavar="PROGRAM", help="the program to compare with")
    options = parser.parse_args()
    if not os.path.exists(limits.PROGRAM):
        sys.exit("%s is not there: build it first" % limits.PROGRAM)
    base = options.base and os.path.abspath(options.base)
    print("| Job | Old | New | Old/new |\n|---|---|---|---|" if base else
          "| Job | Seconds | MB |\n|---|---|---|")
    with tempfile.TemporaryDirectory() as folder:
        for name, words in jobs(folder):
            if base:
                print(ratios(name, words, options.times, base), flush=True)
            else:
                print(medians(name, words, options.times), flush=True)


if __name__ == "__main__":
    main()
