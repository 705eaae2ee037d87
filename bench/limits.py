#!/usr/bin/env python3
"""Times whole jobs at the limits: many copies, deep chains, wide graphs, long logs.

Each job is run some times, and its median processor time is printed beside its greatest memory. The
exit status is 1 where a job answers another status than the one it is to give.

With `--long` it times one job alone, once, some fifteen minutes long: a ring whose times pass 2^64.
The last two lines must be those that a sum gives; the exit status is 1 where they are not.
"""

import argparse
import os
import random
import statistics
import subprocess
import sys
import tempfile

HERE = os.path.dirname(os.path.abspath(__file__))
PROGRAM = os.path.join(os.path.dirname(HERE), "crates", "desync", "out", "desync")
MOST_DELAY = 2 ** 32 - 1
# The events and the turns of the long job.
RING = [131064, 32780]


def write(folder, name, lines):
    """A file of these lines."""
    path = os.path.join(folder, name)
    with open(path, "w") as file:
        file.writelines(line + "\n" for line in lines)
    return path


def copies(count):
    """As many copies of a small model."""
    yield from (".model top", ".inputs a")
    for _ in range(count):
        yield ".subckt leaf i=a"
    yield from (".end", ".model leaf", ".inputs i", ".end")


def nested(count):
    """Models each of which uses the next one."""
    for i in range(count):
        yield from (".model m%d" % i, ".inputs a", ".subckt m%d a=a" % (i + 1), ".end")
    yield from (".model m%d" % count, ".inputs a", ".end")


def chain(count):
    """Tables each of which reads the one before."""
    yield from (".model chain", ".inputs t0", ".outputs t%d" % count)
    for i in range(count):
        yield from (".names t%d t%d" % (i, i + 1), "0 1")
    yield ".end"


def registers(count):
    """Registers in a row."""
    yield from (".model row", ".inputs clk a", ".outputs q%d" % (count - 1))
    yield ".latch a q0 re clk 0"
    for i in range(1, count):
        yield ".latch q%d q%d re clk 0" % (i - 1, i)
    yield ".end"


def dense(count):
    """Registers that all read each other, by one table."""
    names = ["r%d" % i for i in range(count)]
    yield from (".model dense", ".names %s d" % " ".join(names), "1" * count + " 1")
    for name in names:
        yield ".latch d %s 1" % name
    yield ".end"


def toggle():
    """A register that takes the inverse of its value."""
    return [".model toggle", ".outputs q", ".names q d", "0 1", ".latch d q 0", ".end"]


def log(turns):
    """The firings of the toggle, node by node."""
    for turn in range(1, turns + 1):
        for event in ("IN+", "IN-", "OUT+", "OUT-", "M0+", "M0-", "S0+", "S0-"):
            yield "%s %d" % (event, turn)


def full_graph(count):
    """A graph of so many signals, each of whose openings waits for all closings."""
    names = ["s%d" % i for i in range(count)]
    targets = " ".join(name + "-" for name in names)
    yield from (".outputs " + " ".join(names), ".graph")
    for name in names:
        yield "%s+ %s" % (name, targets)
    yield ".end"


def row_delays(count):
    """Delays for the orders along registers in a row."""
    for i in range(count):
        yield "M%d+ S%d+ %d" % (i, i, 2 + i % 5)
    for i in range(1, count):
        yield "S%d+ M%d+ %d" % (i - 1, i, 3 + i % 7)


def dense_delays(count):
    """Delays for some of the orders of registers that all read each other."""
    for i in range(count):
        yield "M%d+ S%d+ %d" % (i, i, 2 + i % 5)
        yield "S%d+ M%d+ %d" % (i, (7 * i + 1) % count, 3 + i % 7)


def short_name(number):
    """A signal's name of three letters and digits at most."""
    digits = "abcdefghijklmnopqrstuvwxyzABCDEFGHIJKLMNOPQRSTUVWXYZ"
    name = ""
    while True:
        name += digits[number % len(digits)]
        number //= len(digits)
        if number == 0:
            return name


def random_arcs(signals, each, seed):
    """So many arcs from each event: source, target, and tokens.

    Four in five of those that lead on have no tokens, so that these lead in no circle.
    """
    draw = random.Random(seed)
    events = 2 * signals
    for source in range(events):
        for target in draw.sample(range(events), each):
            forward = source < target and draw.random() < 0.8
            yield source, target, 0 if forward else draw.randrange(1, 256)


def random_graph(signals, arcs):
    """The text of a graph of these arcs, an event a number: twice the signal's, or one more."""
    events = [short_name(i) + sign for i in range(signals) for sign in "+-"]
    yield ".outputs " + " ".join(short_name(i) for i in range(signals))
    yield ".graph"
    targets = {}
    for source, target, _ in arcs:
        targets.setdefault(source, []).append(events[target])
    for source, names in targets.items():
        yield events[source] + " " + " ".join(names)
    entries = ("<%s,%s>=%d" % (events[u], events[v], t) for u, v, t in arcs if t)
    yield ".marking { " + " ".join(entries) + " }"


def random_delays(signals, arcs, seed):
    """Delays of 32 bits for three in five of the arcs, as many as a file has room for."""
    draw = random.Random(seed)
    events = [short_name(i) + sign for i in range(signals) for sign in "+-"]
    for source, target, _ in arcs:
        if draw.random() < 0.6:
            yield "%s %s %d" % (events[source], events[target], draw.getrandbits(32))


def timed_jobs(folder):
    """The jobs that read delays."""
    net = os.path.join(folder, "dense.blif")
    text = write(folder, "dense.delays", dense_delays(722))
    yield "times: 722 registers, 1,046,904 orders, 100 turns", ["times", net, text, "100"], 0
    net = os.path.join(folder, "row.blif")
    text = write(folder, "row.delays", row_delays(4096))
    yield "times: 4,096 registers in a row, 1,000 turns", ["times", net, text, "1000"], 0
    arcs = list(random_arcs(65536, 8, 1))
    graph = write(folder, "random.g", random_graph(65536, arcs))
    text = write(folder, "random.delays", random_delays(65536, arcs, 2))
    yield "rate: 1,048,576 arcs of 65,536 signals", ["rate", graph, text], 0


def jobs(folder):
    """The name of each job, its words, and its status."""
    net = write(folder, "copies.blif", copies(65536))
    yield "check: 65,536 copies of a small model", ["check", net], 0
    net = write(folder, "nested.blif", nested(20000))
    yield "check: 20,000 models, each with one use of the next", ["check", net], 0
    net = write(folder, "chain.blif", chain(65000))
    yield "check: a chain of 65,000 tables", ["check", net], 0
    net = write(folder, "line.blif", [".model line", "# " + "x" * 16000000, ".end"])
    yield "check: a line of 16,000,000 bytes", ["check", net], 0
    net = write(folder, "row.blif", registers(4096))
    yield "graph: 4,096 registers in a row", ["graph", net], 0
    net = write(folder, "dense.blif", dense(722))
    yield "graph: 722 registers, 1,046,904 orders", ["graph", net], 0
    vec = write(folder, "dense.vec", ["-"] * 20)
    yield "run: the same, 20 vectors", ["run", net, vec], 0
    text = os.path.join(folder, "dense.g")
    with open(text, "wb") as file:
        subprocess.run([PROGRAM, "graph", net], stdout=file, check=True)
    yield "accept: the same, by the graph that was written", ["accept", net, text], 0
    net = write(folder, "few.blif", dense(180))
    yield "graph --shake: 180 registers, 261,364 arcs", ["graph", net, "--shake"], 0
    text = os.path.join(folder, "few.g")
    with open(text, "wb") as file:
        subprocess.run([PROGRAM, "graph", net, "--shake"], stdout=file, check=True)
    yield "accept: the same, by the expansion that was written", ["accept", net, text], 0
    yield "run: the same, 20 vectors", ["run", net, vec, "--graph", text], 0
    net = write(folder, "toggle.blif", toggle())
    text = write(folder, "full.g", full_graph(1024))
    yield "accept: 1,048,576 arcs that are read, and refused", ["accept", net, text], 1
    vec = write(folder, "toggle.vec", ["-"] * 65536)
    lines = write(folder, "toggle.log", log(65536))
    yield "replay: 524,288 firings", ["replay", net, vec, lines], 0
    yield "run: the same firings", ["run", net, vec], 0
    yield "run --stop: the same firings", ["run", net, vec, "--stop", "524288"], 0
    yield from timed_jobs(folder)


def ring(folder, events, turns):
    """The words of a run of the toggle beside a ring of so many events, an even number, with one
    token, each of whose arcs has the longest delay."""
    net = write(folder, "toggle.blif", toggle())
    told = subprocess.run([PROGRAM, "graph", net], stdout=subprocess.PIPE, check=True).stdout
    names = ["r%d" % i for i in range(events // 2)]
    around = [name + sign for name in names for sign in "+-"]
    arcs = list(zip(around, around[1:] + around[:1]))
    lines = []
    for line in told.decode().splitlines():
        if line.startswith(".outputs"):
            line += " " + " ".join(names)
        elif line.startswith(".marking"):
            lines += ["%s %s" % arc for arc in arcs]
            line = line.replace("}", "<%s,%s> }" % arcs[-1])
        lines.append(line)
    graph = write(folder, "ring.g", lines)
    text = write(folder, "ring.delays", ("%s %s %d" % (*arc, MOST_DELAY) for arc in arcs))
    return ["times", net, text, str(turns), "--graph", graph]


def last_times(events, turns):
    """The last two times of the ring: an event fires a delay after the one before it."""
    last = events * turns - 1
    return [MOST_DELAY * (last - 1), MOST_DELAY * last]


def long_job(events, turns):
    """Times the ring, and looks at the ends of the last two lines that are written."""
    with tempfile.TemporaryDirectory() as folder:
        words = [PROGRAM] + ring(folder, events, turns)
        program = subprocess.Popen(words, stdout=subprocess.PIPE)
        last = subprocess.run(["tail", "-n", "2"], stdin=program.stdout, stdout=subprocess.PIPE)
        _, ended, used = os.wait4(program.pid, 0)
    found = [int(line.split()[-1]) for line in last.stdout.splitlines()]
    if ended or found != last_times(events, turns):
        sys.exit("the ring: ended with %d, last times %s" % (ended, found))
    cells = (format(events, ","), format(turns, ","), used.ru_utime + used.ru_stime)
    print("| times: a ring of %s events, %s turns | %.2f | %.0f |"
          % (*cells, used.ru_maxrss / 1000))


# Starts a program and tells how it ended, its processor time and its greatest memory. A process
# begins with the memory of the one that starts it, so this one is small.
STARTER = """
import os, sys
nowhere = [(os.POSIX_SPAWN_OPEN, file, os.devnull, os.O_WRONLY, 0) for file in (1, 2)]
number = os.posix_spawn(sys.argv[1], sys.argv[1:], os.environ, file_actions=nowhere)
_, ended, used = os.wait4(number, 0)
print(ended, used.ru_utime + used.ru_stime, used.ru_maxrss)
"""


def timed(words, status):
    """The processor time of a run, and its greatest memory in MB, some ten at least."""
    starter = [sys.executable, "-I", "-S", "-c", STARTER]
    told = subprocess.run(starter + words, stdout=subprocess.PIPE, check=True).stdout.split()
    ended = int(told[0])
    if os.WIFSIGNALED(ended) or os.WEXITSTATUS(ended) != status:
        sys.exit("%s: ended with %d" % (" ".join(words), ended))
    return float(told[1]), int(told[2]) / 1000


def main():
    parser = argparse.ArgumentParser(description=__doc__.split("\n")[0])
    parser.add_argument("--times", type=int, default=3, help="runs that a median is of")
    parser.add_argument("--long", action="store_true", help="the long job alone, once")
    parser.add_argument("--ring", type=int, nargs=2, metavar=("EVENTS", "TURNS"), default=RING,
                        help="the size of its ring, %d %d where it is left out" % tuple(RING))
    options = parser.parse_args()
    if not os.path.exists(PROGRAM):
        sys.exit("%s is not there: build it first" % PROGRAM)
    print("| Job | Seconds | MB |\n|---|---|---|")
    if options.long:
        return long_job(*options.ring)
    with tempfile.TemporaryDirectory() as folder:
        for name, words, status in jobs(folder):
            runs = [timed([PROGRAM] + words, status) for _ in range(options.times)]
            seconds = statistics.median(seconds for seconds, _ in runs)
            print("| %s | %.2f | %.0f |" % (name, seconds, max(size for _, size in runs)))


if __name__ == "__main__":
    main()
