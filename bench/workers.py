#!/usr/bin/env python3
"""Times `desync run` and `desync demo` by numbers of workers, and compares their bytes.

The netlists are even and uneven pipelines of make_netlist.py whose registers are named as buses, so
that `--clusters bus` gives a cluster for each stage, the circuits of make_circuit.py, with one for
each word, and two registers in a row. For each job and number of workers there are the median, the
least and the greatest of the seconds by the clock, from the start of a process to its end, and the
median of its processor time. The clocked run of a netlist stands above its runs, without a number
of workers.

The numbers of workers, 1, 2, 4, 8, 16 and 64 where `--jobs` names no others, take turns, so that
what else the machine does meets all of them. `--before` names a second program, which takes turns
with the first at each number of workers; then there is also how long the first takes where the
second takes 1, by their medians. `--beside N` starts N other processes that never wait. `--times`,
`--turns` and `--only` say how many runs of each there are, how many vectors wide clusters have, and
which jobs. The exit status is 1 where the runs of a job write different bytes.
"""

import argparse
import os
import random
import re
import resource
import statistics
import subprocess
import sys
import tempfile
import time

import make_circuit

HERE = os.path.dirname(os.path.abspath(__file__))
PROGRAM = os.path.join(os.path.dirname(HERE), "crates", "desync", "out", "desync")
# a circuit, how many times fewer vectors it has, and how large it is
CIRCUITS = [
    ("mul32", 1, ": 28 clusters, 3,008 tables"),
    ("sha", 10, ": 243 clusters, 9,575 tables"),
    ("cpu", 1, ": 29 clusters, 2,330 tables"),
]
TWO = """.model two
.inputs clk a
.outputs q
.latch a p re clk 0
.latch p q re clk 0
.end
"""


def buses(path):
    """Names the registers of a pipeline as the places of buses: s1_0 becomes s1[0]."""
    with open(path) as file:
        text = file.read()
    with open(path, "w") as file:
        file.write(re.sub(r"\bs(\d+)_(\d+)\b", r"s\1[\2]", text))


def pipeline(folder, turns, *sizes):
    """The files of a pipeline: the width, the stages, and the levels of tables in each."""
    prefix = os.path.join(folder, "x".join(map(str, sizes + (turns,))))
    make = [os.path.join(HERE, "make_netlist.py"), "--turns", str(turns), prefix, "pipeline"]
    subprocess.run([sys.executable] + make + [str(size) for size in sizes], check=True)
    buses(prefix + ".blif")
    return [prefix + ".blif", prefix + ".vec"]


def uneven(folder, name, turns, widths):
    """The files of a pipeline of ten levels whose stages have these widths."""
    prefix = os.path.join(folder, name)
    make = [os.path.join(HERE, "make_netlist.py"), "--turns", str(turns), prefix, "stages", "10"]
    subprocess.run([sys.executable] + make + [str(width) for width in widths], check=True)
    buses(prefix + ".blif")
    return [prefix + ".blif", prefix + ".vec"]


def circuit(folder, turns, name):
    """The files of a circuit in tables of at most four inputs."""
    prefix = os.path.join(folder, name)
    make_circuit.make(prefix, 1, turns, name)
    return [prefix + ".blif", prefix + ".vec"]


def two_registers(folder, turns):
    """The files of two registers in a row."""
    draw = random.Random(1)
    texts = {"two.blif": TWO, "two.vec": "".join(draw.choice("01") + "\n" for _ in range(turns))}
    for name, text in texts.items():
        with open(os.path.join(folder, name), "w") as file:
            file.write(text)
    return [os.path.join(folder, name) for name in texts]


def jobs_of(folder, turns):
    """The jobs: a name, and the words in front of the number of workers."""
    few = turns // 10
    wide = pipeline(folder, turns, 25, 40, 10)
    yield "40 clusters, 10,000 tables", ["run"] + wide + ["--clusters", "bus"]
    short = pipeline(folder, turns // 5, 25, 40, 10)
    yield "the same, a fifth of the vectors", ["run"] + short + ["--clusters", "bus"]
    deep = pipeline(folder, turns, 20, 25, 20)
    yield "25 clusters, 10,000 tables", ["run"] + deep + ["--clusters", "bus"]
    five = uneven(folder, "five", turns, [100] * 5 + [10] * 15)
    yield "5 stages of 100, 15 of 10", ["run"] + five + ["--clusters", "bus"]
    three = uneven(folder, "three", turns, [400, 200, 100] + [20] * 13)
    yield "stages of 400, 200, 100, 13 of 20", ["run"] + three + ["--clusters", "bus"]
    for name, many, told in CIRCUITS:
        files = circuit(folder, turns // many, name)
        yield name + told, ["run"] + files + ["--clusters", "bus"]
    yield "1,000 clusters, %d vectors" % few, ["run"] + pipeline(folder, few, 25, 40, 10)
    yield "demo 1 4096 %d" % few, ["demo", "1", "4096", str(few)]
    yield "demo 1 1024 %d" % (turns // 16), ["demo", "1", "1024", str(turns // 16)]
    yield "demo 1 256 %d" % (turns // 4), ["demo", "1", "256", str(turns // 4)]
    yield "demo 1 64 %d" % turns, ["demo", "1", "64", str(turns)]
    yield "two registers, 16,384 vectors", ["run"] + two_registers(folder, 16384)


def used_by_children():
    """The processor time of all commands that have ended."""
    used = resource.getrusage(resource.RUSAGE_CHILDREN)
    return used.ru_utime + used.ru_stime


def once(words):
    """The bytes that a command writes, its processor time, and its seconds by the clock."""
    before, begin = used_by_children(), time.monotonic()
    text = subprocess.run(words, stdout=subprocess.PIPE, check=True).stdout
    return text, used_by_children() - before, time.monotonic() - begin


def turn_about(programs, command, jobs, times):
    """(workers, program) -> seconds and processor times; and whether all wrote the same bytes."""
    runs, texts = {}, set()
    for _ in range(times):
        for count in jobs:
            for kind, program in programs.items():
                words = [program] + command + (["--jobs", str(count)] if count else [])
                text, used, seconds = once(words)
                texts.add(text)
                runs.setdefault((count, kind), []).append((seconds, used))
    return runs, len(texts) == 1


def told(runs):
    """The median, the least and the greatest seconds, and the median of the processor time."""
    seconds, used = zip(*runs)
    spread = (statistics.median(seconds), min(seconds), max(seconds), statistics.median(used))
    return "%.3f (%.3f to %.3f), %.2f" % spread


def ratio(runs, before):
    """How long a run takes where one before takes 1."""
    now, then = (statistics.median(seconds for seconds, _ in some) for some in (runs, before))
    return "%.2f" % (now / then)


def report(name, programs, command, jobs, times):
    """Prints a job's lines, one for each number of workers; whether all runs wrote the same."""
    runs, same = turn_about(programs, command, jobs, times)
    for count in jobs:
        of_count = [runs[count, kind] for kind in programs]
        cells = [name, str(count or "")] + [told(some) for some in of_count]
        if len(of_count) == 2:
            cells.append(ratio(*of_count))
        print("| %s |" % " | ".join(cells), flush=True)
    if not same:
        print("| %s | DIFFERENT BYTES |" % name, flush=True)
    return same


def table(programs, given):
    """Prints the lines of all jobs that are asked for; whether each job wrote the same bytes."""
    head = ["Job", "Workers"] + list(programs) + (["ratio"] if len(programs) == 2 else [])
    print("| %s |\n|%s" % (" | ".join(head), "---|" * len(head)))
    same = True
    with tempfile.TemporaryDirectory() as folder:
        for name, words in jobs_of(folder, given.turns):
            if given.only not in name:
                continue
            if "bus" in words:
                clock = ["clock"] + words[1:3]
                same = report("clock, " + name, programs, clock, [0], given.times) and same
            same = report(name, programs, words, given.jobs, given.times) and same
    return same


def main():
    parser = argparse.ArgumentParser(description=__doc__.split("\n")[0])
    parser.add_argument("--times", type=int, default=5, help="runs of each command")
    parser.add_argument("--turns", type=int, default=10000, help="vectors of wide clusters")
    parser.add_argument("--jobs", type=int, nargs="+", default=[1, 2, 4, 8, 16, 64], help="workers")
    parser.add_argument("--program", default=PROGRAM, help="the built desync")
    parser.add_argument("--before", help="the built desync of before, timed turn about with it")
    parser.add_argument("--only", default="", help="the jobs whose names have this in them")
    parser.add_argument("--beside", type=int, default=0, help="other processes that never wait")
    given = parser.parse_args()
    programs = {"now": given.program, "before": given.before}
    programs = {kind: os.path.abspath(path) for kind, path in programs.items() if path}
    never_waits = [sys.executable, "-c", "while True: pass"]
    busy = [subprocess.Popen(never_waits) for _ in range(given.beside)]
    try:
        same = table(programs, given)
    finally:
        for process in busy:
            process.kill()
    sys.exit(0 if same else 1)


if __name__ == "__main__":
    main()
