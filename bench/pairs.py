#!/usr/bin/env python3
"""Times two programs turn about on the same jobs, or one program on kinds of one job.

`pairs.py OLD NEW` runs each job with the one program and then with the other, again and again, so
that what else the machine does meets both alike. `pairs.py PROGRAM` runs the kinds of a job turn
about: known and unknown values, slacks by numbers of workers, runs that go to their ends and ones
that are stopped, and `replay` without and with open latches. For each there are the median, the
least and the greatest processor time in seconds, and the median by the clock. The exit status is 1
where a job's kinds or programs write different bytes and are to write the same.
"""

import argparse
import os
import statistics
import subprocess
import sys
import tempfile

import limits
import workers

UNKNOWN = " re clk 3\n"


def unknown(folder, files):
    """The same netlist, all vectors and all starts unknown."""
    net, vec = [os.path.join(folder, name) for name in ("unknown.blif", "unknown.vec")]
    with open(files[0]) as old, open(net, "w") as new:
        new.write(old.read().replace(" re clk 0\n", UNKNOWN).replace(" re clk 1\n", UNKNOWN))
    with open(files[1]) as old, open(vec, "w") as new:
        new.writelines("x" * (len(line) - 1) + "\n" for line in old)
    return [net, vec]


def mapped(folder, tables, turns):
    """The files of a netlist of tables of two to four inputs."""
    prefix = os.path.join(folder, "mapped")
    words = [os.path.join(workers.HERE, "make_netlist.py"), "--turns", str(turns), prefix, "mapped"]
    subprocess.run([sys.executable] + words + [str(tables)], check=True)
    return [prefix + ".blif", prefix + ".vec"]


def graph_of(folder, program, net):
    """The file of the controller graph of a netlist."""
    path = os.path.join(folder, "graph.g")
    with open(path, "w") as file:
        subprocess.run([program, "graph", net], stdout=file, check=True)
    return path


def compared(folder, program):
    """The jobs of two programs: a name, and the words."""
    deep = workers.pipeline(folder, 10000, 20, 25, 20)
    wide = workers.pipeline(folder, 10000, 25, 40, 10)
    yield "clock, pipeline 20x25x20", ["clock"] + deep
    yield "the same, all unknown", ["clock"] + unknown(folder, deep)
    yield "clock, pipeline 25x40x10", ["clock"] + wide
    yield "clock, mapped 10000", ["clock"] + mapped(folder, 10000, 5000)
    for count in ("1", "2", "4"):
        words = ["--clusters", "bus", "--jobs", count]
        yield "run, 40 clusters, jobs " + count, ["run"] + wide + words
    yield "run, 25 clusters, jobs 1", ["run"] + deep + ["--clusters", "bus", "--jobs", "1"]
    yield "demo 1 1024 625, jobs 1", ["demo", "1", "1024", "625", "--jobs", "1"]
    yield "check, pipeline 20x25x20", ["check", deep[0]]
    net = limits.write(folder, "dense.blif", limits.dense(722))
    yield "graph, 722 registers, 1,046,904 orders", ["graph", net]
    yield "the same, accept", ["accept", net, graph_of(folder, program, net)]
    words = ["--clusters", "bus", "--jobs", "1", "--log"]
    yield "run, 25 clusters, jobs 1, log", ["run"] + deep + words
    yield "replay, 524,288 firings", replay_toggle(folder)


def replay_toggle(folder):
    """The words that replay 524,288 firings of the toggle."""
    net = limits.write(folder, "toggle.blif", limits.toggle())
    vec = limits.write(folder, "toggle.vec", ["-"] * 65536)
    return ["replay", net, vec, limits.write(folder, "toggle.log", limits.log(65536))]


def with_open_masters(folder, name, text, count, columns):
    """The words that replay one vector up to the opening of all masters."""
    net = limits.write(folder, name + ".blif", text)
    vec = limits.write(folder, name + ".vec", ["1" * columns or "-"])
    firings = ["IN+ 1"] + ["M%d+ 1" % k for k in range(count)]
    return ["replay", net, vec, limits.write(folder, name + ".log", firings)]


def kinds(folder):
    """The jobs of one program: a name, whether all kinds write the same, and each kind's words."""
    deep = workers.pipeline(folder, 10000, 20, 25, 20)
    yield "clock, pipeline 20x25x20", False, {
        "known": ["clock"] + deep, "all unknown": ["clock"] + unknown(folder, deep)}
    wide = workers.pipeline(folder, 10000, 25, 40, 10)
    for count in ("1", "2", "4"):
        words = ["run"] + wide + ["--clusters", "bus", "--jobs", count, "--slack"]
        yield "40 clusters, jobs " + count, True, {
            "slack " + slack: words + [slack] for slack in ("0", "1", "3", "15")}
    for count in ("1", "4"):
        words = ["run"] + wide + ["--clusters", "bus", "--jobs", count]
        yield "40 clusters, a trace or a stop, jobs " + count, False, {
            "trace": words, "at the end": words + ["--stop", str(2**64 - 1)],
            "amid": words + ["--stop", "100000"], "at once": words + ["--stop", "0"]}
    cases = {
        "524,288 firings of the toggle": replay_toggle(folder),
        "4,096 registers in a row, all masters open":
            with_open_masters(folder, "row", limits.registers(4096), 4096, 1),
        "722 registers that read each other, all masters open":
            with_open_masters(folder, "dense", limits.dense(722), 722, 0),
    }
    for name, words in cases.items():
        yield "replay: " + name, False, {"stored": words, "open too": words + ["--transparent"]}


def turn_about(commands, pairs):
    """For each command its runs, and whether all wrote the same bytes."""
    runs, texts = {name: [] for name in commands}, set()
    for _ in range(pairs):
        for name, words in commands.items():
            text, used, seconds = workers.once(words)
            texts.add(text)
            runs[name].append((used, seconds))
    return runs, len(texts) == 1


def told(runs):
    """The median, the least and the greatest processor time, and the median by the clock."""
    used, seconds = zip(*runs)
    spread = (statistics.median(used), min(used), max(used), statistics.median(seconds))
    return "%.3f (%.3f to %.3f), %.3f" % spread


def report(name, commands, pairs, same_wanted):
    """Prints a job's line; whether its bytes are as they should be."""
    runs, same = turn_about(commands, pairs)
    cells = ["%s: %s" % (kind, told(found)) for kind, found in runs.items()]
    note = "" if same or not same_wanted else " | DIFFERENT BYTES"
    print("| %s | %s%s |" % (name, " | ".join(cells), note), flush=True)
    return same or not same_wanted


def main():
    parser = argparse.ArgumentParser(description=__doc__.split("\n", maxsplit=1)[0])
    parser.add_argument("programs", nargs="+", metavar="PROGRAM", help="one program, or two")
    parser.add_argument("--pairs", type=int, default=41, help="runs of each program or kind")
    parser.add_argument("--only", default="", help="the jobs whose names have this in them")
    given = parser.parse_args()
    programs = [os.path.abspath(path) for path in given.programs]
    fine = True
    with tempfile.TemporaryDirectory() as folder:
        if len(programs) == 2:
            jobs = ((name, True, dict(zip(("old", "new"), ([path] + words for path in programs))))
                    for name, words in compared(folder, programs[0]))
        else:
            jobs = ((name, same, {kind: programs + words for kind, words in found.items()})
                    for name, same, found in kinds(folder))
        for name, same, commands in jobs:
            if given.only in name:
                fine = report(name, commands, given.pairs, same) and fine
    sys.exit(0 if fine else 1)


if __name__ == "__main__":
    main()
