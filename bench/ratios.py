#!/usr/bin/env python3
"""Prints how long a turn of `desync run` takes beside one of `desync clock`, and a firing of `demo`.

The netlists are those of workers.py with a cluster for each bus, and a multiplier and a pipeline
with a cluster for each register. A turn is what a run with twice the vectors takes longer, so what
is read and laid out once does not count. For each netlist there are the microseconds of a turn of
`clock` and of `run` by one worker, how many times the one is the other, and what four, eight and 64
workers take where one takes 1; for `demo` the nanoseconds of a firing by one worker, cones and
printing with it. Each figure is of the least times of `--times` runs turn about, since other work
on the machine only adds; the exit status is 1 where the runs of a netlist write different bytes.

With `--base PROGRAM` it prints whole runs in place of turns: for each circuit the seconds of
`clock` of that program, which is taken as 1, and how many times as long take `clock` of `--program`
and its `run` by each number of `--jobs`, one and four where none are named. With `--unread` these
runs write into /dev/null, so that no reader takes part; one run of each more, without a time, shows
that all write the same bytes.
"""

import argparse
import os
import random
import subprocess
import sys
import tempfile
import time

import workers

EACH = "with a cluster for each register"
DEMOS = [(64, 10000), (1024, 625), (4096, 160)]


def seconds_of(words):
    """The bytes that a command writes, and its seconds by the clock."""
    begin = time.monotonic()
    text = subprocess.run(words, stdout=subprocess.PIPE, check=True).stdout
    return text, time.monotonic() - begin


def seconds_read(words):
    """The seconds by the clock of a command whose bytes are read by a pipe."""
    return seconds_of(words)[1]


def seconds_unread(words):
    """The seconds by the clock of a command whose bytes nobody reads."""
    begin = time.monotonic()
    subprocess.run(words, stdout=subprocess.DEVNULL, check=True)
    return time.monotonic() - begin


def halved(files):
    """The files with the first half of the vectors, and how many these are."""
    with open(files[1]) as file:
        lines = file.readlines()
    half = files[1] + ".half"
    with open(half, "w") as file:
        file.writelines(lines[: len(lines) // 2])
    return [files[0], half], len(lines) // 2


def kinds_of(clusters, jobs):
    """The commands that are compared: clock, and run by each number of workers."""
    yield "clock", lambda files: ["clock"] + files
    for count in jobs:
        yield count, lambda files, n=count: ["run"] + files + clusters + ["--jobs", str(n)]


def turns_of(program, files, clusters, given):
    """Kind -> the microseconds of a turn; and whether all wrote the same bytes."""
    half, turns = halved(files)
    kinds = dict(kinds_of(clusters, given.jobs))
    times, texts = {kind: ([], []) for kind in kinds}, set()
    for _ in range(given.times):
        for kind, words in kinds.items():
            for place, some in enumerate((half, files)):
                text, seconds = seconds_of([program] + words(some))
                times[kind][place].append(seconds)
                if place:
                    texts.add(text)
    each = {kind: (min(long) - min(short)) / turns for kind, (short, long) in times.items()}
    return {kind: 1e6 * seconds for kind, seconds in each.items()}, len(texts) == 1


def netlists(folder, turns):
    """A name, the files, and the words that say which clusters."""
    bus = ["--clusters", "bus"]
    yield "40 clusters, 10,000 tables", workers.pipeline(folder, turns, 25, 40, 10), bus
    yield "25 clusters, 10,000 tables", workers.pipeline(folder, turns, 20, 25, 20), bus
    for name, many, told in workers.CIRCUITS:
        yield name + told, workers.circuit(folder, turns // many, name), bus
    small = os.path.join(folder, "each")
    os.mkdir(small)
    yield "mul32, " + EACH, workers.circuit(small, turns // 20, "mul32"), []
    yield "1,000 registers, " + EACH, workers.pipeline(small, turns // 20, 25, 40, 10), []


def with_unknown(files):
    """The files with one value of the vectors in a hundred unknown."""
    draw = random.Random(1)
    with open(files[1]) as file:
        text = file.read()
    unknown = files[1] + ".unknown"
    with open(unknown, "w") as file:
        file.write("".join("x" if c in "01" and draw.random() < 0.01 else c for c in text))
    return [files[0], unknown]


def wholes(folder):
    """A name, the files, and the words that say which clusters, for whole runs."""
    bus = ["--clusters", "bus"]
    for name, fewer, told in workers.CIRCUITS:
        turns = 65000 if fewer == 1 else 10000
        told += ", %s vectors" % format(turns, ",")
        files = workers.circuit(folder, turns, name)
        yield name + told, files, bus
        yield name + ", one value in a hundred unknown", with_unknown(files), bus
    for width, stages, levels in ((20, 25, 20), (50, 20, 20)):
        tables = format(width * stages * levels, ",")
        told = "%d stages, %s tables, no feedback, 10,000 vectors" % (stages, tables)
        yield told, workers.pipeline(folder, 10000, width, stages, levels), bus
    small = os.path.join(folder, "each")
    os.mkdir(small)
    yield "mul32, %s, 10,000 vectors" % EACH, workers.circuit(small, 10000, "mul32"), []


def whole_runs(given, folder):
    """Prints the table of whole runs; whether all wrote the same bytes."""
    jobs, well = given.jobs or [1, 4], True
    head = ["Netlist", "base clock", "clock"] + ["run, %d" % count for count in jobs]
    print("| %s |\n|%s" % (" | ".join(head), "---|" * len(head)))
    for name, files, clusters in wholes(folder):
        words = {"base": [os.path.abspath(given.base), "clock"] + files}
        for kind, make in kinds_of(clusters, jobs):
            words[kind] = [os.path.abspath(given.program)] + make(files)
        texts = {seconds_of(words[kind])[0] for kind in words}
        seconds = seconds_unread if given.unread else seconds_read
        times = {kind: [] for kind in words}
        for _ in range(given.times):
            for kind in words:
                times[kind].append(seconds(words[kind]))
        one = min(times["base"])
        cells = [name, "%.3f" % one]
        cells += ["%.2f" % (min(times[kind]) / one) for kind in words if kind != "base"]
        print("| %s |" % " | ".join(cells), flush=True)
        if len(texts) != 1:
            print("| %s | DIFFERENT BYTES |" % name, flush=True)
            well = False
    return well


def firing_of(program, registers, turns, times):
    """The nanoseconds of a firing of `demo` by one worker."""
    words = [program, "demo", "1", str(registers)]
    short, long = (
        min(seconds_of(words + [str(count), "--jobs", "1"])[1] for _ in range(times))
        for count in (turns, 2 * turns)
    )
    return 1e9 * (long - short) / (turns * 2 * (2 * registers + 2))


def main():
    parser = argparse.ArgumentParser(description=__doc__.split("\n")[0])
    parser.add_argument("--times", type=int, default=5, help="runs of each command")
    parser.add_argument("--turns", type=int, default=10000, help="vectors of wide clusters")
    parser.add_argument("--jobs", type=int, nargs="+", help="workers")
    parser.add_argument("--program", default=workers.PROGRAM, help="the built desync")
    parser.add_argument("--base", help="a desync whose clock is 1, for whole runs")
    parser.add_argument("--unread", action="store_true", help="write whole runs into /dev/null")
    given = parser.parse_args()
    if given.base:
        with tempfile.TemporaryDirectory() as folder:
            sys.exit(0 if whole_runs(given, folder) else 1)
    given.jobs = given.jobs or [1, 4, 8, 64]
    program, well = os.path.abspath(given.program), True
    first = given.jobs[0]
    head = ["Netlist", "clock", "run, %d" % first, "ratio"]
    head += ["%d to %d" % (count, first) for count in given.jobs[1:]]
    print("| %s |\n|%s" % (" | ".join(head), "---|" * len(head)))
    with tempfile.TemporaryDirectory() as folder:
        for name, files, clusters in netlists(folder, given.turns):
            turn, same = turns_of(program, files, clusters, given)
            cells = ["%.1f" % turn["clock"], "%.1f" % turn[first]]
            cells += ["%.2f" % (turn[first] / turn["clock"])]
            cells += ["%.2f" % (turn[count] / turn[first]) for count in given.jobs[1:]]
            print("| %s |" % " | ".join([name] + cells), flush=True)
            well = well and same
            if not same:
                print("| %s | DIFFERENT BYTES |" % name, flush=True)
    for registers, turns in DEMOS:
        spent = firing_of(program, registers, turns, given.times)
        print("demo 1 %d: %.0f nanoseconds a firing" % (registers, spent), flush=True)
    sys.exit(0 if well else 1)


if __name__ == "__main__":
    main()
