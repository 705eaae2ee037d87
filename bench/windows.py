#!/usr/bin/env python3
"""Times `clock` and `run` on few and on many vectors, and compares the memory that they take.

Vectors are read and traces written a window of 4,096 at a time, so memory is not to grow with their
number. Each line has the median time by the clock, and the greatest memory of a run; the exit
status is 1 where many vectors take a megabyte more than few. With a pipe in place of a file of
vectors the output is compared with that of the file.
"""

import argparse
import os
import statistics
import subprocess
import sys
import tempfile
import threading

HERE = os.path.dirname(os.path.abspath(__file__))
PROGRAM = os.path.join(os.path.dirname(HERE), "crates", "desync", "out", "desync")
TIMER = "/usr/bin/time"
MOST = 1.0
TOGGLE = """.model toggle
.inputs t
.outputs q
.names q t d
10 1
01 1
.latch d q re clk 0
.end
"""
# A name, the words of make_netlist.py or none for the toggle, the command, few and many vectors.
JOBS = [
    ("`clock`, the toggle", None, ["clock"], 5000, 1000000),
    ("`clock`, `random 100`", ["random", "100"], ["clock"], 5000, 1000000),
    ("`clock`, `pipeline 25x40x10`", ["pipeline", "25", "40", "10"], ["clock"], 5000, 1000000),
    ("`run`, the toggle", None, ["run"], 8192, 100000),
    ("`run`, `random 100`", ["random", "100"], ["run"], 8192, 100000),
]


def netlist(folder, words):
    """The path of a netlist, and the lines of some vectors for it."""
    prefix = os.path.join(folder, "toggle" if words is None else words[0] + words[1])
    if words is None:
        with open(prefix + ".blif", "w", encoding="ascii") as file:
            file.write(TOGGLE)
        return prefix + ".blif", ["1\n", "1\n", "0\n"]
    made = [os.path.join(HERE, "make_netlist.py"), "--turns", "1000", prefix] + words
    subprocess.run([sys.executable] + made, check=True)
    with open(prefix + ".vec", encoding="ascii") as file:
        return prefix + ".blif", file.readlines()


def vectors(folder, lines, count):
    """A file of so many vectors, these lines again and again."""
    path = os.path.join(folder, "vectors")
    with open(path, "w", encoding="ascii") as file:
        for start in range(0, count, len(lines)):
            file.writelines(lines[: count - start])
    return path


def measured(words):
    """The seconds of a run by the clock, and its greatest memory in megabytes. A process begins
    with the memory of the one that starts it, so `time` does that, which is small."""
    timer = [TIMER, "-f", "%e %M"] + words
    done = subprocess.run(timer, stdout=subprocess.DEVNULL, stderr=subprocess.PIPE, check=False)
    if done.returncode != 0:
        sys.exit("%s: status %d" % (" ".join(words), done.returncode))
    seconds, kilobytes = done.stderr.split()
    return float(seconds), int(kilobytes) / 1024


def is_same_by_a_pipe(program, folder, command, net, lines):
    """Whether vectors by a named pipe give the bytes that a file of them gives."""
    path = vectors(folder, lines, 10000)
    pipe = os.path.join(folder, "pipe")
    os.mkfifo(pipe)

    def feed():
        with open(path, "rb") as source, open(pipe, "wb") as sink:
            sink.write(source.read())

    thread = threading.Thread(target=feed)
    thread.start()
    piped = subprocess.run([program] + command + [net, pipe], capture_output=True, check=False)
    thread.join()
    os.remove(pipe)
    filed = subprocess.run([program] + command + [net, path], capture_output=True, check=False)
    return (piped.returncode, piped.stdout) == (filed.returncode, filed.stdout)


def main():
    parser = argparse.ArgumentParser(description=__doc__.split("\n")[0])
    parser.add_argument("--times", type=int, default=3, help="runs that a median is of")
    parser.add_argument("--program", default=PROGRAM, help="the program to time")
    options = parser.parse_args()
    program = os.path.abspath(options.program)
    faults = 0
    print("| Job | Vectors | Seconds | MB |\n|---|---|---|---|")
    with tempfile.TemporaryDirectory() as folder:
        for name, words, command, few, many in JOBS:
            net, lines = netlist(folder, words)
            taken = []
            for count in (few, many):
                vec = vectors(folder, lines, count)
                runs = [measured([program] + command + [net, vec]) for _ in range(options.times)]
                seconds = statistics.median(run[0] for run in runs)
                taken.append(max(run[1] for run in runs))
                print("| %s | %s | %.2f | %.1f |" % (name, f"{count:,}", seconds, taken[-1]))
            if taken[1] > taken[0] + MOST:
                faults += 1
                print("%s: memory grows with the vectors" % name)
            if not is_same_by_a_pipe(program, folder, command, net, lines):
                faults += 1
                print("%s: another output by a pipe" % name)
    return 1 if faults else 0


if __name__ == "__main__":
    sys.exit(main())
