#!/usr/bin/env python3
"""Refuses the program one call of the system's library after another, and looks at what it says.

For each command line, and for memory, reads, writes and threads, the program is run with the first
such call refused, then with the second, and so on until a run ends in which no call was refused.
Each run has to end with the status, the outputs and the line that its good run has, or as the
refusal is to end:

- memory: status 4, `desync: out of memory`, and nothing on the output; what is refused may also be
  a thread's or a hint's, which nobody misses; and once more with each write to the error output
  refused: the same status and output, with several workers those of this run or of the good one,
  and no line; behind the first 512 pieces of a command this is tried at each sixteenth;
- a read: status 3, the line names a file of the command, and nothing is on the output; an output
  that is written while it is read has whole windows of vectors;
- a write: status 5, `desync: cannot write`, and a first part of the output; where the error output
  was refused, the status of the good run, and a first part of its line;
- a thread: as in the good run.

Then one run reads and writes a byte at a time, and ends as the good run. `refuse.c` stands between
the program and the library; it is compiled into a folder of its own. Without a C compiler nothing
is done. A line a command says how many calls were refused; the exit status is 1 at the first run
that ends otherwise.
"""

import argparse
import os
import shutil
import subprocess
import sys
import tempfile

HERE = os.path.dirname(os.path.abspath(__file__))
PROGRAM = os.path.join(os.path.dirname(HERE), "crates", "desync", "out", "desync")
WINDOW = 4096
KINDS = ("memory", "read", "write", "thread")
# Up to which piece of memory each one is also refused unheard, and which of those behind it.
EACH, STEP = 512, 16
OUT_OF_MEMORY = b"desync: out of memory\n"
TOGGLE = """.model toggle
.inputs t
.outputs q
.names q t d
10 1
01 1
.latch d q re clk 0
.end
"""
RING = """.model ring
.inputs a
.outputs y
.names a z y
11 1
.names y z
1 1
.end
"""
VECTORS = "1\n1\n0\n1\n"
DELAYS = "IN+ IN- 3\n"
GROUPS = "q* # all\n"
# The words of each command line, a name of a file where it begins with a colon.
COMMANDS = [
    "run :ring :v",
    "check :none",
    "check :tog --log",
    "run :tog :v",
    "run :tog :v --graph :g --log --jobs 2",
    "run :tog :v --stop 9 --log",
    "run :tog :v --slack 2 --clusters one --jobs 2",
    "run :tog :many --jobs 2",
    "clock :tog :v",
    "clock :tog :many",
    "check :tog",
    "graph :tog",
    "graph :tog --shake --clusters bus",
    "replay :tog :v :log",
    "replay :tog :v :log --transparent",
    "replay :tog :v :log --slack 1",
    "accept :tog :g",
    "period :tog :delays",
    "rate :g :delays",
    "times :tog :delays 2",
    "run :tog :v --groups :groups --jobs 2",
    "clusters :tog --groups :groups",
    "demo 1 4 3 --jobs 2",
]


class Run:
    """What a run of the program ended with."""

    def __init__(self, program, folder, words, around=()):
        environment = dict(os.environ, **dict(around))
        done = subprocess.run(
            [program] + words, cwd=folder, env=environment, capture_output=True, timeout=60
        )
        self.status, self.out, self.err = done.returncode, done.stdout, done.stderr

    def __str__(self):
        return f"status {self.status}, {len(self.out)} bytes, {self.err!r}"

    def ends_as(self, other):
        return self.status == other.status and ordered(self.out) == ordered(other.out)

    def is_as(self, other):
        return self.err == other.err and self.ends_as(other)

    def is_unheard(self, other):
        """It ends as the other, but that its error output was refused."""
        return self.err == b"" and self.ends_as(other)

    def is_part_of(self, other):
        """The output is a first part of the other, but that firings may stand in another order."""
        trace, firings = ordered(self.out)
        whole, every = ordered(other.out)
        if not firings:
            return other.out.startswith(self.out)
        cut = [firing for firing in firings if not firing.endswith(b"\n")]
        return trace == whole and len(cut) < 2 and set(firings) - set(cut) <= set(every)


def ordered(out):
    """An output before its firings, and these sorted: workers fire in an order of their own."""
    trace, line, firings = out.partition(b"firings\n")
    return trace + line, sorted(firings.splitlines(keepends=True))


def written(folder, name, text):
    with open(os.path.join(folder, name), "w", encoding="ascii") as file:
        file.write(text)


def fill(program, folder):
    """Writes the files that the commands name."""
    written(folder, "tog", TOGGLE)
    written(folder, "ring", RING)
    written(folder, "v", VECTORS)
    written(folder, "many", "1\n" * (WINDOW + 4))
    written(folder, "delays", DELAYS)
    written(folder, "groups", GROUPS)
    written(folder, "g", Run(program, folder, ["graph", "tog"]).out.decode())
    text = Run(program, folder, ["run", "tog", "v", "--log"]).out.decode()
    written(folder, "log", text)


def wholes(good):
    """The parts of an output that end behind a whole window of lines, and nothing."""
    lines = good.splitlines(keepends=True)
    return {b""} | {b"".join(lines[:n]) for n in range(0, len(lines), WINDOW)}


def is_right(kind, words, good, run):
    """Whether a run ended as the refusal of a call of this kind is to end."""
    if run.is_as(good):
        return True
    if kind == "memory":
        return run.status == 4 and run.err == OUT_OF_MEMORY and run.out in wholes(good.out)
    if kind == "read":
        lines = {f"desync: cannot read {word[1:]}\n".encode() for word in words if word[0] == ":"}
        return run.status == 3 and run.err in lines and run.out in wholes(good.out)
    if kind == "write":
        if run.status == good.status and run.out == good.out:
            return good.err.startswith(run.err)
        line = b"desync: cannot write\n"
        return run.status == 5 and run.err == line and run.is_part_of(good)
    return False


def is_right_unheard(words, good, run):
    """The same of memory in a run whose error output is refused too. With several workers the piece
    with this number may be a hint's in one run and the caller's in the next, so it need not end as
    the run did that was heard."""
    if "--jobs" not in words or run.err:
        return False
    run.err = good.err if run.status == good.status else OUT_OF_MEMORY
    return is_right("memory", words, good, run)


def refused(program, folder, library, words, good):
    """How many calls were refused of each kind; or the first run that ended otherwise."""
    counts = []
    plain = [word.lstrip(":") for word in words]
    met = os.path.join(folder, "met")
    for kind in KINDS:
        at = 1
        while True:
            around = {"LD_PRELOAD": library, "REFUSE": kind, "REFUSE_AT": str(at)}
            run = Run(program, folder, plain, dict(around, REFUSE_MET=met).items())
            if not is_right(kind, words, good, run):
                raise SystemExit(f"{' '.join(plain)}: {kind} {at}: {run}")
            if kind == "memory" and (at <= EACH or at % STEP == 0):
                unheard = Run(program, folder, plain, dict(around, REFUSE_TO="2").items())
                if not (unheard.is_unheard(run) or is_right_unheard(words, good, unheard)):
                    raise SystemExit(f"{' '.join(plain)}: {kind} {at}, unheard: {unheard}")
            if not os.path.exists(met):
                break
            os.remove(met)
            at += 1
        counts.append(f"{kind} {at - 1}")
    around = {"LD_PRELOAD": library, "REFUSE": "short"}
    if not Run(program, folder, plain, around.items()).is_as(good):
        raise SystemExit(f"{' '.join(plain)}: a byte at a time: another end")
    return counts


def main():
    parser = argparse.ArgumentParser(description=__doc__.splitlines()[0])
    parser.add_argument("program", nargs="?", default=PROGRAM)
    program = os.path.abspath(parser.parse_args().program)
    compiler = shutil.which("cc")
    if compiler is None:
        print("refuse.py: nothing was done, as there is no cc")
        return 0
    with tempfile.TemporaryDirectory() as folder:
        library = os.path.join(folder, "refuse.so")
        source = os.path.join(HERE, "refuse.c")
        command = [compiler, "-O1", "-shared", "-fPIC", "-o", library, source, "-ldl"]
        subprocess.run(command, check=True)
        fill(program, folder)
        for line in COMMANDS:
            words = line.split()
            good = Run(program, folder, [word.lstrip(":") for word in words])
            counts = refused(program, folder, library, words, good)
            print(f"{line.replace(':', '')}: status {good.status}; refused {', '.join(counts)}")
    return 0


if __name__ == "__main__":
    sys.exit(main())
