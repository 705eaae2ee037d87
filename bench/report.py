#!/usr/bin/env python3
"""Keeps the results of the scripts here, and writes them into docs/BENCHMARKS.md.

A file results/NAME.txt has the lines `date:`, `machine:`, `command:` and `about:`, and behind
them a table as a script prints it. In the page a line that ends in `<!-- results: NAME -->`, and
the table behind it, are made of that. Without an option all of them are made anew. `--keep NAME`
first takes the table of results/NAME.txt from the standard input, with the date of today:

    bench/run.py | bench/report.py --keep simulators --machine "four processors" \\
        --command bench/run.py --about "seconds by the clock, medians of five"

`--check` changes nothing, and ends with 1 where the page has something else.
"""

import argparse
import datetime
import os
import re
import sys

HERE = os.path.dirname(os.path.abspath(__file__))
PAGE = os.path.join(os.path.dirname(HERE), "docs", "BENCHMARKS.md")
HEADS = ("date", "machine", "command", "about")
MARKED = re.compile(r"^[^\n]*(<!-- results: (\w+) -->\n)(?:\n(?:\|[^\n]*\n)+)?", re.M)


def read(path):
    with open(path, encoding="utf-8") as file:
        return file.read()


def write(path, text):
    with open(path, "w", encoding="utf-8") as file:
        file.write(text)


def place(name):
    """The file of some results."""
    return os.path.join(HERE, "results", name + ".txt")


class Results:
    """A file of results: what its heads say, and the cells of its table."""

    def __init__(self, name):
        self.heads, self.lines = {}, []
        for line in read(place(name)).splitlines():
            head, _, rest = line.partition(": ")
            if line.startswith("|"):
                self.lines.append(line)
            elif head in HEADS:
                self.heads[head] = rest
            else:
                sys.exit("report.py: results/%s.txt: no head and no row: %s" % (name, line))
        lacking = [head for head in HEADS if head not in self.heads]
        if lacking or len(self.lines) < 3:
            sys.exit("report.py: results/%s.txt lacks %s" % (name, " ".join(lacking) or "rows"))

    def rows(self):
        """The cells of each row, the names of the columns first."""
        return [cells_of(line) for line in self.lines[:1] + self.lines[2:]]

    def text(self, mark):
        """What stands in the page: a line that says how they were made, and the table."""
        told = "%(date)s, %(machine)s, by `%(command)s`: %(about)s. " % self.heads
        return told + mark + "\n" + "\n".join(self.lines) + "\n"


def cells_of(line):
    return [cell.strip() for cell in line.strip("|").split("|")]


def keep(asked):
    """Takes a table from the standard input."""
    lines = [line for line in sys.stdin.read().splitlines() if line.startswith("|")]
    heads = {head: getattr(asked, head) for head in HEADS[1:]}
    if os.path.exists(place(asked.keep)):
        before = Results(asked.keep).heads
        heads = {head: value or before[head] for head, value in heads.items()}
    lacking = [head for head in heads if not heads[head]]
    if lacking or len(lines) < 3:
        sys.exit("report.py: --keep needs %s" % (" ".join(lacking) or "a table on the input"))
    heads["date"] = datetime.date.today().isoformat()
    written = ["%s: %s" % (head, heads[head]) for head in HEADS] + lines
    write(place(asked.keep), "\n".join(written) + "\n")


def made(page):
    """The page with its tables made of the results."""
    return MARKED.sub(lambda found: Results(found[2]).text(found[1]), page)


def main():
    head, _, rest = __doc__.partition("\n\n")
    how = argparse.RawDescriptionHelpFormatter
    parser = argparse.ArgumentParser(description=head + "\n\n" + rest, formatter_class=how)
    parser.add_argument("--keep", metavar="NAME", help="take results from the standard input")
    parser.add_argument("--machine", help="with --keep: on which machine")
    parser.add_argument("--command", help="with --keep: by which command")
    parser.add_argument("--about", help="with --keep: what the numbers are")
    parser.add_argument("--check", action="store_true", help="only compare")
    asked = parser.parse_args()
    if asked.keep:
        keep(asked)
    page = read(PAGE)
    if asked.check:
        is_made = made(page) == page
        sys.exit(0 if is_made else "docs/BENCHMARKS.md: not as bench/report.py writes it")
    write(PAGE, made(page))


if __name__ == "__main__":
    main()
