#!/usr/bin/env python3
"""Makes the netlist of a circuit in tables of at most four inputs, and vectors for it.

The registers of a word are the places of a bus, so that `--clusters bus` gives a cluster for each
word. `mul32` multiplies two words of 32 bits in an array of adders, with registers behind every
sixth row. `sha` has twelve rounds of SHA-256 with registers behind each, and schedules the words of
the message beside them. `cpu` is a processor of sixteen words of 32 bits, which takes its
instructions from the columns: it reads, computes and writes back, a turn each. As a mapper does, it
leaves out what is constant or is read by nothing. With `--hold N` about N vectors in a hundred are
the one before. It writes PREFIX.blif and PREFIX.vec, and prints how many tables and registers there
are. The same words and seed make the same files.
"""

import argparse
import itertools
import random

import make_netlist

WORD, ROWS = 32, 6
STATE = "abcdefgh"
# of the rounds from the seventeenth on, the first whose words are not the message's own
CONSTANTS = [
    0xE49B69C1, 0xEFBE4786, 0x0FC19DC6, 0x240CA1CC, 0x2DE92C6F, 0x4A7484AA,
    0x5CB0A9DC, 0x76F988DA, 0x983E5152, 0xA831C66D, 0xB00327C8, 0xBF597FC7,
]
FIELDS = {"op": 3, "dest": 4, "left": 4, "right": 4, "imm": 16}


def odd(*bits):
    """The sum of bits, without its carry."""
    return sum(bits) % 2


def most(a, b, c):
    """The carry of a sum of three bits."""
    return a + b + c > 1


def pick(select, a, b):
    """The second where the first bit is 1, else the first."""
    return b if select else a


def some(*bits):
    """Whether a bit is 1."""
    return any(bits)


def every(*bits):
    """Whether all bits are 1."""
    return all(bits)


class Circuit:
    """Nets with the lines that drive them. A bit is the name of a net, or the number 0 or 1."""

    def __init__(self):
        self.inputs, self.outputs = [], []
        self.tables, self.registers = {}, {}

    def column(self, name, width=WORD):
        """A word of inputs."""
        word = ["%s[%d]" % (name, i) for i in range(width)]
        self.inputs += word
        return word

    def table(self, function, *bits):
        """A function of bits: its net, or what it is where it needs no table."""
        free = [bit for bit in bits if isinstance(bit, str)]
        rows = list(itertools.product((0, 1), repeat=len(free)))
        ones = [row for row in rows if function(*filled(bits, row))]
        if len(ones) in (0, len(rows)):
            return int(bool(ones))
        for place, bit in enumerate(free):
            if ones == [row for row in rows if row[place]]:
                return bit
        net = "n%d" % len(self.tables)
        self.tables[net] = (free, ["".join(map(str, row)) + " 1" for row in ones])
        return net

    def each(self, function, *words):
        """A table for each place of some words."""
        return [self.table(function, *bits) for bits in zip(*words)]

    def register(self, name, word):
        """The registers of a word. A bit that is constant needs none."""
        places = ["%s[%d]" % (name, i) for i in range(len(word))]
        for place, bit in zip(places, word):
            if isinstance(bit, str):
                self.registers[place] = ([bit], [])
        return [place if isinstance(bit, str) else bit for place, bit in zip(places, word)]

    def add(self, one, *others, carry=0):
        """The sum of words, as long as the first."""
        for other in others:
            total = []
            for a, b in zip(one, other):
                total.append(self.table(odd, a, b, carry))
                carry = self.table(most, a, b, carry)
            one, carry = total, 0
        return one

    def choose(self, select, words):
        """The word of those whose number the bits of `select` are."""
        for bit in select:
            pairs = zip(words[::2], words[1::2])
            words = [self.each(pick, [bit] * len(a), a, b) for a, b in pairs]
        return words[0]

    def sweep(self):
        """Leaves out what no output needs."""
        live, left = set(), list(self.outputs)
        cells = {**self.tables, **self.registers}
        while left:
            net = left.pop()
            if net in cells and net not in live:
                live.add(net)
                left += cells[net][0]
        self.tables = {net: cell for net, cell in self.tables.items() if net in live}
        self.registers = {net: cell for net, cell in self.registers.items() if net in live}

    def lines(self, name):
        """The lines of the netlist."""
        yield ".model " + name
        yield ".inputs clk " + " ".join(self.inputs)
        yield ".outputs " + " ".join(self.outputs)
        for net, (inputs, rows) in self.tables.items():
            yield ".names %s %s" % (" ".join(inputs), net)
            yield from rows
        for net, (data, _) in self.registers.items():
            yield ".latch %s %s re clk 0" % (data[0], net)
        yield ".end"


def filled(bits, row):
    """The bits, with the values of a row for those that are nets."""
    values = iter(row)
    return [next(values) if isinstance(bit, str) else bit for bit in bits]


def number(value, width=WORD):
    """A word that is constant, its lowest bit first."""
    return [value >> i & 1 for i in range(width)]


def mul32(it):
    """The product of two columns."""
    a, b = it.register("a", it.column("x")), it.register("b", it.column("y"))
    sums, carries, low = number(0), number(0), []
    for row in range(WORD):
        products = it.each(every, a, b[:1] * WORD)
        ends = [products, sums, carries]
        sums, carries, b = it.each(odd, *ends), it.each(most, *ends), b[1:]
        low, sums = low + sums[:1], sums[1:] + [0]
        if row % ROWS == ROWS - 1:
            names = ["%s%d" % (word, row) for word in "abscp"]
            a, b, sums, carries, low = map(it.register, names, (a, b, sums, carries, low))
    it.outputs = it.register("p", low + it.add(sums, carries))


def rotated(word, *counts):
    """The word turned to lower places by each of some counts; by a negative one it is shifted."""
    for count in counts:
        yield word[abs(count):] + ([0] * -count if count < 0 else word[:count])


def sha(it):
    """The state after twelve rounds. One column fills the words of the first state and message."""
    words, chain = it.column("x"), []
    for name in [letter + "0" for letter in STATE] + ["w0_%d" % i for i in range(15, -1, -1)]:
        words = it.register(name, words)
        chain.append(words)
    state, message = chain[:8], chain[:7:-1]
    for turn, constant in enumerate(CONSTANTS, 1):
        state = sha_round(it, state, message[15], number(constant))
        message = message[1:] + [scheduled(it, message)]
        state = [it.register("%s%d" % (letter, turn), word) for letter, word in zip(STATE, state)]
        message = [it.register("w%d_%d" % (turn, i), word) for i, word in enumerate(message)]
    it.outputs = [bit for word in state for bit in word]


def sha_round(it, state, word, constant):
    """The state after a round."""
    a, b, c, d, e, f, g, h = state
    first = it.add(h, it.each(odd, *rotated(e, 6, 11, 25)), it.each(pick, e, g, f), constant, word)
    second = it.add(it.each(odd, *rotated(a, 2, 13, 22)), it.each(most, a, b, c))
    return [it.add(first, second), a, b, c, it.add(d, first), e, f, g]


def scheduled(it, message):
    """The next word of the message."""
    near = it.each(odd, *rotated(message[14], 17, 19, -10))
    far = it.each(odd, *rotated(message[1], 7, 18, -3))
    return it.add(message[0], far, message[9], near)


def cpu(it):
    """A processor; an instruction's word is written four turns after its column."""
    words = [["x%d[%d]" % (i, place) for place in range(WORD)] for i in range(16)]
    code = {name: it.register(name + "1", it.column(name, width)) for name, width in FIELDS.items()}
    left = it.register("left2", it.choose(code["left"], words))
    right = it.register("right2", it.choose(code["right"], words))
    op, dest, near = (it.register(name + "2", code[name]) for name in ("op", "dest", "imm"))
    near = near + near[-1:] * (WORD - len(near))
    place = counter(it, op, left, near)
    done = it.register("done", computed(it, op, left, right, near))
    dest = it.register("dest3", dest)
    for i, word in enumerate(words):
        here = it.table(lambda *bits, i=i: list(bits) == number(i, 4), *dest)
        it.register("x%d" % i, it.each(pick, [here] * WORD, word, done))
    it.outputs = place + done


def computed(it, op, left, right, near):
    """Of an operation: sum, difference, and, or, exclusive or, shift up, shift down, number."""
    sums = it.add(left, it.each(odd, right, op[:1] * WORD), carry=op[0])
    logic = [it.each(function, left, right) for function in (every, some, odd)]
    up, down = (shifted(it, left, right[:5], upwards) for upwards in (True, False))
    return it.choose(op, [sums, sums] + logic + [up, down, near])


def shifted(it, word, counts, upwards):
    """The word shifted by the number that some bits are."""
    for place, bit in enumerate(counts):
        zeros = [0] * (1 << place)
        moved = zeros + word[:-len(zeros)] if upwards else word[len(zeros):] + zeros
        word = it.choose([bit], [word, moved])
    return word


def counter(it, op, left, near):
    """The place of the next instruction: one on, or by the number where operation 7 reads a 0."""
    found = left
    while len(found) > 1:
        found = [it.table(some, *found[i:i + 4]) for i in range(0, len(found), 4)]
    jumps = it.table(lambda a, b, c, more: a and b and c and not more, *op, found[0])
    now = ["pc[%d]" % i for i in range(WORD)]
    return it.register("pc", it.add(now, it.choose([jumps], [number(1), near])))


CIRCUITS = {"mul32": mul32, "sha": sha, "cpu": cpu}


def make(prefix, seed, turns, name, hold=0):
    """Writes both files; the circuit."""
    it = Circuit()
    CIRCUITS[name](it)
    it.sweep()
    vectors = make_netlist.vectors(random.Random(seed), len(it.inputs), turns, hold)
    for end, text in ((".blif", it.lines(name)), (".vec", vectors)):
        with open(prefix + end, "w") as file:
            file.writelines(line + "\n" for line in text)
    return it


def main():
    parser = argparse.ArgumentParser(prog="make_circuit.py", description=__doc__)
    parser.add_argument("prefix", help="the files are PREFIX.blif and PREFIX.vec")
    parser.add_argument("--seed", type=int, default=1)
    number_of = make_netlist.at_least(0)
    parser.add_argument("--turns", type=number_of, default=1000, help="how many vectors")
    parser.add_argument("--hold", type=number_of, default=0, help="how many of a hundred stay")
    parser.add_argument("circuit", choices=sorted(CIRCUITS))
    asked = parser.parse_args()
    it = make(asked.prefix, asked.seed, asked.turns, asked.circuit, asked.hold)
    print("%d tables, %d registers" % (len(it.tables), len(it.registers)))


if __name__ == "__main__":
    main()
