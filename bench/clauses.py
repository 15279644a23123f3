#!/usr/bin/env python3
"""Writes lists of clauses for the yardstick of the solver into a folder: NAME.cnf in the form of DIMACS, NAME.lines as the lines
that the checker of logs reads, and NAME.under with one empty list of literals. usage: clauses.py FOLDER"""
import random
import sys


class Clauses:
    def __init__(self):
        self.vars, self.clauses = 0, []

    def var(self):
        self.vars += 1
        return self.vars

    def add(self, *lits):
        self.clauses.append(lits)

    def conj(self, a, b):
        gate = self.var()
        self.add(-gate, a)
        self.add(-gate, b)
        self.add(gate, -a, -b)
        return gate

    def disj(self, a, b):
        return -self.conj(-a, -b)

    def differ(self, a, b):
        return self.disj(self.conj(a, -b), self.conj(-a, b))

    def choose(self, test, a, b):
        return self.disj(self.conj(test, a), self.conj(-test, b))

    def any(self, lits):
        self.add(*lits)

    def const(self, value):
        bit = self.var()
        self.add(bit if value else -bit)
        return bit

    def add_bits(self, a, b):
        carry, total = self.const(False), []
        for x, y in zip(a, b):
            half = self.differ(x, y)
            total.append(self.differ(half, carry))
            carry = self.disj(self.conj(x, y), self.conj(half, carry))
        return total

    def write(self, folder, name):
        with open(f"{folder}/{name}.cnf", "w") as out:
            out.write(f"p cnf {self.vars} {len(self.clauses)}\n")
            out.writelines(" ".join(map(str, clause)) + " 0\n" for clause in self.clauses)
        with open(f"{folder}/{name}.lines", "w") as out:
            for clause in self.clauses:
                lits = sorted({2 * (abs(lit) - 1) + (lit < 0) for lit in clause})
                out.write("".join(f" {lit}" for lit in lits) + " ;\n")
        with open(f"{folder}/{name}.under", "w") as out:
            out.write("0\n")


def ring(places, steps):
    """A token goes round a ring, and never stands at two places."""
    c = Clauses()
    row = [c.const(at == 0) for at in range(places)]
    two = []
    for _ in range(steps):
        moves = c.var()
        row = [c.choose(moves, row[at - 1], row[at]) for at in range(places)]
        two += [c.conj(row[at], row[(at + 1) % places]) for at in range(places)]
    c.any(two)
    return c


def queue(bits, steps):
    """A queue by two pointers and a count of its items: the count is their difference."""
    c = Clauses()
    front, back, count = ([c.const(False) for _ in range(bits)] for _ in range(3))
    wrong = []
    for _ in range(steps):
        puts, takes = c.var(), c.var()
        full = empty = c.const(True)
        for bit in count:
            full, empty = c.conj(full, bit), c.conj(empty, -bit)
        puts, takes = c.conj(puts, -full), c.conj(takes, -empty)
        zero = c.const(False)
        front = c.add_bits(front, [takes] + [zero] * (bits - 1))
        back = c.add_bits(back, [puts] + [zero] * (bits - 1))
        change = c.conj(takes, -puts)
        count = c.add_bits(count, [c.differ(puts, takes)] + [change] * (bits - 1))
        wrong += [c.differ(x, y) for x, y in zip(c.add_bits(front, count), back)]
    c.any(wrong)
    return c


def chosen(seed, variables, ratio):
    """Clauses with three literals, chosen evenly."""
    c, dice = Clauses(), random.Random(seed)
    c.vars = variables
    for _ in range(int(variables * ratio)):
        c.add(*(dice.choice((1, -1)) * var for var in dice.sample(range(1, variables + 1), 3)))
    return c


def holes(count):
    """One pigeon more than holes."""
    c = Clauses()
    at = [[c.var() for _ in range(count)] for _ in range(count + 1)]
    for row in at:
        c.any(row)
    for hole in range(count):
        for first in range(count + 1):
            for second in range(first):
                c.add(-at[first][hole], -at[second][hole])
    return c


def product(c, a, b):
    zero = c.const(False)
    total = [zero] * (len(a) + len(b))
    for shift, bit in enumerate(b):
        part = [zero] * shift + [c.conj(x, bit) for x in a] + [zero] * (len(b) - shift)
        total = c.add_bits(total, part)
    return total


def miter(bits):
    """Two products that differ though their factors are exchanged."""
    c = Clauses()
    a, b = ([c.var() for _ in range(bits)] for _ in range(2))
    c.any([c.differ(x, y) for x, y in zip(product(c, a, b), product(c, b, a))])
    return c


def main(folder):
    for places, steps in ((12, 12), (24, 24)):
        ring(places, steps).write(folder, f"ring{places}")
    for bits, steps in ((3, 8), (4, 10)):
        queue(bits, steps).write(folder, f"queue{bits}")
    for seed in range(6):
        chosen(seed, 150, 4.26).write(folder, f"random{seed}")
    holes(7).write(folder, "holes7")
    for bits in (4, 5):
        miter(bits).write(folder, f"miter{bits}")


if __name__ == "__main__":
    main(sys.argv[1])
