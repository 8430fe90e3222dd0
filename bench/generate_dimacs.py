#!/usr/bin/env python3
"""Writes a formula in DIMACS's form to standard output.

    generate_dimacs.py pigeons [HOLES]          one pigeon more than there are holes, 7 holes by default
    generate_dimacs.py adder [BITS]             that sums are associative, 32 bits by default
    generate_dimacs.py multiplier [BITS]        that whole products are commutative, 7 bits by default
    generate_dimacs.py random [SEED]            840 clauses of three literals over 200 variables, which can be satisfied
"""
import random
import sys


class Formula:
    """Clauses, each a list of variables or, negative, their complements."""

    def __init__(self):
        self.variables = 0
        self.clauses = []
        self.zero = None

    def variable(self):
        self.variables += 1
        return self.variables

    def word(self, width):
        return [self.variable() for _ in range(width)]

    def add(self, *literals):
        literals = list(dict.fromkeys(literals))
        if not any(-literal in literals for literal in literals):
            self.clauses.append(literals)

    def false(self):
        if self.zero is None:
            self.zero = self.variable()
            self.add(-self.zero)
        return self.zero

    def both(self, a, b):
        out = self.variable()
        self.add(-out, a)
        self.add(-out, b)
        self.add(out, -a, -b)
        return out

    def either(self, a, b):
        return -self.both(-a, -b)

    def differs(self, a, b):
        out = self.variable()
        self.add(-out, a, b)
        self.add(-out, -a, -b)
        self.add(out, -a, b)
        self.add(out, a, -b)
        return out

    def sum(self, a, b):
        """The sum of two words, without its carry."""
        carry = self.false()
        bits = []
        for x, y in zip(a, b):
            half = self.differs(x, y)
            bits.append(self.differs(half, carry))
            carry = self.either(self.both(x, y), self.both(half, carry))
        return bits

    def product(self, a, b):
        """The product of two words of one width, twice as wide."""
        width = len(a)
        zero = self.false()
        total = [zero] * (2 * width)
        for i in range(width):
            row = [self.both(x, b[i]) for x in a]
            total = self.sum(total, [zero] * i + row + [zero] * (width - i))
        return total

    def some_differ(self, a, b):
        self.add(*[self.differs(x, y) for x, y in zip(a, b)])

    def write(self, out):
        out.write(f"p cnf {self.variables} {len(self.clauses)}\n")
        for clause in self.clauses:
            out.write(" ".join(map(str, clause)) + " 0\n")


def pigeons(holes):
    formula = Formula()
    rows = [formula.word(holes) for _ in range(holes + 1)]
    for row in rows:
        formula.add(*row)
    for i in range(holes + 1):
        for j in range(i):
            for hole in range(holes):
                formula.add(-rows[i][hole], -rows[j][hole])
    return formula


def adder(bits):
    formula = Formula()
    a, b, c = formula.word(bits), formula.word(bits), formula.word(bits)
    left = formula.sum(formula.sum(a, b), c)
    formula.some_differ(left, formula.sum(a, formula.sum(b, c)))
    return formula


def multiplier(bits):
    formula = Formula()
    a, b = formula.word(bits), formula.word(bits)
    left = formula.product(a, b)
    formula.some_differ(left, formula.product(b, a))
    return formula


def random_clauses(seed):
    """Clauses that one hidden assignment satisfies."""
    source = random.Random(seed)
    formula = Formula()
    formula.variables = 200
    hidden = [source.random() < 0.5 for _ in range(200)]
    while len(formula.clauses) < 840:
        chosen = source.sample(range(1, 201), 3)
        clause = [v if source.random() < 0.5 else -v for v in chosen]
        if any((x > 0) == hidden[abs(x) - 1] for x in clause):
            formula.add(*clause)
    return formula


KINDS = {
    "pigeons": (pigeons, 7),
    "adder": (adder, 32),
    "multiplier": (multiplier, 7),
    "random": (random_clauses, 0),
}


def main():
    if len(sys.argv) not in (2, 3) or sys.argv[1] not in KINDS:
        sys.exit(__doc__)
    make, count = KINDS[sys.argv[1]]
    if len(sys.argv) == 3:
        count = int(sys.argv[2])
    make(count).write(sys.stdout)


if __name__ == "__main__":
    main()
