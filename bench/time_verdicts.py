#!/usr/bin/env python3
"""Times `lec` beside solvers on the same questions, each program in turn in one run.

    time_verdicts.py CIRCT [RUNS] [QUESTION..]     CIRCT is the proved program; 3 runs of all questions by default

Each question is whether two words of the same inputs are equal: MLIR text for `lec`; for `minisat` and `cadical` a formula by the rows of
gates of generate_dimacs.py; for `berkeley-abc` both sides as BLIF, told apart by `cec`. Those of verdict_texts.py are pairs of texts, of
which the other programs get the circuits that CIRCT exports, ABC for `cec` and `&cec`. A line has the median times in seconds.
"""
import os
import shutil
import statistics
import subprocess
import sys
import tempfile
import time

sys.dont_write_bytecode = True
import support
from generate_dimacs import Formula
from verdict_texts import design, select, shifted_twice

SECONDS = 300


class Rows(Formula):
    """Formulas of more rows of gates, of which each gate is kept for BLIF too."""

    def __init__(self):
        super().__init__()
        self.gates = []

    def false(self):
        first = self.zero is None
        zero = super().false()
        if first:
            self.gates.append((zero, [], ""))
        return zero

    def both(self, a, b):
        out = super().both(a, b)
        self.gates.append((out, [a, b], "both"))
        return out

    def differs(self, a, b):
        out = super().differs(a, b)
        self.gates.append((out, [a, b], "differs"))
        return out

    def choose(self, test, a, b):
        return self.either(self.both(test, a), self.both(-test, b))

    def low_product(self, a, b):
        """The product of two words of one width, as wide as they are."""
        zero = self.false()
        total = [zero] * len(a)
        for i, bit in enumerate(b):
            row = [self.both(x, bit) for x in a[: len(a) - i]]
            total = self.sum(total, [zero] * i + row)
        return total

    def difference(self, a, b):
        """The difference of two words, and whether the first is not less."""
        carry = -self.false()
        bits = []
        for x, y in zip(a, [-bit for bit in b]):
            half = self.differs(x, y)
            bits.append(self.differs(half, carry))
            carry = self.either(self.both(x, y), self.both(half, carry))
        return bits, carry

    def divided(self, a, b):
        """The quotient and the rest, bit by bit with restoring."""
        zero = self.false()
        rest = [zero] * (len(a) + 1)
        wide = b + [zero]
        quotient = []
        for bit in reversed(a):
            rest = [bit] + rest[:-1]
            less, fits = self.difference(rest, wide)
            rest = [self.choose(fits, x, y) for x, y in zip(less, rest)]
            quotient.insert(0, fits)
        return quotient, rest[:-1]

    def shifted(self, a, amount, stages):
        """The word shifted left by the low bits of an amount, the stages in this order."""
        zero = self.false()
        for stage in stages:
            far = [zero] * (1 << stage) + a
            a = [self.choose(amount[stage], x, y) for x, y in zip(far, a)]
        return a

    def blif(self, inputs, outputs):
        """One side as BLIF: `inputs` are variables, `outputs` literals."""
        names = {0: ["1"], 1: ["11 1"]}
        lines = [".model m", ".inputs " + " ".join(f"v{v}" for v in inputs), ".outputs " + " ".join(f"o{i}" for i in range(len(outputs)))]
        for out, ins, kind in self.gates:
            lines.append(".names " + " ".join(f"v{abs(i)}" for i in ins) + f" v{out}")
            signs = ["1" if i > 0 else "0" for i in ins]
            if kind == "both":
                lines.append("".join(signs) + " 1")
            elif kind == "differs":
                lines.append(signs[0] + ("0" if signs[1] == "1" else "1") + " 1")
                lines.append(("0" if signs[0] == "1" else "1") + signs[1] + " 1")
        for i, o in enumerate(outputs):
            lines += [f".names v{abs(o)} o{i}", "1 1" if o > 0 else "0 1"]
        return "\n".join(lines + [".end", ""])


class Question:
    """Two sides in gates, and as the bodies of two modules."""

    def __init__(self, widths, one, two, sides):
        self.widths = widths
        self.bodies = (one, two)
        self.sides = sides

    def mlir(self):
        ports = ", ".join(f"in %{chr(97 + i)} : i{w}" for i, w in enumerate(self.widths))
        wide = self.widths[0]
        texts = []
        for name, body in zip("pq", self.bodies):
            lines = body.replace("W", f"i{wide}").strip()
            texts.append(f"hw.module @{name}({ports}, out o : i{wide}) {{\n{lines}\n  hw.output %o : i{wide}\n}}\n")
        return "".join(texts)

    def commands(self, folder, circt):
        """The command of each program."""
        return {
            "lec": [circt, "lec", f"{folder}/q.mlir", "-c1", "p", "-c2", "q"],
            "minisat": ["minisat", "-verb=0", f"{folder}/q.cnf"],
            "cadical": ["cadical", "-q", "-n", f"{folder}/q.cnf"],
            "abc cec": ["berkeley-abc", "-q", f"cec {folder}/0.blif {folder}/1.blif"],
        }

    def write(self, folder, _circt):
        with open(f"{folder}/q.mlir", "w") as out:
            out.write(self.mlir())
        rows = Rows()
        words = [rows.word(w) for w in self.widths]
        left, right = [side(rows, words) for side in self.sides]
        rows.some_differ(left, right)
        with open(f"{folder}/q.cnf", "w") as out:
            rows.write(out)
        for number, side in enumerate(self.sides):
            rows = Rows()
            words = [rows.word(w) for w in self.widths]
            made = side(rows, words)
            with open(f"{folder}/{number}.blif", "w") as out:
                out.write(rows.blif([v for word in words for v in word], made))


def associative(bits):
    return Question(
        [bits] * 3,
        "%x = comb.add %a, %b : W\n%y = comb.add %x, %c : W\n%o = comb.or %y, %y : W",
        "%x = comb.add %b, %c : W\n%y = comb.add %a, %x : W\n%o = comb.or %y, %y : W",
        (lambda r, w: r.sum(r.sum(w[0], w[1]), w[2]), lambda r, w: r.sum(w[0], r.sum(w[1], w[2]))),
    )


def commuted(bits):
    return Question(
        [bits] * 3,
        "%x = comb.add %a, %b : W\n%o = comb.add %x, %c : W",
        "%x = comb.add %b, %a : W\n%o = comb.add %c, %x : W",
        (lambda r, w: r.sum(r.sum(w[0], w[1]), w[2]), lambda r, w: r.sum(w[2], r.sum(w[1], w[0]))),
    )


def shifts(bits):
    stages = range(bits.bit_length() - 1)
    lines = []
    word = "a"
    for stage in reversed(stages):
        lines += [
            f"%b{stage} = comb.extract %b from {stage} : (W) -> i1",
            f"%n{stage} = hw.constant {1 << stage} : W",
            f"%s{stage} = comb.shl %{word}, %n{stage} : W",
            f"%m{stage} = comb.mux %b{stage}, %s{stage}, %{word} : W",
        ]
        word = f"m{stage}"
    lines += [
        f"%k = hw.constant {bits} : W",
        "%z = hw.constant 0 : W",
        "%l = comb.icmp ult %b, %k : W",
        f"%o = comb.mux %l, %{word}, %z : W",
    ]

    def whole(order):
        def side(r, w):
            low = -r.false()
            for bit in w[1][len(stages):]:
                low = r.both(low, -bit)
            return [r.both(low, x) for x in r.shifted(w[0], w[1], order)]
        return side

    return Question([bits, bits], "%o = comb.shl %a, %b : W", "\n".join(lines), (whole(list(stages)), whole(list(reversed(stages)))))


def product(bits):
    return Question(
        [bits] * 2,
        "%o = comb.mul %a, %b : W",
        "%o = comb.mul %b, %a : W",
        (lambda r, w: r.low_product(w[0], w[1]), lambda r, w: r.low_product(w[1], w[0])),
    )


def distributive(bits):
    return Question(
        [bits] * 3,
        "%x = comb.add %b, %c : W\n%o = comb.mul %a, %x : W",
        "%x = comb.mul %a, %b : W\n%y = comb.mul %a, %c : W\n%o = comb.add %x, %y : W",
        (lambda r, w: r.low_product(w[0], r.sum(w[1], w[2])), lambda r, w: r.sum(r.low_product(w[0], w[1]), r.low_product(w[0], w[2]))),
    )


def rest(bits):
    # A divisor is a constant.
    number = 1000

    def divisor(r):
        zero = r.false()
        return [-zero if number >> i & 1 else zero for i in range(bits)]

    def by_product(r, w):
        quotient = r.divided(w[0], divisor(r))[0]
        return r.difference(w[0], r.low_product(quotient, divisor(r)))[0]

    constant = f"%k = hw.constant {number} : W\n"
    return Question(
        [bits],
        constant + "%o = comb.modu %a, %k : W",
        constant + "%q = comb.divu %a, %k : W\n%m = comb.mul %q, %k : W\n%o = comb.sub %a, %m : W",
        (lambda r, w: r.divided(w[0], divisor(r))[1], by_product),
    )


QUESTIONS = {
    "adders 16": lambda: associative(16),
    "adders 32": lambda: associative(32),
    "adders 64": lambda: associative(64),
    "adders 128": lambda: associative(128),
    "shifts 64": lambda: shifts(64),
    "product 6": lambda: product(6),
    "product 8": lambda: product(8),
    "product 10": lambda: product(10),
    "distributive 6": lambda: distributive(6),
    "rest 16": lambda: rest(16),
    "commuted 128": lambda: commuted(128),
    "select 16": lambda: select(16),
    "select 32": lambda: select(32),
    "select 64": lambda: select(64),
    "select 128": lambda: select(128),
    "shifts twice 16": lambda: shifted_twice(16),
    "shifts twice 32": lambda: shifted_twice(32),
    "shifts twice 64": lambda: shifted_twice(64),
    "design passes": lambda: design(100, 16, "passes"),
    "design commuted": lambda: design(100, 16, "commuted"),
    "design grouped": lambda: design(100, 16, "grouped"),
    "design rewritten": lambda: design(100, 16, "rewritten"),
    "design changed": lambda: design(100, 16, "changed"),
    "design 8": lambda: design(40, 8, "rewritten"),
    "design 32": lambda: design(40, 32, "rewritten"),
}


def timed(command):
    start = time.time()
    try:
        done = subprocess.run(command, stdout=subprocess.PIPE, stderr=subprocess.STDOUT, text=True, timeout=SECONDS)
        text = done.stdout
    except subprocess.TimeoutExpired:
        text = "timeout"
    return time.time() - start, text


def verdict_of(text):
    for word, verdict in (("c1 == c2", "="), ("c1 != c2", "!"), ("UNSATISFIABLE", "="), ("SATISFIABLE", "!"), ("are equivalent", "="), ("NOT EQUIVALENT", "!"), ("timeout", "t")):
        if word in text:
            return verdict
    return "?"


def main():
    circt = os.path.abspath(support.program_word(__doc__))
    runs = support.number_word(2, 3)
    chosen = sys.argv[3:] or list(QUESTIONS)
    folder = tempfile.mkdtemp()
    for name in chosen:
        question = QUESTIONS[name]()
        question.write(folder, circt)
        commands = {program: command for program, command in question.commands(folder, circt).items() if shutil.which(command[0])}
        times = {program: [] for program in commands}
        verdicts = dict.fromkeys(commands, "?")
        for _ in range(runs):
            for program, command in commands.items():
                seconds, text = timed(command)
                times[program].append(seconds)
                verdicts[program] = verdict_of(text)
        print(f"{name:16}" + "".join(f"  {p} {statistics.median(times[p]):.3f} {verdicts[p]}" for p in commands), flush=True)
    shutil.rmtree(folder)


if __name__ == "__main__":
    main()
