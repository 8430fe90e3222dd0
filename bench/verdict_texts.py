"""Pairs of modules for time_verdicts.py, as two texts, and the same for other programs: both circuits in the AIGER format, as the program
exports them, and the formula that they differ (DIMACS)."""
import random
import subprocess

import aiger


class Texts:
    """Two texts with a module `p` each, of the same ports. Where the second is left out, it is what passes make of the first."""

    def __init__(self, widths, outputs, one, two=None):
        self.ports = ", ".join(f"in %{chr(97 + i)} : i{w}" for i, w in enumerate(widths))
        self.outputs = outputs
        self.bodies = (one, two)

    def text(self, body):
        """A module of a body, whose results are of these names and widths."""
        outs = ", ".join(f"out o{i} : i{w}" for i, (_, w) in enumerate(self.outputs))
        values = ", ".join(f"%{name}" for name, _ in self.outputs)
        types = ", ".join(f"i{w}" for _, w in self.outputs)
        return f"hw.module @p({self.ports}, {outs}) {{\n" + "\n".join(f"  {line}" for line in body) + f"\n  hw.output {values} : {types}\n}}\n"

    def write(self, folder, circt):
        one, two = self.bodies
        texts = [self.text(one)]
        texts.append(self.text(two) if two else printed([circt, "opt", "--canonicalize", "--cse"], texts[0]))
        trees = []
        for number, text in enumerate(texts):
            with open(f"{folder}/{number}.mlir", "w") as out:
                out.write(text)
            trees.append(aiger.read_text(printed([circt, "translate", "--export-aiger"], text)))
            with open(f"{folder}/{number}.aig", "wb") as out:
                out.write(aiger.binary_bytes(trees[-1]))
        with open(f"{folder}/q.cnf", "w") as out:
            out.write(formula(*trees))

    def commands(self, folder, circt):
        """The command of each program."""
        return {
            "lec": [circt, "lec", f"{folder}/0.mlir", f"{folder}/1.mlir", "-c1", "p", "-c2", "p"],
            "minisat": ["minisat", "-verb=0", f"{folder}/q.cnf"],
            "cadical": ["cadical", "-q", "-n", f"{folder}/q.cnf"],
            "abc cec": ["berkeley-abc", "-q", f"cec {folder}/0.aig {folder}/1.aig"],
            "abc &cec": ["berkeley-abc", "-q", f"&r {folder}/0.aig; &cec {folder}/1.aig"],
        }


def printed(command, text):
    return subprocess.run(command, input=text, stdout=subprocess.PIPE, text=True, check=True).stdout


def formula(one, two):
    """That two circuits of the same inputs differ."""
    clauses = []
    count = len(one.inputs) + 1
    # Variable 1 is the constant 0.
    clauses.append([-1])
    sides = []
    for tree in (one, two):
        variables = {0: 1}
        variables.update((literal // 2, k) for k, literal in enumerate(tree.inputs, 2))

        def literal_of(literal):
            return -variables[literal // 2] if literal & 1 else variables[literal // 2]

        for out, left, right in tree.gates:
            a, b = literal_of(left), literal_of(right)
            count += 1
            variables[out // 2] = count
            clauses += [[-count, a], [-count, b], [count, -a, -b]]
        sides.append([literal_of(literal) for literal in tree.outputs])
    differing = []
    for a, b in zip(*sides):
        count += 1
        differing.append(count)
        clauses += [[-count, a, b], [-count, -a, -b]]
    clauses.append(differing)
    return f"p cnf {count} {len(clauses)}\n" + "".join(" ".join(map(str, clause)) + " 0\n" for clause in clauses)


def select(bits, block=4):
    """A sum, against one of blocks, each for both carries."""
    lines, parts, carry = [], [], None
    for low in range(0, bits, block):
        wide = min(block, bits - low)
        lines.append(f"%z{low} = hw.constant 0 : i1")
        for word in "ab":
            lines.append(f"%{word}{low} = comb.extract %{word} from {low} : (i{bits}) -> i{wide}")
            lines.append(f"%w{word}{low} = comb.concat %z{low}, %{word}{low} : i1, i{wide}")
        lines.append(f"%s{low} = comb.add %wa{low}, %wb{low} : i{wide + 1}")
        lines.append(f"%k{low} = hw.constant 1 : i{wide + 1}")
        lines.append(f"%u{low} = comb.add %s{low}, %k{low} : i{wide + 1}")
        chosen = f"r{low}" if carry else f"s{low}"
        if carry:
            lines.append(f"%{chosen} = comb.mux %{carry}, %u{low}, %s{low} : i{wide + 1}")
        lines.append(f"%l{low} = comb.extract %{chosen} from 0 : (i{wide + 1}) -> i{wide}")
        carry = f"c{low}"
        lines.append(f"%{carry} = comb.extract %{chosen} from {wide} : (i{wide + 1}) -> i1")
        parts.insert(0, (f"%l{low}", f"i{wide}"))
    lines.append("%o = comb.concat " + ", ".join(name for name, _ in parts) + " : " + ", ".join(kind for _, kind in parts))
    return Texts([bits, bits], [("o", bits)], [f"%o = comb.add %a, %b : i{bits}"], lines)


def shifted_twice(bits):
    """A word shifted by two amounts in turn, against one shifted by their sum."""
    wide = f"i{bits + 1}"
    two = ["%z = hw.constant 0 : i1"]
    two += [f"%w{word} = comb.concat %z, %{word} : i1, i{bits}" for word in "abc"]
    two += [f"%s = comb.add %wb, %wc : {wide}", f"%y = comb.shl %wa, %s : {wide}", f"%o = comb.extract %y from 0 : ({wide}) -> i{bits}"]
    return Texts([bits] * 3, [("o", bits)], [f"%x = comb.shl %a, %b : i{bits}", f"%o = comb.shl %x, %c : i{bits}"], two)


class Draft:
    """Lines of a body whose values are of one type."""

    def __init__(self, bits):
        self.kind = f"i{bits}"
        self.lines = []

    def value(self, text, name=None):
        name = name or f"t{len(self.lines)}"
        self.lines.append(f"%{name} = {text} : {self.kind}")
        return name

    def number(self, value):
        return self.value(f"hw.constant {value}")

    def two(self, operation, a, b, name=None):
        return self.value(f"comb.{operation} %{a}, %{b}", name)

    def chosen(self, predicate, a, b, c, d, name):
        test = f"t{len(self.lines)}"
        self.lines.append(f"%{test} = comb.icmp {predicate} %{a}, %{b} : {self.kind}")
        return self.value(f"comb.mux %{test}, %{c}, %{d}", name)


def other_way(draft, way, operation, a, b, name):
    """An operation said in another way: with its operands exchanged, or by other operations."""
    if operation == "sub":
        one, all_ones = draft.number(1), draft.number(-1)
        draft.two("add", draft.two("add", a, one), draft.two("xor", b, all_ones), name)
    elif way == "commuted" or operation in ("add", "and"):
        draft.two(operation, b, a, name)
    elif operation == "or":
        ones = draft.number(-1)
        draft.two("xor", draft.two("and", draft.two("xor", a, ones), draft.two("xor", b, ones)), ones, name)
    else:
        draft.two("sub", draft.two("or", a, b), draft.two("and", a, b), name)


def design(count, bits, way, seed=1):
    """So many operations, against what passes make of them, the same with other operands or other operations ("commuted", "rewritten"), with
    sums of three the other way round ("grouped"), or with one constant changed ("changed")."""
    choose = random.Random(f"{count} {bits} {seed}")
    one, two = Draft(bits), Draft(bits)
    values = list("abcdef")
    for k in range(count):
        operation = choose.choice(["add", "sub", "and", "or", "xor", "three", "mux", "constant"])
        near = values[-8:] + values[:3]
        a, b, c = choose.choice(near), choose.choice(near), choose.choice(values)
        value = choose.randrange(1 << bits)
        name = f"v{k}"
        if k == count - 1:
            operation = "constant"
        if operation == "three":
            one.two("add", one.two("add", a, b), c, name)
            if way == "grouped":
                two.two("add", a, two.two("add", b, c), name)
            else:
                two.two("add", c, two.two("add", b, a), name)
        elif operation == "mux":
            one.chosen("ult", a, b, c, a, name)
            two.chosen("uge", a, b, a, c, name)
        elif operation == "constant":
            one.two("add", a, one.number(value), name)
            changed = way == "changed" and k == count - 1
            two.two("add", two.number(value ^ 1 if changed else value), a, name)
        else:
            one.two(operation, a, b, name)
            other_way(two, way, operation, a, b, name)
        values.append(name)
    outputs = [(name, bits) for name in values[-8:]]
    return Texts([bits] * 6, outputs, one.lines, None if way == "passes" else two.lines)
