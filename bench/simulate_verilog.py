#!/usr/bin/env python3
"""Simulates the Verilog of random modules, plain and with implicit extension, and compares each output of each step with what the operations say.

    simulate_verilog.py PROGRAM [MODULES [SEED [COMMAND]]]     by default 1000 modules, seed 1, `iverilog` (its `vvp` beside it)

The modules are drawn from the seed: operations of `comb` on words of 1 to 64 bits, of which many are zero extensions that others
take, and registers of `seq`, with and without enable and reset, of two clocks. What they do is computed here, by what the CIRCT
documentation says of each operation ("comb", "seq" dialects), so two readings of a design are compared with that of a simulator.
In a step all inputs change at once, then the outputs are read, then the clocks that are 1 rise.
"""
import collections
import pathlib
import random
import subprocess
import sys
import tempfile

sys.dont_write_bytecode = True
import support

WIDTHS = [1, 1, 2, 3, 4, 7, 8, 8, 8, 12, 16, 16, 31, 32, 33, 64]
STEPS = 12
MODULES_A_TEXT = 25
FORMS = [[], ["--lowering-options=implicitExtension"]]

# An operation: its result, its name, what it takes, and what else it says.
Op = collections.namedtuple("Op", "result width name operands more")
Register = collections.namedtuple("Register", "result width clock next enable reset value is_async")


def ones(width):
    return (1 << width) - 1


def signed(value, width):
    return value - (1 << width) if value >> (width - 1) else value


# ---- what operations do


def divided(a, b, width, is_signed):
    """Quotient and remainder, rounded to zero."""
    if not is_signed:
        return a // b, a % b
    x, y = signed(a, width), signed(b, width)
    quotient = abs(x) // abs(y) * (1 if (x < 0) == (y < 0) else -1)
    return quotient & ones(width), (x - quotient * y) & ones(width)


def shifted_right(a, b, width):
    return (signed(a, width) >> min(b, width)) & ones(width)


def product(values, width):
    result = 1
    for value in values:
        result = result * value & ones(width)
    return result


def folded(combine):
    def fold(values, _width):
        result = values[0]
        for value in values[1:]:
            result = combine(result, value)
        return result
    return fold


VARIADIC = {
    "add": lambda values, width: sum(values) & ones(width),
    "mul": product,
    "and": folded(lambda a, b: a & b),
    "or": folded(lambda a, b: a | b),
    "xor": folded(lambda a, b: a ^ b),
}
BINARY = {
    "sub": lambda a, b, width: (a - b) & ones(width),
    "shl": lambda a, b, width: (a << b) & ones(width) if b < width else 0,
    "shru": lambda a, b, width: a >> b if b < width else 0,
    "shrs": shifted_right,
}
DIVISION = {
    "divu": lambda a, b, width: divided(a, b, width, False)[0],
    "modu": lambda a, b, width: divided(a, b, width, False)[1],
    "divs": lambda a, b, width: divided(a, b, width, True)[0],
    "mods": lambda a, b, width: divided(a, b, width, True)[1],
}
PREDICATES = {
    "eq": lambda a, b, width: a == b,
    "ne": lambda a, b, width: a != b,
    "ult": lambda a, b, width: a < b,
    "ule": lambda a, b, width: a <= b,
    "ugt": lambda a, b, width: a > b,
    "uge": lambda a, b, width: a >= b,
    "slt": lambda a, b, width: signed(a, width) < signed(b, width),
    "sle": lambda a, b, width: signed(a, width) <= signed(b, width),
    "sgt": lambda a, b, width: signed(a, width) > signed(b, width),
    "sge": lambda a, b, width: signed(a, width) >= signed(b, width),
}


def value_of(op, values, widths):
    """What an operation makes of the values of its operands."""
    if op.name in VARIADIC:
        return VARIADIC[op.name](values, op.width)
    if op.name in BINARY:
        return BINARY[op.name](*values, op.width)
    if op.name in DIVISION:
        return DIVISION[op.name](*values, op.width)
    if op.name == "icmp":
        return int(PREDICATES[op.more](*values, widths[0]))
    if op.name == "constant":
        return op.more
    if op.name == "mux":
        return values[1] if values[0] else values[2]
    if op.name == "concat":
        result = 0
        for value, width in zip(values, widths):
            result = result << width | value
        return result
    if op.name == "extract":
        return values[0] >> op.more & ones(op.width)
    if op.name == "replicate":
        return sum(values[0] << k for k in range(0, op.width, widths[0]))
    return values[0].bit_count() & 1  # parity


# ---- random modules


class Module:
    """A module of a number, with its inputs, operations, registers and outputs."""

    def __init__(self, number, chance):
        self.name, self.chance, self.widths = f"M{number}", chance, {}
        self.inputs = ["clk", "clk2", "rst", "rst2", "en"] + [f"a{k}" for k in range(chance.randrange(2, 6))]
        for name in self.inputs:
            self.widths[name] = 1 if name[0] != "a" else chance.choice(WIDTHS)
        self.ops, self.registers = [], []
        for k in range(chance.randrange(0, 4)):
            self.widths[f"r{k}"] = chance.choice(WIDTHS)
        held = [name for name in self.widths if name[0] == "r" and name not in self.inputs]
        for _ in range(chance.randrange(4, 25)):
            self.add_random()
        for name in held:
            self.add_register(name)
        values = [name for name in self.widths if not name.startswith("clk")]
        self.outputs = [values[-1]] + [chance.choice(values) for _ in range(chance.randrange(1, 4))]

    def add(self, name, width, operands, more=None):
        result = f"v{len(self.ops)}"
        self.ops.append(Op(result, width, name, operands, more))
        self.widths[result] = width
        return result

    def word(self, width):
        """A value of a width: one that is there, a zero extension, a part of one, or a constant."""
        values = [name for name in self.widths if not name.startswith("clk")]
        same = [name for name in values if self.widths[name] == width]
        narrow = [name for name in values if self.widths[name] < width]
        wide = [name for name in values if self.widths[name] > width]
        kind = self.chance.randrange(10)
        if narrow and kind < 5:
            one = self.chance.choice(narrow)
            zeros = self.add("constant", width - self.widths[one], [], 0)
            return self.add("concat", width, [zeros, one])
        if same and kind < 8:
            return self.chance.choice(same)
        if wide and kind < 9:
            one = self.chance.choice(wide)
            return self.add("extract", width, [one], self.chance.randrange(self.widths[one] - width + 1))
        return self.add("constant", width, [], self.chance.randrange(1 << width))

    def add_random(self):
        chance, width = self.chance, self.chance.choice(WIDTHS)
        kind = chance.randrange(12)
        if kind < 4:
            self.add(chance.choice(list(VARIADIC)), width, [self.word(width) for _ in range(chance.choice([2, 2, 2, 3]))])
        elif kind < 7:
            self.add(chance.choice(list(BINARY)), width, [self.word(width), self.word(width)])
        elif kind == 7:
            divisor = self.add("constant", width, [], chance.randrange(1, 1 << width))
            self.add(chance.choice(list(DIVISION)), width, [self.word(width), divisor])
        elif kind == 8:
            self.add("icmp", 1, [self.word(width), self.word(width)], chance.choice(list(PREDICATES)))
        elif kind == 9:
            self.add("mux", width, [self.word(1), self.word(width), self.word(width)])
        elif kind == 10:
            one = self.word(chance.choice([1, 2, 3, 4]))
            self.add("replicate", self.widths[one] * chance.randrange(1, 5), [one])
        else:
            self.add("parity", 1, [self.word(width)])

    def add_register(self, name):
        chance, width = self.chance, self.widths[name]
        is_async = chance.randrange(3) == 0
        value = self.add("constant", width, [], chance.randrange(1 << width))
        reset = chance.choice(["rst", "rst2"]) if is_async or chance.randrange(2) else None
        enable = "en" if not is_async and chance.randrange(2) else None
        self.registers.append(Register(name, width, chance.choice(["clk", "clk2"]), self.word(width), enable, reset, value, is_async))

    def text(self):
        """Its MLIR text (CIRCT documentation, "hw", "comb" and "seq" dialects)."""
        ports = [f"in %{n} : {'!seq.clock' if n.startswith('clk') else self.type(n)}" for n in self.inputs]
        ports += [f"out o{k} : {self.type(n)}" for k, n in enumerate(self.outputs)]
        lines = [f"hw.module @{self.name}({', '.join(ports)}) {{"]
        lines += [f"  %{op.result} = {self.op_text(op)}" for op in self.ops]
        lines += [f"  %{r.result} = {self.register_text(r)}" for r in self.registers]
        values = ", ".join(f"%{n}" for n in self.outputs)
        return "\n".join(lines + [f"  hw.output {values} : {', '.join(map(self.type, self.outputs))}", "}", ""])

    def type(self, name):
        return f"i{self.widths[name]}"

    def op_text(self, op):
        values = ", ".join(f"%{n}" for n in op.operands)
        types = ", ".join(map(self.type, op.operands))
        if op.name == "constant":
            value = ("false", "true")[op.more] if op.width == 1 else f"{op.more} : i{op.width}"
            return f"hw.constant {value}"
        if op.name == "icmp":
            return f"comb.icmp {op.more} {values} : {self.type(op.operands[0])}"
        if op.name == "concat":
            return f"comb.concat {values} : {types}"
        if op.name == "extract":
            return f"comb.extract {values} from {op.more} : ({types}) -> i{op.width}"
        if op.name == "replicate":
            return f"comb.replicate {values} : ({types}) -> i{op.width}"
        if op.name == "parity":
            return f"comb.parity {values} : {types}"
        return f"comb.{op.name} {values} : i{op.width}"

    def register_text(self, r):
        if r.is_async:
            return f"seq.firreg %{r.next} clock %{r.clock} reset async %{r.reset}, %{r.value} : i{r.width}"
        reset = f" reset %{r.reset}, %{r.value}" if r.reset else ""
        if r.enable:
            return f"seq.compreg.ce %{r.next}, %{r.clock}, %{r.enable}{reset} : i{r.width}"
        return f"seq.compreg %{r.next}, %{r.clock}{reset} : i{r.width}"

    def settled(self, values):
        for op in self.ops:
            operands = op.operands
            values[op.result] = value_of(op, [values[n] for n in operands], [self.widths[n] for n in operands])
        return values

    def run(self, content, steps):
        """The outputs of each step, from a content."""
        before, held, outputs = dict.fromkeys(self.inputs, 0), dict(content), []
        for inputs in steps:
            for r in self.registers:
                if r.is_async and inputs[r.reset] and not before[r.reset]:
                    held[r.result] = self.constant(r.value)
            values = self.settled({**inputs, **held})
            outputs.append([values[n] for n in self.outputs])
            held = {r.result: self.loaded(r, values) for r in self.registers}
            before = inputs
        return outputs

    def constant(self, name):
        return next(op.more for op in self.ops if op.result == name)

    @staticmethod
    def loaded(r, values):
        if not values[r.clock]:
            return values[r.result]
        if r.reset and values[r.reset]:
            return values[r.value]
        return values[r.next] if not r.enable or values[r.enable] else values[r.result]


# ---- simulation


def bench_text(modules, contents, steps):
    """A module that runs all modules side by side and prints their outputs, a line a step and module (IEEE 1364-2005)."""
    lines = ["module bench;"]
    for m in modules:
        lines += [f"  reg [{m.widths[n] - 1}:0] {m.name}_{n} = 0;" for n in m.inputs]
        lines += [f"  wire [{m.widths[n] - 1}:0] {m.name}_o{k};" for k, n in enumerate(m.outputs)]
        ports = [f".{n}({m.name}_{n})" for n in m.inputs] + [f".o{k}({m.name}_o{k})" for k in range(len(m.outputs))]
        lines.append(f"  {m.name} {m.name}({', '.join(ports)});")
    lines.append("  initial begin")
    lines.append("    #1;")
    for m in modules:
        lines += [f"    {m.name}.{name} = {m.widths[name]}'h{value:x};" for name, value in contents[m.name].items()]
    for k in range(STEPS):
        lines.append("    #1;")
        for m in modules:
            lines += [f"    {m.name}_{n} = {m.widths[n]}'h{value:x};" for n, value in steps[m.name][k].items() if not n.startswith("clk")]
        lines.append("    #1;")
        for m in modules:
            form = " ".join(["%h"] * len(m.outputs))
            lines.append(f'    $display("{form}", {", ".join(f"{m.name}_o{j}" for j in range(len(m.outputs)))});')
        for m in modules:
            lines += [f"    {m.name}_{n} = {steps[m.name][k][n]};" for n in m.inputs if n.startswith("clk")]
        lines.append("    #1;")
        for m in modules:
            lines += [f"    {m.name}_{n} = 0;" for n in m.inputs if n.startswith("clk")]
    return "\n".join(lines + ["    $finish;", "  end", "endmodule", ""])


def simulated(command, verilog, bench, folder):
    """The lines that a simulator prints of a text and its bench."""
    text, program = folder / "text.v", folder / "text.vvp"
    text.write_text(verilog + bench)
    subprocess.run([command, "-g2005", "-gno-xtypes", "-gno-icarus-misc", "-s", "bench", "-o", program, text], check=True)
    return subprocess.run([pathlib.Path(command).parent / "vvp" if "/" in command else "vvp", program], check=True, text=True,
                          capture_output=True).stdout.split("\n")


def expected(modules, contents, steps):
    """The lines that the operations say."""
    runs = {m.name: m.run(contents[m.name], steps[m.name]) for m in modules}
    return [" ".join(f"{value:0{(m.widths[n] + 3) // 4}x}" for value, n in zip(runs[m.name][k], m.outputs)) for k in range(STEPS) for m in modules]


def random_steps(chance, module):
    return [{n: chance.randrange(1 << module.widths[n]) if n[:3] != "clk" else int(chance.randrange(4) > 0) for n in module.inputs}
            for _ in range(STEPS)]


def check_modules(program, command, first, seed, folder):
    """How many lines of a text of modules differ from what the operations say, in both forms; it prints the first one of each form."""
    chance = random.Random(f"{seed} {first}")
    modules = [Module(first + k, chance) for k in range(MODULES_A_TEXT)]
    contents = {m.name: {r.result: chance.randrange(1 << r.width) for r in m.registers} for m in modules}
    steps = {m.name: random_steps(chance, m) for m in modules}
    source, wanted, others = "".join(m.text() for m in modules), expected(modules, contents, steps), 0
    for form in FORMS:
        words = [program, "translate", "--export-verilog", *form]
        verilog = subprocess.run(words, input=source, text=True, capture_output=True, check=True).stdout
        lines = simulated(command, verilog, bench_text(modules, contents, steps), folder)[:len(wanted)]
        different = [k for k, line in enumerate(wanted) if k >= len(lines) or lines[k] != line]
        others += len(different)
        if different:
            k = different[0]
            print(f"{' '.join(words[1:])}: seed {seed}, {modules[k % len(modules)].name}, step {k // len(modules)}: "
                  f"{lines[k] if k < len(lines) else 'nothing'}, not {wanted[k]}", flush=True)
    return others


def main():
    program = support.program_word(__doc__)
    count, seed = support.number_word(2, 1000), support.number_word(3, 1)
    command = sys.argv[4] if len(sys.argv) > 4 else "iverilog"
    others = 0
    with tempfile.TemporaryDirectory() as folder:
        for first in range(0, count, MODULES_A_TEXT):
            others += check_modules(program, command, first, seed, pathlib.Path(folder))
    print(f"{count} modules, {STEPS} steps, {len(FORMS)} forms: {others} lines differ")
    sys.exit(others > 0)


if __name__ == "__main__":
    main()
