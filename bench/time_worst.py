#!/usr/bin/env python3
"""What every command costs on texts that are dear for their size.

    time_worst.py PROGRAM [ROUNDS [MEGABYTES..]]     by default 1 round, at 1, 4, 16 and 64 MB

Each text is about so many MB long: a body in reverse (each operation uses the one after it), ports, one long name, arrays in arrays,
modules whose outputs depend on many inputs, a chain of operations, many small modules. `sim` runs ten steps of the first module. Then
texts of `check`: a formula of many clauses, a proof of many steps, a proof of one step with a hint for each clause of its formula.
Where the text has no module that a command may take (a design whose weight is too great is refused), or a run wants more than 8 GB, its
status stands behind its cost. A row for each text and size, with seconds of the processor and MB of peak memory for each command, of
which those of this script are the least. WORST.md has the rows of a run.
"""
import os
import pathlib
import resource
import subprocess
import sys
import tempfile

sys.dont_write_bytecode = True
import support

# What a run may take, in bytes.
MEMORY = 8 << 30

COMMANDS = [
    ("opt", "opt"),
    ("passes", "opt --canonicalize --cse"),
    ("flatten", "opt --hw-lower-aggregates --hw-flatten-modules --symbol-dce"),
    ("translate", "translate --export-verilog"),
    ("export", "translate --export-aiger"),
    ("lec", "lec - -c1 T -c2 T --conflict-limit 1000"),
    ("sim", "sim - STEPS --top T"),
]
# Each of so many steps has the same inputs.
STEPS = 10


def reverse(size, write):
    """Each operation uses the one after it."""
    count = size // 30
    write("hw.module @T(in %a : i8, out o : i8) {\n")
    for number in range(count):
        write(f"  %{number} = comb.sub %{number + 1}, %a : i8\n")
    write(f"  %{count} = comb.sub %a, %a : i8\n  hw.output %0 : i8\n}}\n")


def ports(size, write):
    """As many inputs as outputs."""
    count = size // 50
    inputs = ", ".join(f"in %a{i} : i1" for i in range(count))
    outputs = ", ".join(f"out o{i} : i1" for i in range(count))
    values = ", ".join(f"%a{i}" for i in range(count))
    write(f"hw.module @T({inputs}, {outputs}) {{\n  hw.output {values} : {', '.join(['i1'] * count)}\n}}\n")


def name(size, write):
    """A name that takes nearly all of the text."""
    write(f"hw.module @T(in %a : i8, out o : i8) {{\n  %{'n' * (size // 2)} = comb.sub %a, %a : i8\n")
    write(f"  hw.output %{'n' * (size // 2)} : i8\n}}\n")


def nesting(size, write):
    """Arrays in arrays, as many as there may be by weight, over and over."""
    ty = "!hw.array<1x" * 30 + "i8" + ">" * 30
    write(f"hw.module @T(in %a : {ty}, out o : {ty}) {{\n  hw.output %a : {ty}\n}}\n")
    for number in range(size // (3 * len(ty))):
        write(f"hw.module @N{number}(in %a : {ty}, out o : {ty}) {{\n  hw.output %a : {ty}\n}}\n")


def dependence(size, write):
    """Outputs of which each depends on each input, of modules with 1,600 of both, or as many as the size gives."""
    count = min(1600, size // 60)
    ins = ", ".join(f"in %a{i} : i1" for i in range(count))
    outs = ", ".join(f"out o{i} : i1" for i in range(count))
    for number in range(max(1, size // (60 * count))):
        write(f"hw.module @{'T' if number == 0 else f'D{number}'}({ins}, {outs}) {{\n")
        write(f"  %0 = comb.xor {', '.join(f'%a{i}' for i in range(count))} : i1\n")
        write(f"  hw.output {', '.join(['%0'] * count)} : {', '.join(['i1'] * count)}\n}}\n")


def chain(size, write):
    """Each operation uses the one before it."""
    count = size // 30
    write("hw.module @T(in %a : i8, out o : i8) {\n  %0 = comb.sub %a, %a : i8\n")
    for number in range(1, count):
        write(f"  %{number} = comb.sub %{number - 1}, %a : i8\n")
    write(f"  hw.output %{count - 1} : i8\n}}\n")


def modules(size, write):
    """Small modules."""
    write("hw.module @T(in %a : i8, out o : i8) {\n  hw.output %a : i8\n}\n")
    for number in range(size // 60):
        write(f"hw.module @M{number}(in %a : i8, out o : i8) {{\n  hw.output %a : i8\n}}\n")


# Each text, with how many inputs its module T has at a size, and a value of one.
TEXTS = [
    (reverse, lambda size: 1, "8'h1"),
    (ports, lambda size: size // 50, "1'h1"),
    (name, lambda size: 1, "8'h1"),
    (nesting, lambda size: 1, "8'h1"),
    (dependence, lambda size: min(1600, size // 60), "1'h1"),
    (chain, lambda size: 1, "8'h1"),
    (modules, lambda size: 1, "8'h1"),
]


def clauses(size, formula, proof):
    """Many clauses, and a proof of one step."""
    count = size // 24
    formula(f"p cnf {count + 2} {count + 2}\n1 0\n-1 0\n")
    for number in range(2, count + 2):
        formula(f"{number} {-number - 1} 1 0\n")
    proof(f"{count + 3} 0 1 2 0\n")


def steps(size, formula, proof):
    """A formula of two clauses, and a proof of many steps."""
    count = size // 17
    formula("p cnf 2 2\n1 0\n-1 0\n")
    for number in range(3, count + 3):
        proof(f"{number} 1 2 0 1 0\n")
    proof(f"{count + 3} 0 1 2 0\n")


def hints(size, formula, proof):
    """A chain of implications, and a proof of one step that follows it."""
    count = size // 24
    formula(f"p cnf {count} {count + 1}\n1 0\n")
    for number in range(1, count):
        formula(f"{-number} {number + 1} 0\n")
    formula(f"{-count} 0\n")
    proof(f"{count + 2} 0 {' '.join(str(number) for number in range(1, count + 2))} 0\n")


PROOFS = [clauses, steps, hints]


def gates_in_order(size, write):
    """Each gate uses the one before it."""
    count = size // 24
    write(f"aag {count + 1} 1 0 1 {count}\n2\n{2 * count + 2}\n")
    for number in range(2, count + 2):
        write(f"{2 * number} {2 * number - 1} 3\n")


def gates_in_reverse(size, write):
    """Each gate uses the one after it."""
    count = size // 24
    write(f"aag {count + 1} 1 0 1 {count}\n2\n4\n")
    for number in range(2, count + 2):
        write(f"{2 * number} {2 * number + 3 if number <= count else 3} 3\n")


def gates_and_a_cycle(size, write):
    """Gates that all need a cycle behind them, which alone is refused."""
    count = size // 24
    write(f"aag {count + 1} 1 0 1 {count}\n2\n4\n")
    for number in range(2, count + 2):
        write(f"{2 * number} {2 * number + 3 if number <= count else 2 * number} 3\n")


def latches(size, write):
    """Each latch takes the one after it."""
    count = size // 24
    write(f"aag {count + 1} 1 {count} 1 0\n2\n")
    for number in range(2, count + 2):
        write(f"{2 * number} {2 * number + 2 if number <= count else 2} {2 * number}\n")
    write("4\n")


def outputs(size, write):
    """Many outputs, all of one negated literal."""
    count = size // 3
    write(f"aag 1 1 0 {count} 0\n2\n" + "3\n" * count)


AIGER = [gates_in_order, gates_in_reverse, gates_and_a_cycle, latches, outputs]


def limit_memory():
    resource.setrlimit(resource.RLIMIT_AS, (MEMORY, MEMORY))


def cost(program, words, text, rounds):
    """What a command costs with a text as its input, with the status that it ends with where that is not 0."""
    best, status = None, 0
    for _ in range(rounds):
        with open(text, "rb") as source:
            child = subprocess.Popen([program, *words], stdin=source, stdout=subprocess.DEVNULL, stderr=subprocess.DEVNULL,
                                     preexec_fn=limit_memory)
            _, ended, usage = os.wait4(child.pid, 0)
        child.returncode = status = os.waitstatus_to_exitcode(ended)
        spent = usage.ru_utime + usage.ru_stime, usage.ru_maxrss / 1024
        best = min(best, spent) if best else spent
    return f"{best[0]:.2f} s {best[1]:.0f} MB" + (f" ({status})" if status else "")


def design_rows(program, rounds, sizes, folder):
    """The rows of the designs."""
    text, inputs = f"{folder}/text.mlir", f"{folder}/steps"
    commands = [[inputs if word == "STEPS" else word for word in words.split()] for _, words in COMMANDS]
    for make, count, value in TEXTS:
        for size in sizes:
            support.write_text(text, make, size * 1000000)
            line = " ".join([value] * count(size * 1000000)) + "\n"
            pathlib.Path(inputs).write_text("state\n" + line * STEPS, encoding="utf-8")
            cells = [cost(program, words, text, rounds) for words in commands]
            print(f"| {make.__name__} | {size} | " + " | ".join(cells) + " |", flush=True)


def proof_rows(program, rounds, sizes, folder):
    """The rows of the proofs."""
    formula, proof = f"{folder}/formula", f"{folder}/proof"
    for make in PROOFS:
        for size in sizes:
            with open(formula, "w", encoding="utf-8") as left, open(proof, "w", encoding="utf-8") as right:
                make(size * 1000000, left.write, right.write)
            print(f"| {make.__name__} | {size} | {cost(program, ['check', formula, proof], os.devnull, rounds)} |", flush=True)


def aiger_rows(program, rounds, sizes, folder):
    """The rows of texts in the AIGER format."""
    text = f"{folder}/text.aag"
    for make in AIGER:
        for size in sizes:
            support.write_text(text, make, size * 1000000)
            print(f"| {make.__name__} | {size} | {cost(program, ['translate', '--import-aiger'], text, rounds)} |", flush=True)


def main():
    program = support.program_word(__doc__)
    rounds = support.number_word(2, 1)
    sizes = [int(word) for word in sys.argv[3:]] or [1, 4, 16, 64]
    with tempfile.TemporaryDirectory() as folder:
        print("| text | MB | " + " | ".join(title for title, _ in COMMANDS) + " |")
        print("|---|---" + "|---" * len(COMMANDS) + "|")
        design_rows(program, rounds, sizes, folder)
        print("\n| proof | MB | check |\n|---|---|---|")
        proof_rows(program, rounds, sizes, folder)
        print("\n| text in the AIGER format | MB | import |\n|---|---|---|")
        aiger_rows(program, rounds, sizes, folder)


if __name__ == "__main__":
    main()
