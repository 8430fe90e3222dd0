#!/usr/bin/env python3
"""Compares `opt --canonicalize --cse` with MLIR's own tool on like designs, in turn: processor times and peak memory.

    time_against_mlir_opt.py PROGRAM [MLIR_OPT] [ROUNDS]     the program `circt`; `mlir-opt-16` (Debian's mlir-16-tools) and 5 rounds by default

The designs are said twice, as modules of `comb` and as functions of `arith`:
    modules    10,000 of eight operations, in which nothing folds
    third      one of 100,000 operations, of which each third one folds
"""
import pathlib
import sys
import tempfile

sys.dont_write_bytecode = True
import generate_pass_texts
import generate_reader_texts
import support

# What stands at each third place of a function; each folds to the value before it.
FOLDED = [
    "arith.addi %{0}, %z : i32",
    "arith.muli %k, %{0} : i32",
    "arith.subi %{0}, %z : i32",
    "arith.shli %{0}, %z : i32",
    "arith.select %t, %{0}, %a : i32",
    "arith.ori %{0}, %{0} : i32",
]


def many_functions(count, write):
    """So many functions of eight operations."""
    for index in range(count):
        write(f"func.func @M{index}(%q: i32, %a: i32, %b: i32) -> (i32, i32) {{\n")
        write("  %0 = arith.addi %a, %b : i32\n  %1 = arith.trunci %0 : i32 to i8\n  %2 = arith.extsi %1 : i8 to i32\n")
        write("  %k = arith.constant -7 : i32\n  %3 = arith.cmpi ult, %2, %k : i32\n  %4 = arith.select %3, %0, %2 : i32\n")
        write("  %5 = arith.xori %4, %q : i32\n  func.return %4, %5 : i32, i32\n}\n")


def third(count, write):
    """A function of so many operations, of which each third one folds."""
    write("func.func @M(%a: i32, %b: i32) -> i32 {\n  %z = arith.constant 0 : i32\n  %k = arith.constant 1 : i32\n  %t = arith.constant true\n")
    write("  %0 = arith.muli %a, %b : i32\n")
    for number in range(1, count):
        before = number - 1
        if number % 3 == 0:
            row = FOLDED[number // 3 % len(FOLDED)].format(before)
        else:
            row = ("arith.subi %{0}, %b : i32", "arith.shli %{0}, %a : i32")[number % 2].format(before)
        write(f"  %{number} = {row}\n")
    write(f"  func.return %{count - 1} : i32\n}}\n")


TEXTS = {
    "modules": (generate_reader_texts.many_modules, many_functions, 10000),
    "third": (generate_pass_texts.third, third, 100000),
}


def measure(tools, name, rounds, folder):
    """Says the times of one design by both tools."""
    *makes, count = TEXTS[name]
    texts = [folder / str(number) for number in range(len(makes))]
    for text, make in zip(texts, makes):
        support.write_text(text, make, count)
    costs = support.costs_in_turn(rounds, [lambda words=words, text=text: support.run(words, text) for words, text in zip(tools, texts)])
    columns = (f"{cost.processor:>10.3f}{cost.memory:>8.0f}" for cost in costs)
    print(f"{name:10}" + "".join(columns) + f"{costs[1].processor / costs[0].processor:>8.2f}", flush=True)


def main():
    """Measures all designs."""
    program = support.program_word(__doc__)
    other = sys.argv[2] if len(sys.argv) > 2 else "mlir-opt-16"
    rounds = support.number_word(3, 5)
    flags = ["--canonicalize", "--cse"]
    tools = [[program, "opt", *flags, "--workers", "1"], [other, *flags, "--mlir-disable-threading"]]
    print(f"{'design':10}{'circt':>18}{'mlir-opt':>18}{'ratio':>8}")
    with tempfile.TemporaryDirectory() as folder:
        for name in TEXTS:
            measure(tools, name, rounds, pathlib.Path(folder))


if __name__ == "__main__":
    main()
