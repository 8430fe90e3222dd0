#!/usr/bin/env python3
"""Measures what workers gain: the times by the clock of the same commands with 1, 2 and 4 workers, in turn, on designs of many modules.

    time_workers.py PROGRAM [ROUNDS]     the program `circt`, 5 rounds by default

The designs are
    modules    the 10,000 modules of generate_reader_texts.py
    bodies     100 modules of 3,000 operations each, of which each third one folds
    line       1,000 modules of 300 such operations, each of which instances the one before it
    pairs      1,000 public modules, each of which instances a private one of 300 such operations twice
The commands are `opt` without passes (which no worker shares), `opt --canonicalize --cse`, `translate --export-verilog` with these
passes, and on the last design `opt --hw-flatten-modules`. Beside the medians stands the peak memory in MB.
"""
import pathlib
import sys
import tempfile

sys.dont_write_bytecode = True
import generate_reader_texts
import support
from generate_pass_texts import FOLDED

HEADER = "(in %a : i32, in %b : i32, out o : i32) {\n  %z = hw.constant 0 : i32\n  %k = hw.constant 1 : i32\n  %t = hw.constant true\n  %0 = comb.mul %a, %b : i32\n"


def body(name, count, last, write):
    """A module of so many operations, of which each third one folds; `last` stands before its output."""
    write(f"hw.module @{name}{HEADER}")
    for number in range(1, count):
        row = FOLDED[number // 3 % len(FOLDED)] if number % 3 == 0 else ("sub %{0}, %b", "shl %{0}, %a")[number % 2]
        write(f"  %{number} = comb.{row.format(number - 1)} : i32\n")
    write(f"{last}  hw.output %{'u.o' if last else count - 1} : i32\n}}\n")


def bodies(count, write):
    """So many modules of 3,000 operations."""
    for number in range(count):
        body(f"M{number}", 3000, "", write)


def line(count, write):
    """So many modules of 300 operations, each of which instances the one before it."""
    for number in range(count):
        last = f'  %u.o = hw.instance "u" @M{number - 1}(a: %299: i32, b: %b: i32) -> (o: i32)\n' if number else ""
        body(f"M{number}", 300, last, write)


def pairs(count, write):
    """So many public modules, each of which instances a private one of 300 operations twice."""
    for number in range(count):
        body(f"P{number}", 300, "", lambda text: write(text.replace("hw.module @", "hw.module private @")))
        write(f"hw.module @M{number}(in %a : i32, in %b : i32, out o : i32) {{\n")
        write(f'  %u.o = hw.instance "u" @P{number}(a: %a: i32, b: %b: i32) -> (o: i32)\n')
        write(f'  %v.o = hw.instance "v" @P{number}(a: %u.o: i32, b: %b: i32) -> (o: i32)\n')
        write("  hw.output %v.o : i32\n}\n")


TEXTS = {"modules": (generate_reader_texts.many_modules, 10000), "bodies": (bodies, 100), "line": (line, 1000), "pairs": (pairs, 1000)}
COMMANDS = {
    "opt": ["opt"],
    "passes": ["opt", "--canonicalize", "--cse"],
    "verilog": ["translate", "--export-verilog", "--canonicalize", "--cse"],
}
FLATTEN = {"opt": ["opt"], "flatten": ["opt", "--hw-flatten-modules"]}
WORKERS = [1, 2, 4]


def measure(program, name, rounds, folder):
    """Says the times of one design."""
    text = folder / "text"
    support.write_text(text, *TEXTS[name])
    for command, words in (FLATTEN if name == "pairs" else COMMANDS).items():
        runs = [lambda count=count: support.run([program, *words, "--workers", str(count)], text) for count in WORKERS]
        columns = (f"{cost.clock:>10.3f}{cost.memory:>8.0f}" for cost in support.costs_in_turn(rounds, runs))
        print(f"{name:10}{command:10}" + "".join(columns), flush=True)


def main():
    """Measures all designs."""
    program = support.program_word(__doc__)
    rounds = support.number_word(2, 5)
    print(f"{'design':10}{'command':10}" + "".join(f"{f'{count} workers':>18}" for count in WORKERS))
    with tempfile.TemporaryDirectory() as folder:
        for name in TEXTS:
            measure(program, name, rounds, pathlib.Path(folder))


if __name__ == "__main__":
    main()
