#!/usr/bin/env python3
"""Asks that a number of workers changes nothing but times: the bytes, the error message and the status of each command with 2, 3 and 4 workers are those with one.

    check_workers.py PROGRAM [BROKEN [SEED]]     the program `circt`, 200 broken texts by default, seed 1

The texts are all examples, 10,000 modules, 100 modules of 3,000 operations, and texts that are broken: of one or the other, of at least 300 KB, a few bytes at
random places are left out, changed or put in, with parts of comments and strings among them, and the first line of a module in each.
"""
import random
import subprocess
import sys
import tempfile

sys.dont_write_bytecode = True
import generate_reader_texts
import support
import time_workers

COMMANDS = [
    ["opt"],
    ["opt", "--canonicalize", "--cse", "--seq-lower-regs"],
    ["opt", "--hw-flatten-modules", "--symbol-dce"],
    ["translate", "--export-verilog"],
]
# What is put into a text: ends of comments and strings, and what looks like a module's first line.
PIECES = [b"\n", b'"', b"//", b"}", b"{", b"%", b"\nhw.module @N() {\n", b'\n"\nhw.module @N() {\n', b"\n// \nhw.module ", b"\x80", b"hw.module @M1(", b"builtin.module {\n"]


def answer(program, command, workers, text):
    """What a command answers: its bytes, its error message, its status."""
    run = subprocess.run([program, *command, "--workers", str(workers)], input=text, capture_output=True, check=False)
    return run.stdout, run.stderr, run.returncode


def broken(text, rng):
    """The text with some bytes at random places left out, changed or put in."""
    text = bytearray(text)
    for _ in range(rng.randint(1, 3)):
        at = rng.randrange(len(text))
        kind = rng.randrange(3)
        if kind == 0:
            del text[at : at + rng.randint(1, 40)]
        elif kind == 1:
            text[at] = rng.choice(b'"%}{@: \n/x0')
        else:
            text[at:at] = rng.choice(PIECES)
    return bytes(text)


def made(make, count):
    """The text that a generator makes for a count."""
    parts = []
    make(count, parts.append)
    return "".join(parts).encode()


def texts(count, seed):
    """The texts, each with its name."""
    for file in sorted(support.EXAMPLES.rglob("*.mlir")):
        if not file.name.endswith(".opt.mlir"):
            for number, case in enumerate(support.cases_of(file)):
                yield f"{file.relative_to(support.EXAMPLES)} {number}", case.encode()
    many, large = made(generate_reader_texts.many_modules, 10000), made(time_workers.bodies, 100)
    yield "10,000 modules", many
    yield "100 modules of 3,000 operations", large
    rng = random.Random(seed)
    sources = [made(generate_reader_texts.many_modules, 1500), made(time_workers.bodies, 5)]
    for number in range(count):
        yield f"broken text {number}", broken(rng.choice(sources), rng)


def main():
    program = support.program_word("usage: check_workers.py PROGRAM [BROKEN [SEED]]")
    runs = differences = refused = 0
    for name, text in texts(support.number_word(2, 200), support.number_word(3, 1)):
        for command in COMMANDS:
            one = answer(program, command, 1, text)
            refused += one[2] != 0
            for workers in (2, 3, 4):
                runs += 1
                if answer(program, command, workers, text) != one:
                    differences += 1
                    print(f"{name}: {' '.join(command)} with {workers} workers differs")
    print(f"{runs} runs, {refused} of the texts and commands refused, {differences} differ from those with one worker")
    sys.exit(differences != 0)


if __name__ == "__main__":
    main()
