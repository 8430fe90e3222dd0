#!/usr/bin/env python3
"""Refuses each allocation of the program in turn, and asks that it ends as it should.

    check_memory.py PROGRAM [RANDOM [WORD..]]     by default 2000 runs at random places; only command lines that have all of the words

Each command line runs once as it is. Then, for each number N up to its allocations and one more, it runs with the Nth refused, and
with the Nth and all that follow refused (`fail_allocation.c`, which is built first; the GNU C library and `cc` are needed). Each of
these ends

* as the run without refusals, byte for byte, on both outputs, by its status and in its files, or
* by status 7 with the line `circt: out of memory` and nothing on the output, the files being as they were; with `--proof`, the
  first of the two files may have its whole text.

With several workers N is no one place, so those lines run with random N instead. As many runs go side by side as there are
processors. It prints a row for each command line, and each run that ends otherwise.
"""
import concurrent.futures
import os
import pathlib
import random
import shutil
import subprocess
import sys
import tempfile

sys.dont_write_bytecode = True
import support

EXAMPLES = support.TOP / "examples"
SECONDS = 60

# A command line, and the example that is its standard input.
LINES = [
    ("opt", "adder.mlir"),
    ("opt adder.mlir -o made.mlir", None),
    ("opt adder.mlir -o adder.mlir", None),
    ("opt --canonicalize --cse --mlir-disable-threading", "two_registers.mlir"),
    ("opt --seq-lower-regs --hw-lower-aggregates --workers 1", "two_registers.mlir"),
    ("opt --pass-pipeline=builtin.module(hw-flatten-modules,symbol-dce) --workers 1", "equivalence.mlir"),
    ("opt --split-input-file", "split.mlir"),
    ("translate --export-verilog --workers 1", "adder.mlir"),
    ("translate --export-verilog --workers 1", "two_registers.mlir"),
    ("translate --export-verilog --workers 1 equivalence.mlir -o made.v", None),
    ("lec equivalence.mlir -c1 p -c2 q", None),
    ("lec equivalence.mlir -c1 r -c2 s", None),
    ("lec equivalence.mlir - -c1 p -c2 q --conflict-limit 1", "equivalence.mlir"),
    ("lec two_registers.mlir -c1 no -c2 other", None),
    ("lec equivalence.mlir -c1 p -c2 q --proof made", None),
    ("sim two_registers.mlir steps --top Two", None),
    ("sim two_registers.mlir bad_steps --top Two", None),
    ("translate --export-aiger --workers 1", "adder.mlir"),
    ("translate --export-aiger --canonicalize --workers 1 two_registers.mlir -o made.aag", None),
    ("translate --export-aiger equivalence.mlir", None),
    ("translate --import-aiger --workers 1 register.aag", None),
    ("translate --import-aiger --canonicalize --workers 1 register.aag -o made.mlir", None),
    ("translate --import-aiger adder.mlir", None),
    ("gen 7 3 --workers 1", None),
    ("gen 7 3 --verilog --workers 1 -o made.v", None),
    ("opt none.mlir", None),
    ("opt --unknown", None),
    ("opt refused.mlir", None),
]
WITH_WORKERS = [
    ("opt --canonicalize --cse --workers 4", "equivalence.mlir"),
    ("translate --export-verilog --workers 4", "equivalence.mlir"),
    ("gen 7 8 --verilog --workers 4", None),
]
CHECKED = [("check made.cnf made", None)]
REFUSED = b"hw.module @A(in %a : i8, out c : i8) {\n  %0 = comb.add %a, %b : i8\n  hw.output %0 : i8\n}\n"
REGISTER = b"aag 3 1 1 1 1\n2\n4 6 4\n4\n6 2 5\ni0 d[0]\nl0 r[0]\no0 q[0]\n"
STEPS = b"state 8'h5 8'h6\n1'h1 1'h0 1'h1 8'h11\n1'h1 1'h0 1'h0 8'h22\n1'h1 1'h1 1'h0 8'h33\n1'h0 1'h1 1'h1 8'h44\n"
OUT_OF_MEMORY = (7, b"", b"circt: out of memory\n")


def make_inputs(folder, _program):
    """The files that the command lines name."""
    for example in EXAMPLES.glob("*.mlir"):
        shutil.copy(example, folder)
    (folder / "refused.mlir").write_bytes(REFUSED)
    (folder / "register.aag").write_bytes(REGISTER)
    (folder / "steps").write_bytes(STEPS)
    (folder / "bad_steps").write_bytes(STEPS + b"1'h1\n")
    (folder / "made").write_bytes(b"as it was\n")
    (folder / "made.v").write_bytes(b"as it was\n")


def make_proof(folder, program):
    """The same, with a proof and its formula."""
    make_inputs(folder, program)
    subprocess.run([program, "lec", "equivalence.mlir", "-c1", "p", "-c2", "q", "--proof", "made"], cwd=folder, check=True,
                   stdout=subprocess.DEVNULL)


def contents(folder):
    return {path.name: path.read_bytes() for path in folder.iterdir()}


class Question:
    """A command line with what it does when nothing is refused."""

    def __init__(self, program, shim, line, source, make):
        self.program, self.shim, self.line, self.make = program, shim, line, make
        self.source = (EXAMPLES / source).read_bytes() if source else b""
        self.before, self.answer, self.after = self.run({})
        self.allocations = self.count()

    def run(self, refusal):
        with tempfile.TemporaryDirectory() as name:
            folder = pathlib.Path(name)
            self.make(folder, self.program)
            before = contents(folder)
            environment = {**os.environ, "LD_PRELOAD": self.shim, **refusal}
            done = subprocess.run([self.program, *self.line.split()], cwd=folder, input=self.source, env=environment,
                                  stdout=subprocess.PIPE, stderr=subprocess.PIPE, timeout=SECONDS)
            return before, (done.returncode, done.stdout, done.stderr), contents(folder)

    def count(self):
        with tempfile.NamedTemporaryFile() as file:
            self.run({"COUNT_FILE": file.name})
            return int.from_bytes(file.read(), sys.byteorder)

    def files_are_kept(self, after):
        """Whether the files are as they were; of a proof the first one may be whole."""
        if after == self.before:
            return True
        whole = {**self.before, "made.cnf": self.after.get("made.cnf")}
        return "--proof" in self.line and after == whole

    def fault(self, refusal):
        """What is wrong with a run, if anything."""
        _, answer, after = self.run(refusal)
        if answer == self.answer and after == self.after:
            return None
        if answer == OUT_OF_MEMORY and self.files_are_kept(after):
            return None
        return f"{self.line}, {refusal}: {answer}"


def report(question, refusals, pool):
    faults = [fault for fault in pool.map(question.fault, refusals) if fault]
    print(f"{question.allocations:8} allocations, {len(refusals):6} runs, {len(faults):4} otherwise: {question.line}", flush=True)
    for fault in faults[:20]:
        print("    " + fault)
    return len(refusals), len(faults)


def each_in_turn(question):
    numbers = range(1, question.allocations + 2)
    return [{kind: str(number)} for kind in ("FAIL_AT", "FAIL_FROM") for number in numbers]


def at_random(question, count):
    chance = random.Random(1)
    return [{chance.choice(["FAIL_AT", "FAIL_FROM"]): str(chance.randrange(1, question.allocations + 2))} for _ in range(count)]


def main():
    program = os.path.abspath(support.program_word(__doc__))
    count = support.number_word(2, 2000)
    words = sys.argv[3:]
    runs, faults = 0, 0
    with tempfile.TemporaryDirectory() as folder, concurrent.futures.ThreadPoolExecutor(os.cpu_count()) as pool:
        shim = os.path.join(folder, "fail_allocation.so")
        subprocess.run(["cc", "-O2", "-shared", "-fPIC", "-o", shim, str(support.TOP / "bench" / "fail_allocation.c")], check=True)
        for lines, make, refusals in ((LINES, make_inputs, each_in_turn), (CHECKED, make_proof, each_in_turn),
                                      (WITH_WORKERS, make_inputs, lambda q: at_random(q, count // len(WITH_WORKERS)))):
            for line, source in lines:
                if all(word in line.split() for word in words):
                    question = Question(program, shim, line, source, make)
                    more, wrong = report(question, refusals(question), pool)
                    runs, faults = runs + more, faults + wrong
    print(f"{runs} runs, {faults} end otherwise")
    return faults > 0


if __name__ == "__main__":
    sys.exit(main())
