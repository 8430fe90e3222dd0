#!/usr/bin/env python3
"""Exports random modules as texts in the AIGER format, and asks of them what this script, ABC and Yosys say of the modules.

    check_aiger.py PROGRAM [MODULES [SEED]]     by default 500 modules, seed 1; those of `berkeley-abc` and `yosys` that are there

The modules are those of simulate_verilog.py, one in each text. Of each it asks:

* the text runs as the operations say: the bits of 12 steps in which the clock rises, from random content;
* variables stand in order and literals fall, as the binary form has it, and the names of bits are those of the ports;
* ABC reads it (in the binary form, which is made here) and Yosys reads it;
* what passes make of the module is exported too: `lec` and ABC's `cec` say the same of both, and so of a copy with one operation changed;
* the text is imported, that is exported again, and runs as before; what ABC and Yosys write of it (after `dc2` and `aigmap`) too.

A module is refused with A2 where registers have two clocks, with A3 where one has an asynchronous reset; both are counted.
"""
import collections
import pathlib
import random
import re
import shutil
import subprocess
import sys
import tempfile

sys.dont_write_bytecode = True
import aiger
import simulate_verilog
import support

STEPS = 12


class Case:
    """A random module with its exported text."""

    def __init__(self, program, folder, number, seed):
        self.program, self.folder = program, folder
        self.chance = random.Random(f"{seed} {number}")
        self.module = simulate_verilog.Module(number, self.chance)
        self.source = self.module.text()

    def run(self, words, text):
        """What the program prints of a text, and its error message."""
        done = subprocess.run([self.program, *words, "-"], input=text, text=True, capture_output=True)
        return done.stdout, done.stderr, done.returncode

    def exported(self, text, *passes):
        return self.run(["translate", *passes, "--export-aiger"], text)

    def clocks(self):
        return {r.clock for r in self.module.registers}

    def expected_refusal(self):
        """The code of the refusal that the registers ask for."""
        if len(self.clocks()) > 1:
            return "A2"
        return "A3" if any(r.is_async for r in self.module.registers) else None


def bits(value, width):
    """The bits of a value, the highest first."""
    return [value >> k & 1 for k in reversed(range(width))]


def free_inputs(module):
    return [name for name in module.inputs if not name.startswith("clk")]


def run_of(module, content, steps):
    """The outputs of each step, as bits, by what the operations say."""
    runs = module.run(content, [{**step, "clk": 1, "clk2": 1} for step in steps])
    return [[bit for value, name in zip(values, module.outputs) for bit in bits(value, module.widths[name])] for values in runs]


def run_of_tree(tree, module, content, steps):
    """The outputs of each step, as bits, by the gates."""
    held = [bit for r in module.registers for bit in bits(content[r.result], r.width)]
    given = []
    for step in steps:
        inputs = [bit for name in free_inputs(module) for bit in bits(step[name], module.widths[name])]
        outputs, held = aiger.step(tree, inputs, held)
        given.append(outputs)
    return given


def expected_names(module):
    """The names of bits, by letter and number."""
    names = {}
    groups = {"i": [(name, module.widths[name]) for name in free_inputs(module)],
              "l": [(r.result, r.width) for r in module.registers],
              "o": [(f"o{k}", module.widths[name]) for k, name in enumerate(module.outputs)]}
    for letter, group in groups.items():
        each = [f"{name}[{k}]" for name, width in group for k in reversed(range(width))]
        names.update((f"{letter}{k}", name) for k, name in enumerate(each))
    return names


def changed(case):
    """The text of the module with one operation of two operands changed, or nothing."""
    places = [m for m in re.finditer(r"comb\.(add|sub|and|or|xor)\b", case.source)]
    if not places:
        return None
    place = case.chance.choice(places)
    other = case.chance.choice([name for name in ("add", "sub", "and", "or", "xor") if name != place.group(1)])
    if case.source[place.end() :].split("\n")[0].count(",") != 1:
        return None
    return case.source[: place.start()] + f"comb.{other}" + case.source[place.end() :]


def abc(commands):
    return subprocess.run(["berkeley-abc", "-c", commands], text=True, capture_output=True).stdout


def verdict_of_abc(left, right):
    """Whether ABC says that two binary texts agree; nothing where it does not know."""
    said = abc(f"cec -n -C 100000 {left} {right}")
    if "Networks are equivalent" in said:
        return "=="
    return "!=" if "NOT EQUIVALENT" in said else None


def verdict_of_lec(case, left, right):
    """What `lec` says of two texts."""
    for name, text in (("l.mlir", left), ("r.mlir", right)):
        (case.folder / name).write_text(text)
    said = subprocess.run([case.program, "lec", case.folder / "l.mlir", case.folder / "r.mlir", "-c1", case.module.name, "-c2", case.module.name],
                          text=True, capture_output=True).stdout
    first = said.split("\n")[0]
    return next((verdict for verdict in ("==", "!=") if f" {verdict} " in first), None)


def write_binary(case, name, tree):
    path = case.folder / name
    path.write_bytes(aiger.binary_bytes(tree))
    return path


def check_pair(case, tree, text, counts, what):
    """Compares the verdicts on the module and another text of it."""
    other, _, status = case.exported(text)
    if status:
        counts[f"{what}: not exported"] += 1
        return []
    own = verdict_of_lec(case, case.source, text)
    theirs = verdict_of_abc(write_binary(case, "l.aig", tree), write_binary(case, "r.aig", aiger.read_text(other)))
    counts[f"{what}: lec {own}, ABC {theirs}"] += 1
    return [f"{what}: lec says {own}, ABC {theirs}"] if own and theirs and own != theirs else []


def check_again(case, text, content, steps, wanted, what):
    """Imports a text, exports what comes and runs it."""
    imported, said, status = case.run(["translate", "--import-aiger"], text)
    if status:
        return [f"{what} is not imported: {said}"]
    again, said, status = case.exported(imported)
    if status:
        return [f"{what} is not exported again: {said}"]
    got = run_of_tree(aiger.read_text(again), case.module, content, steps)
    return [] if got == wanted else [f"{what} runs otherwise when it is imported"]


def written_by_abc(case, tree):
    """What ABC writes of a tree after it changed it."""
    out = case.folder / "w.aig"
    abc(f"read_aiger {write_binary(case, 'l.aig', tree)}; strash; dc2; write_aiger {out}")
    return aiger.ascii_text(aiger.read_binary(out.read_bytes()))


def written_by_yosys(case, text):
    """What Yosys writes of a text, by its own cells; it says the clock by itself."""
    (case.folder / "y.aag").write_text(text)
    out = case.folder / "w.aag"
    words = f"read_aiger -clk_name clock {case.folder / 'y.aag'}; opt -purge; aigmap; write_aiger -ascii -symbols {out}"
    done = subprocess.run(["yosys", "-q", "-p", words], text=True, capture_output=True)
    return out.read_text() if done.returncode == 0 else None


def places_of(tree, names):
    """The places of the inputs, latches and outputs of a tree among those of these names; nothing where an output is missing."""
    found = [[], [], []]
    for part, letter, own in zip(found, "ilo", (tree.inputs, tree.latches, tree.outputs)):
        numbers = {name: int(head[1:]) for head, name in names.items() if head[0] == letter}
        part += [numbers.get(tree.names.get(f"{letter}{k}")) for k in range(len(own))]
    count = sum(head[0] == "o" for head in names)
    if None in found[0] + found[1] + found[2] or sorted(found[2]) != list(range(count)):
        return None
    return found


def check_yosys(case, text, names, content, steps, wanted):
    """Imports what Yosys wrote, where it kept all names; it sorts them, and drops inputs and latches that nobody uses."""
    places = places_of(aiger.read_text(text), names)
    if places is None:
        return False, []
    imported, said, status = case.run(["translate", "--import-aiger"], text)
    again, _, _ = case.exported(imported)
    if status:
        return True, [f"Yosys's text is not imported: {said}"]
    tree = aiger.read_text(again)
    held = [bit for r in case.module.registers for bit in bits(content[r.result], r.width)]
    held = [held[k] for k in places[1]]
    for step, row in zip(steps, wanted):
        inputs = [bit for name in free_inputs(case.module) for bit in bits(step[name], case.module.widths[name])]
        outputs, held = aiger.step(tree, [inputs[k] for k in places[0]], held)
        if outputs != [row[k] for k in places[2]]:
            return True, ["Yosys's text runs otherwise when it is imported"]
    return True, []


def check_case(case, counts):
    """What is wrong of a case."""
    text, said, status = case.exported(case.source)
    refusal = case.expected_refusal()
    if refusal:
        counts[refusal] += 1
        return [] if status == 1 and f" {refusal}: " in said else [f"{refusal} was expected: {status} {said}"]
    if status:
        return [f"is not exported: {said}"]
    tree, module = aiger.read_text(text), case.module
    content = {r.result: case.chance.randrange(1 << r.width) for r in module.registers}
    steps = [{name: case.chance.randrange(1 << module.widths[name]) for name in module.inputs} for _ in range(STEPS)]
    wanted, wrong = run_of(module, content, steps), []
    if run_of_tree(tree, module, content, steps) != wanted:
        wrong.append("the text runs otherwise")
    if not aiger.is_in_order(tree):
        wrong.append("the variables stand in another order")
    if tree.names != expected_names(module):
        wrong.append(f"names are {tree.names}")
    counts["exported"] += 1
    wrong += check_again(case, text, content, steps, wanted, "the text")
    if shutil.which("berkeley-abc"):
        wrong += check_again(case, written_by_abc(case, tree), content, steps, wanted, "ABC's text")
        passed, _, _ = case.run(["opt", "--canonicalize", "--cse"], case.source)
        wrong += check_pair(case, tree, passed, counts, "after passes")
        other = changed(case)
        if other:
            wrong += check_pair(case, tree, other, counts, "changed")
    if shutil.which("yosys"):
        theirs = written_by_yosys(case, text)
        counts["read by Yosys"] += theirs is not None
        if theirs is None:
            wrong.append("Yosys does not read it")
        else:
            is_run, faults = check_yosys(case, theirs, tree.names, content, steps, wanted)
            counts["written by Yosys, imported and run"] += is_run
            wrong += faults
    return wrong


def main():
    program = support.program_word(__doc__)
    modules, seed = support.number_word(2, 500), support.number_word(3, 1)
    counts, number, faults = collections.Counter(), 0, 0
    with tempfile.TemporaryDirectory() as name:
        while counts["exported"] < modules and faults < 10:
            case = Case(program, pathlib.Path(name), number, seed)
            for line in check_case(case, counts):
                faults += 1
                print(f"module {number} of seed {seed}: {line}\n{case.source}", flush=True)
            number += 1
    for what, count in sorted(counts.items()):
        print(f"{what}: {count}")
    print(f"{number} modules, {faults} faults")
    return 1 if faults else 0


if __name__ == "__main__":
    sys.exit(main())
