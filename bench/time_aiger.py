#!/usr/bin/env python3
"""What `translate --export-aiger` and `--import-aiger` cost, beside ABC and Yosys on the same texts.

    time_aiger.py PROGRAM [ROUNDS [SCALE]]     by default 3 rounds, all of the size; SCALE divides the modules and the gates

Two texts: that of 10,000 modules with a register each, as instances of one; and one of 1,000,000 gates in chains of 1,000 (with one
chain of all gates ABC ends by a signal where it reads, Yosys where it writes). The first is exported and imported, the second imported
and exported. Yosys reads the ASCII form and writes it again, or only reads it; ABC reads and writes the binary form, which is made here.
All run in turn. A row for each: seconds of the processor, MB of text a second (of the ASCII form), MB of memory.
"""
import os
import pathlib
import shutil
import sys
import tempfile

sys.dont_write_bytecode = True
import aiger
import support

PORTS = "in %clk : !seq.clock, in %en : i1, in %a : i8, in %b : i8"


def modules(count, write):
    """Modules with a register each, one after another."""
    for k in range(count):
        write(f"hw.module private @M{k}({PORTS}, out c : i8) {{\n  %z = hw.constant {k % 100} : i8\n  %0 = comb.add %a, %b : i8\n")
        write("  %1 = comb.xor %0, %q : i8\n  %q = seq.compreg.ce %1, %clk, %en : i8\n  %2 = comb.icmp ult %q, %z : i8\n")
        write("  %3 = comb.mux %2, %q, %1 : i8\n  hw.output %3 : i8\n}\n")
    write(f"hw.module @Top({PORTS}, out c : i8) {{\n")
    for k in range(count):
        before = f"%u{k - 1}.c" if k else "%a"
        write(f'  %u{k}.c = hw.instance "u{k}" @M{k}(clk: %clk: !seq.clock, en: %en: i1, a: {before}: i8, b: %b: i8) -> (c: i8)\n')
    write(f"  hw.output %u{count - 1}.c : i8\n}}\n")


def gates(count, write):
    """Chains of 1,000 gates over two inputs and a latch, of which each has an output; each fourth gate takes an inverted literal. Their
    design has less than 64 MiB."""
    length = min(1000, count)
    ends = [number + length + 3 for number in range(0, count, length)]
    write(f"aag {count + 3} 2 1 {len(ends)} {count}\n2\n4\n6 {2 * count + 6} 6\n" + "".join(f"{2 * end}\n" for end in ends))
    for k in range(4, count + 4):
        before = k - 1 if (k - 4) % length else 3
        write(f"{2 * k} {2 * before + (k % 4 == 0)} {2 + 2 * (k % 3)}\n")


def row(text, what, size, cost):
    print(f"| {text} | {what} | {cost.processor:.2f} | {size / 1e6 / max(cost.processor, 0.001):.0f} | {cost.memory:.0f} |", flush=True)


def measure(text, size, rounds, runs):
    """Rows of what each run costs, where all are made in turn, so many rounds; one that fails once is not made again."""
    costs = [[] for _ in runs]
    for _ in range(rounds):
        for own, (_, run) in zip(costs, runs):
            try:
                if None not in own:
                    own.append(run())
            except SystemExit:
                own.append(None)
    for (what, _), own in zip(runs, costs):
        if None in own:
            print(f"| {text} | {what} | fails | | |", flush=True)
        else:
            row(text, what, size, support.median_cost(own))


def others(aag, aig):
    """The runs of the other programs that are there."""
    made = []
    if shutil.which("yosys"):
        made.append(("yosys read_aiger", ["yosys", "-q", "-p", f"read_aiger {aag}"]))
        made.append(("yosys read_aiger, write_aiger -ascii", ["yosys", "-q", "-p", f"read_aiger {aag}; write_aiger -ascii {aag}.out"]))
    if shutil.which("berkeley-abc"):
        made.append(("ABC read_aiger", ["berkeley-abc", "-c", f"read_aiger {aig}"]))
        made.append(("ABC read_aiger, write_aiger", ["berkeley-abc", "-c", f"read_aiger {aig}; write_aiger {aig}.out"]))
    return [(what, lambda words=words: support.run(words, os.devnull)) for what, words in made]


def measure_text(program, name, mlir, aag, rounds):
    """The costs of a design's text and of its text in the AIGER format."""
    aig = aag.with_suffix(".aig")
    aig.write_bytes(aiger.binary_bytes(aiger.read_text(aag.read_text())))
    runs = [("--export-aiger", lambda: support.run([program, "translate", "--export-aiger", str(mlir)], os.devnull)),
            ("--import-aiger", lambda: support.run([program, "translate", "--import-aiger", str(aag)], os.devnull))]
    measure(f"{name}, {aag.stat().st_size / 1e6:.1f} MB", aag.stat().st_size, rounds, runs + others(aag, aig))


def main():
    program = os.path.abspath(support.program_word(__doc__))
    rounds, scale = support.number_word(2, 3), support.number_word(3, 1)
    print("| text | program | seconds | MB a second | MB |")
    print("|---|---|---|---|---|")
    with tempfile.TemporaryDirectory() as name:
        folder = pathlib.Path(name)
        support.write_text(folder / "m.mlir", modules, 10000 // scale)
        support.run([program, "translate", "--export-aiger", str(folder / "m.mlir")], os.devnull, folder / "m.aag")
        measure_text(program, f"{10000 // scale} modules", folder / "m.mlir", folder / "m.aag", rounds)
        support.write_text(folder / "g.aag", gates, 1000000 // scale)
        support.run([program, "translate", "--import-aiger", str(folder / "g.aag")], os.devnull, folder / "g.mlir")
        measure_text(program, f"{1000000 // scale} gates", folder / "g.mlir", folder / "g.aag", rounds)


if __name__ == "__main__":
    main()
