#!/usr/bin/env python3
"""Measures what the lowering of aggregates costs: the times by the clock of the same commands, in turn, on a design with aggregates and
on the same design with its aggregates lowered beforehand.

    time_lowering.py PROGRAM [MODULES [ROUNDS]]     the program `circt`, 10,000 modules and 5 rounds by default

The designs are
    modules    modules with a struct port, a register of an array and an array_get each
    array      one module with an array of 1,024 elements and an array_get
The commands are `translate --export-verilog`, and `opt --hw-lower-aggregates` on the first of the two alone. Beside the medians stands the
peak memory in MB, and the ratio of the first to the second.
"""
import pathlib
import subprocess
import sys
import tempfile

sys.dont_write_bytecode = True
import support

MODULE = """hw.module @M{number}(in %clk : !seq.clock, in %s : !hw.struct<x: i8, i: i2>, in %d : !hw.array<4xi8>, out q : i8) {{
  %r = seq.compreg %d, %clk : !hw.array<4xi8>
  %i = hw.struct_extract %s["i"] : !hw.struct<x: i8, i: i2>
  %x = hw.struct_extract %s["x"] : !hw.struct<x: i8, i: i2>
  %0 = hw.array_get %r[%i] : !hw.array<4xi8>, i2
  %1 = comb.add %0, %x : i8
  hw.output %1 : i8
}}
"""
ARRAY = """hw.module @A(in %a : !hw.array<1024xi4>, in %i : i10, out q : i4) {
  %0 = hw.array_get %a[%i] : !hw.array<1024xi4>, i10
  hw.output %0 : i4
}
"""


def measure(program, name, text, rounds, folder):
    """Says the times of one design."""
    before, after = folder / "before.mlir", folder / "after.mlir"
    before.write_text(text)
    lowered = subprocess.run([program, "opt", "--hw-lower-aggregates"], input=text.encode(), stdout=subprocess.PIPE, check=True).stdout
    after.write_bytes(lowered)
    verilog, opt = [program, "translate", "--export-verilog"], [program, "opt", "--hw-lower-aggregates"]
    runs = {"aggregates": (verilog, before), "lowered": (verilog, after), "opt": (opt, before)}
    costs = support.costs_in_turn(rounds, [lambda words=words, text=text: support.run(words, text) for words, text in runs.values()])
    print(f"{name}: {len(text)} bytes, {len(lowered)} lowered")
    for key, cost in zip(runs, costs):
        print(f"  {key:10} {cost.clock:8.3f} s {cost.memory:8.0f} MB")
    print(f"  ratio      {costs[0].clock / costs[1].clock:8.2f}")


def main():
    """Measures both designs."""
    program = support.program_word(__doc__)
    count = support.number_word(2, 10000)
    rounds = support.number_word(3, 5)
    with tempfile.TemporaryDirectory() as name:
        folder = pathlib.Path(name)
        measure(program, "modules", "".join(MODULE.format(number=number) for number in range(count)), rounds, folder)
        measure(program, "array", ARRAY, rounds, folder)


if __name__ == "__main__":
    main()
