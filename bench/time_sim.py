#!/usr/bin/env python3
"""What a run by `sim` costs, beside Icarus Verilog and Verilator on the Verilog of the same design and the same steps.

    time_sim.py PROGRAM [ROUNDS [SCALE]]     by default 3 rounds, all of the size; SCALE divides the modules and the operations

Two designs: 10,000 modules with a register each, as instances of one, for 1,000 steps; and one body of 100,000 operations, with a register
after each hundred, for 100 steps. In the first step all registers are reset, so that no content is unknown to any. The simulators that are
there run in turn, and their lines from the second step on have to be those of `sim`. Of Icarus only `vvp` is timed, of Verilator only the
program that it makes. A row for each: seconds of the processor, steps a second, MB.
"""
import os
import pathlib
import random
import shutil
import subprocess
import sys
import tempfile

sys.dont_write_bytecode = True
import support

PORTS = "in %clk : !seq.clock, in %rst : i1, in %en : i1, in %a : i16, in %b : i16"
NAMES = {"rst": 1, "en": 1, "a": 16, "b": 16}


def modules(count, write):
    """Modules with a register each, one after another."""
    for k in range(count):
        write(f"hw.module private @M{k}({PORTS}, out c : i16) {{\n  %z = hw.constant {k % 30000} : i16\n  %0 = comb.add %a, %b : i16\n")
        write("  %1 = comb.xor %0, %q : i16\n  %2 = comb.mul %1, %a : i16\n  %q = seq.compreg.ce %2, %clk, %en reset %rst, %z : i16\n")
        write("  %3 = comb.icmp ult %q, %b : i16\n  %4 = comb.mux %3, %q, %1 : i16\n  hw.output %4 : i16\n}\n")
    write(f"hw.module @Top({PORTS}, out c : i16) {{\n")
    for k in range(count):
        before = f"%u{k - 1}.c" if k else "%a"
        write(f"  %u{k}.c = hw.instance \"u{k}\" @M{k}(clk: %clk: !seq.clock, rst: %rst: i1, en: %en: i1, a: {before}: i16, b: %b: i16) -> (c: i16)\n")
    write(f"  hw.output %u{count - 1}.c : i16\n}}\n")
    return count


def body(count, write):
    """Operations one after another, with a register after each hundred."""
    write(f"hw.module @Top({PORTS}, out c : i16) {{\n  %z = hw.constant 5 : i16\n  %v0 = comb.add %a, %b : i16\n")
    names, registers = ["add", "xor", "sub", "and", "or", "mul"], 0
    for k in range(1, count):
        if k % 100 == 0:
            write(f"  %v{k} = seq.compreg.ce %v{k - 1}, %clk, %en reset %rst, %z : i16\n")
            registers += 1
        else:
            other = "%b" if k < 7 else f"%v{k - 7}"
            write(f"  %v{k} = comb.{names[k % 6]} %v{k - 1}, {other} : i16\n")
    write(f"  hw.output %v{count - 1} : i16\n}}\n")
    return registers


BENCH = """module bench;
  reg clk = 0, rst = 0, en = 0;
  reg [15:0] a = 0, b = 0;
  wire [15:0] c;
  integer file, got;
  Top top(.clk(clk), .rst(rst), .en(en), .a(a), .b(b), .c(c));
  initial begin
    file = $fopen("steps.hex", "r");
    got = $fscanf(file, "%h %h %h %h\\n", rst, en, a, b);
    while (got == 4) begin
      #1 $display("%h", c);
      clk = 1;
      #1 clk = 0;
      got = $fscanf(file, "%h %h %h %h\\n", rst, en, a, b);
    end
    $finish;
  end
endmodule
"""
MAIN = """#include "VTop.h"
#include <cstdio>
int main() {
  VTop top;
  unsigned rst, en, a, b;
  FILE *file = fopen("steps.hex", "r");
  top.clk = 0;
  while (fscanf(file, "%x %x %x %x", &rst, &en, &a, &b) == 4) {
    top.rst = rst; top.en = en; top.a = a; top.b = b;
    top.eval();
    printf("%04x\\n", top.c);
    top.clk = 1;
    top.eval();
    top.clk = 0;
    top.eval();
  }
}
"""


def write_steps(folder, registers, steps):
    """The steps for `sim` and for the others."""
    chance = random.Random(1)
    rows = [[int(k == 0), int(chance.randrange(4) > 0), chance.randrange(1 << 16), chance.randrange(1 << 16)] for k in range(steps)]
    state = " ".join(["state"] + ["16'h0"] * registers)
    lines = [" ".join(f"{width}'h{value:X}" for value, width in zip([1] + row, [1] + list(NAMES.values()))) for row in rows]
    (folder / "steps").write_text("\n".join([state] + lines) + "\n")
    (folder / "steps.hex").write_text("".join(" ".join(f"{value:x}" for value in row) + "\n" for row in rows))


def simulators(program, folder):
    """The commands that run the design, each made ready."""
    made = {"sim": [program, "sim", "top.mlir", "steps", "--top", "Top"]}
    with open(folder / "top.v", "w") as file:
        subprocess.run([program, "translate", "--export-verilog", "top.mlir"], cwd=folder, stdout=file, check=True)
    (folder / "bench.v").write_text(BENCH)
    (folder / "main.cpp").write_text(MAIN)
    if shutil.which("iverilog"):
        subprocess.run(["iverilog", "-g2005", "-s", "bench", "-o", "top.vvp", "top.v", "bench.v"], cwd=folder, check=True)
        made["vvp"] = ["vvp", "top.vvp"]
    if shutil.which("verilator"):
        words = ["verilator", "--cc", "--exe", "--build", "--default-language", "1364-2005", "-Wno-fatal", "-Wno-lint", "-Wno-style", "--top-module", "Top", "top.v", "main.cpp"]
        subprocess.run(words, cwd=folder, check=True, capture_output=True)
        made["verilator"] = ["obj_dir/VTop"]
    return made


def cost(words, folder, printed):
    """What a run costs, with its output in a file."""
    with open(folder / printed, "wb") as out:
        child = subprocess.Popen(words, cwd=folder, stdout=out)
        _, status, usage = os.wait4(child.pid, 0)
    child.returncode = os.waitstatus_to_exitcode(status)
    if child.returncode:
        sys.exit(f"{' '.join(words)} ended with {child.returncode}")
    return usage.ru_utime + usage.ru_stime, usage.ru_maxrss / 1024


def lines_of(folder, name):
    """The values that a simulator printed, from the second step on."""
    lines = (folder / f"{name}.out").read_text().split("\n")[1:]
    return [int(line.split("'h")[-1], 16) for line in lines if line]


def measure(program, title, make, count, steps, rounds):
    with tempfile.TemporaryDirectory() as name:
        folder = pathlib.Path(name)
        with open(folder / "top.mlir", "w") as file:
            registers = make(count, file.write)
        write_steps(folder, registers, steps)
        made, costs = simulators(program, folder), {}
        for _ in range(rounds):
            for simulator, words in made.items():
                costs.setdefault(simulator, []).append(cost(words, folder, f"{simulator}.out"))
        for simulator, each in costs.items():
            seconds = min(spent for spent, _ in each)
            print(f"| {title} | {simulator} | {seconds:.2f} | {steps / seconds:.0f} | {max(memory for _, memory in each):.0f} |", flush=True)
            if lines_of(folder, simulator) != lines_of(folder, "sim"):
                sys.exit(f"{simulator} prints other lines than sim")


def main():
    program = os.path.abspath(support.program_word(__doc__))
    rounds, scale = support.number_word(2, 3), support.number_word(3, 1)
    print("| design | simulator | seconds | steps a second | MB |")
    print("|---|---|---|---|---|")
    measure(program, f"{10000 // scale} modules, 1000 steps", modules, 10000 // scale, 1000, rounds)
    measure(program, f"a body of {100000 // scale} operations, 100 steps", body, 100000 // scale, 100, rounds)


if __name__ == "__main__":
    main()
