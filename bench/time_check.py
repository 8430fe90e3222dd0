#!/usr/bin/env python3
"""Times `check` on proofs of this program's own, beside check_lrat.py and, where it is there, CaDiCaL's run on the same formula.

    time_check.py PROGRAM [ROUNDS]   3 rounds by default

Each question is whether two ways to write one word are equal; `lec --proof` writes its formula and its proof. A line has the sizes in MB,
the median seconds of each program, the MB of proof that `check` reads in a second, and its peak memory.
"""
import os
import pathlib
import shutil
import sys
import tempfile

sys.dont_write_bytecode = True
import support

HEAD = "hw.module @{name}({ports}, out o : i{width}) {{\n"
QUESTIONS = {
    "distributive": (16, "%0 = comb.and %a, %b\n%1 = comb.and %a, %c\n%2 = comb.or %0, %1", "%0 = comb.or %b, %c\n%2 = comb.and %a, %0"),
    "sum": (32, "%0 = comb.add %a, %b\n%2 = comb.add %0, %c", "%0 = comb.add %b, %c\n%2 = comb.add %a, %0"),
    "product 5": (5, "%0 = comb.mul %a, %b\n%2 = comb.mul %0, %c", "%0 = comb.mul %b, %c\n%2 = comb.mul %a, %0"),
    "product 6": (6, "%0 = comb.mul %a, %b\n%2 = comb.mul %0, %c", "%0 = comb.mul %b, %c\n%2 = comb.mul %a, %0"),
    "product 7": (7, "%0 = comb.mul %a, %b\n%2 = comb.mul %0, %c", "%0 = comb.mul %b, %c\n%2 = comb.mul %a, %0"),
}


def module(name, width, lines):
    """A module of three inputs whose output is %2."""
    ports = ", ".join(f"in %{port} : i{width}" for port in "abc")
    body = "".join(f"  {line} : i{width}\n" for line in lines.split("\n"))
    return HEAD.format(name=name, ports=ports, width=width) + body + f"  hw.output %2 : i{width}\n}}\n"


def main():
    """Says of each question what its proof is and what each program takes."""
    program = support.program_word(__doc__)
    rounds = support.number_word(2, 3)
    print("question, MB of formula, MB of proof, seconds of lec, of check, MB/s of check, MB of memory, seconds of check_lrat.py, of cadical")
    with tempfile.TemporaryDirectory() as folder:
        source, proof = f"{folder}/a.mlir", f"{folder}/p"
        formula = proof + ".cnf"
        for name, (width, left, right) in QUESTIONS.items():
            pathlib.Path(source).write_text(module("p", width, left) + module("q", width, right), encoding="utf-8")
            lec = support.run([program, "lec", source, "-c1", "p", "-c2", "q", "--conflict-limit", "100000000", "--proof", proof], os.devnull)
            own = [sys.executable, str(pathlib.Path(__file__).with_name("check_lrat.py"))]
            runs = [lambda: support.run([program, "check", formula, proof], os.devnull), lambda: support.run([*own, formula, proof], os.devnull)]
            check, python = support.costs_in_turn(rounds, runs)
            cadical = "-"
            if shutil.which("cadical"):
                status = os.system(f"/usr/bin/env time -f %U -o {folder}/t cadical -q {formula} > {os.devnull}")
                cadical = pathlib.Path(f"{folder}/t").read_text().split()[-1] if status >= 0 and os.path.exists(f"{folder}/t") else "-"
            size = os.path.getsize(proof) / 1e6
            print(f"{name}: {os.path.getsize(formula) / 1e6:.2f}, {size:.1f}, {lec.processor:.2f}, {check.processor:.3f}, {size / check.processor:.0f}, {check.memory:.0f}, {python.processor:.2f}, {cadical}", flush=True)


if __name__ == "__main__":
    main()
