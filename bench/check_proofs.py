#!/usr/bin/env python3
"""Has `lec --proof` write the proof of each pair of the examples that is the same, and checks each three times.

    check_proofs.py PROGRAM [CHECKER..]

By `PROGRAM check`, by check_lrat.py of this folder, and by each CHECKER, a program that takes a formula and a proof and ends with 0
where the proof is right (say `cake_lpr` or `lrat-check`, where they are there). A proof of which the last line is cut off, one of
which the hints stand forward, and one over a formula without its last clause must be refused by all.
"""
import pathlib
import subprocess
import sys
import tempfile

sys.dont_write_bytecode = True
import support

OWN = [sys.executable, str(pathlib.Path(__file__).with_name("check_lrat.py"))]


def equal_pairs():
    """The texts of which both modules, p and q, are the same, each with its file's name and its number."""
    for file in sorted((support.EXAMPLES / "lec").glob("*.mlir")):
        verdicts = support.cases_of(file.with_suffix(".lec.txt"))
        for number, (text, verdict) in enumerate(zip(support.cases_of(file), verdicts), 1):
            if verdict.splitlines()[1:] == ["c1 == c2"]:
                yield f"{file.stem} {number}", text


def takes(words, formula, proof):
    """Whether a checker takes a proof."""
    return subprocess.run([*words, formula, proof], stdout=subprocess.DEVNULL, stderr=subprocess.DEVNULL).returncode == 0


def with_hints_forward(proof):
    """The proof with the hints of each step in the order of the resolutions."""
    lines = []
    for line in proof.splitlines():
        words = line.split()
        end = words.index("0", 1)
        lines.append(" ".join([*words[: end + 1], *reversed(words[end + 1 : -1]), "0"]))
    return "\n".join(lines) + "\n"


def without_a_clause(formula):
    """The formula without its last clause."""
    head, *clauses = formula.splitlines()
    words = head.split()
    return "\n".join([" ".join([*words[:3], str(len(clauses) - 1)]), *clauses[:-1]]) + "\n"


def wrong_pairs(formula, proof):
    """The same texts, in one of which something is wrong."""
    cut = "\n".join(proof.splitlines()[:-1]) + "\n"
    yield "cut", formula, cut
    if any(len(line.split()) > 5 for line in proof.splitlines()):
        yield "forward", formula, with_hints_forward(proof)
    yield "clause", without_a_clause(formula), proof


def main():
    """Says how many proofs each checker takes, of the right ones and of the wrong ones."""
    program = support.program_word(__doc__)
    checkers = {"check": [program, "check"], "check_lrat.py": OWN, **{word: [word] for word in sys.argv[2:]}}
    taken = {name: 0 for name in checkers}
    wrong = {name: {} for name in checkers}
    count = 0
    with tempfile.TemporaryDirectory() as folder:
        source, proof = f"{folder}/a.mlir", f"{folder}/p"
        formula = proof + ".cnf"
        for label, text in equal_pairs():
            pathlib.Path(source).write_text(text, encoding="utf-8")
            run = subprocess.run([program, "lec", source, "-c1", "p", "-c2", "q", "--proof", proof], capture_output=True, text=True)
            if run.stdout != "c1 == c2\n":
                sys.exit(f"{label}: {run.stdout}{run.stderr}")
            count += 1
            texts = pathlib.Path(formula).read_text(), pathlib.Path(proof).read_text()
            for name, words in checkers.items():
                taken[name] += takes(words, formula, proof)
            for kind, *other in wrong_pairs(*texts):
                pathlib.Path(formula).write_text(other[0])
                pathlib.Path(proof).write_text(other[1])
                for name, words in checkers.items():
                    wrong[name][kind] = wrong[name].get(kind, 0) + takes(words, formula, proof)
    print(f"{count} proofs")
    for name in checkers:
        print(f"{name}: {taken[name]} taken; of wrong ones {wrong[name]}")
    sys.exit(0 if all(number == count for number in taken.values()) else 1)


if __name__ == "__main__":
    main()
