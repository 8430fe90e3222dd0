#!/usr/bin/env python3
"""Checks a proof in the LRAT format over a formula in the DIMACS CNF format, by itself: no code is shared with the program.

    check_lrat.py CNF PROOF   says `verified`, or where the proof goes wrong

Each step's clause follows where, under the negations of its literals, each hint in turn is a unit clause, whose literal is then true
too, up to one that is false (Cruz-Filipe, Heule, Hunt, Kaufmann and Schneider-Kamp, 2017).
"""
import sys


def read_formula(path):
    """The clauses of a formula, by their numbers from 1."""
    clauses, literals, count = {}, [], None
    for line in open(path, encoding="ascii"):
        words = line.split()
        if not words or words[0].startswith("c"):
            continue
        if count is None:
            assert words[:2] == ["p", "cnf"] and len(words) == 4, "no header"
            count = int(words[3])
            continue
        for literal in map(int, words):
            if literal:
                literals.append(literal)
            else:
                clauses[len(clauses) + 1] = frozenset(literals)
                literals = []
    assert len(clauses) == count and not literals, "another count of clauses"
    return clauses


def follows(clauses, clause, hints):
    """Whether a clause follows by its hints."""
    true = {-literal for literal in clause}
    for hint in hints:
        left = [literal for literal in clauses[hint] if -literal not in true]
        if not left:
            return True
        if len(left) > 1 or left[0] in true:
            return False
        true.add(left[0])
    return False


def first_fault(clauses, path):
    """The number of the first line of a proof that does not follow; none where all do and the empty clause is one of them."""
    last, is_done, number = len(clauses), False, 0
    for number, line in enumerate(open(path, encoding="ascii"), 1):
        words = line.split()
        if not words:
            continue
        if words[1] == "d":
            for name in words[2:-1]:
                del clauses[int(name)]
            continue
        name, *rest = map(int, words)
        end = rest.index(0)
        clause, hints = rest[:end], rest[end + 1 : -1]
        if name <= last or rest[-1] or not follows(clauses, clause, hints):
            return number
        clauses[name] = frozenset(clause)
        last, is_done = name, is_done or not clause
    return None if is_done else number + 1


def main():
    """Checks the two files that are named."""
    if len(sys.argv) != 3:
        sys.exit(__doc__)
    fault = first_fault(read_formula(sys.argv[1]), sys.argv[2])
    print("verified" if fault is None else f"line {fault} does not follow")
    sys.exit(0 if fault is None else 1)


if __name__ == "__main__":
    main()
