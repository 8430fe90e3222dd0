#!/usr/bin/env python3
"""How many places name an operation.

    count_operation_rows.py [FOLDER] [-v]     a checkout, by default this one

For each of four operations (a shift, the parity, the comparison, one of structs) it counts the files and the rows that name
it, in code (src/*.rt), definitions (specs/*.antt) and proofs (proofs/**/*.antt). A row is a line that is no comment and no
import (`use`). Tests do not count: crates of tests and of examples, and files of computed examples; nor does `bits_core`,
whose calls have the operations' names. Beside each number of rows stands how many of them do more than list the operation or
give its name: neither a line of an enum or of a data type, nor one of the crate `opcode`. With -v these are printed.

The column `folds` counts further rows, which name the operation only through a row of the table of folds that is there for
it: the type of that row, its places in tuples of types (`type PartRows = (F27, (F28, ..` in `comb_fold`), in lists of rows and
in what is proved of them. An operation that no row of its own folds needs none of these.
"""
import os
import re
import sys

sys.dont_write_bytecode = True
import support

FOLDERS = [word for word in sys.argv[1:] if not word.startswith("-")]
TOP = FOLDERS[0] if FOLDERS else str(support.TOP)

# what names each operation: in code, in definitions, in texts
OPERATIONS = {
    "comb.shl": r"\bShl\b|\bCombShl\b|(?<![\w.\-])shl(?![\w\-(])",
    "comb.parity": r"\bParity\b|\bCombParity\b|(?<![\w.\-])parity(?![\w\-(])",
    "comb.icmp": r"\bIcmp\b|\bCombIcmp\b|(?<![\w.\-])icmp(?![\w\-(])",
    "hw.struct_extract": r"\bStructExtract\b|\bHwStructExtract\b|\bStructOp::Extract\b|\bstructs\.Extract\b|(?<![\w.\-])struct_extract(?![\w\-(])",
}

# what names the rows of the table of folds that are there for one of them (a shift that leaves no bit, equal operands of a
# comparison, a field of a struct that was made): the type in code, the row and its parts in definitions and proofs
FOLDS = {
    "comb.shl": r"\bF20\b|(?<![\w.\-])(fold_)?shift_out\w*",
    "comb.icmp": r"\bF23\b|(?<![\w.\-])(fold_)?icmp_self\w*",
    "hw.struct_extract": r"\bF32\b|(?<![\w.\-])(fold_)?(made|struct)_part\w*",
}

# a line that only lists names: a variant, constructors of a data type, an entry of a list of opcodes
LISTED = re.compile(r"^\s*(\w+(\([^)]*\))?,|[a-z_ ]+ : [A-Z]\w*( → [A-Z]\w*)*|\w+ : .* → \w+|Listed::\w+,)$")


# files of computed examples
EXAMPLES = re.compile(r"Sample|Example|hw_model/proofs/(Values|Opcodes)\.antt$")


def is_counted(crate):
    return not (crate.endswith("_tests") or crate in ("circt_examples", "bits_core"))


def files():
    crates = os.path.join(TOP, "crates")
    for crate in sorted(os.listdir(crates)):
        if not is_counted(crate):
            continue
        for part, ending in (("src", ".rt"), ("specs", ".antt"), ("proofs", ".antt")):
            for folder, _, names in os.walk(os.path.join(crates, crate, part)):
                for name in sorted(names):
                    path = os.path.join(folder, name)
                    if name.endswith(ending) and not EXAMPLES.search(path):
                        yield crate, part, path


def rows(path):
    with open(path, encoding="utf-8") as text:
        for line in text:
            line = line.rstrip("\n")
            bare = line.strip()
            if bare.startswith(("--", "//", "use ", "ghost use ", "pub use ")):
                continue
            yield line


def main():
    print(f"{'operation':20}{'files':>7}{'rows':>7}{'acting':>8}{'folds':>7}   by part: rows (acting)")
    for operation, pattern in OPERATIONS.items():
        named = re.compile(pattern)
        folded = re.compile(FOLDS.get(operation, r"(?!)"))
        where, total, acting, folds = set(), 0, 0, 0
        parts = {"src": [0, 0], "specs": [0, 0], "proofs": [0, 0]}
        for crate, part, path in files():
            for line in rows(path):
                if not named.search(line):
                    folds += bool(folded.search(line))
                    continue
                where.add(path)
                total += 1
                parts[part][0] += 1
                if crate != "opcode" and not path.endswith("diag/src/listed.rt") and not path.endswith("diag/specs/Listed.antt") and not LISTED.match(line):
                    acting += 1
                    parts[part][1] += 1
                    if "-v" in sys.argv:
                        print(f"    {os.path.relpath(path, TOP)}: {line.strip()[:140]}")
        said = ", ".join(f"{name} {a} ({b})" for name, (a, b) in parts.items())
        print(f"{operation:20}{len(where):>7}{total:>7}{acting:>8}{folds:>7}   {said}")


if __name__ == "__main__":
    main()
