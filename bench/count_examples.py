#!/usr/bin/env python3
"""Writes the files `args` and `stdout` of the crate that checks the examples: the names of the examples, and how many cases
each file of expectations has. It ends with 1 where a label is missing or stands twice, or files of an example have other labels.

    count_examples.py
"""
import sys

sys.dont_write_bytecode = True
import support

CRATE = support.EXAMPLES.parent
ENDINGS = [".opt.mlir", ".v", ".opt.txt", ".v.txt", ".lec.txt", ".steps.txt"]
RUN = "// RUN: circt "


def labels_of(file):
    """The labels of the cases of a file: the first line of each but for those that name commands."""
    labels = []
    for case in support.cases_of(file):
        lines = [line for line in case.split("\n") if not line.startswith(RUN)]
        if not lines[0].startswith("// ") or lines[0] in labels:
            sys.exit(f"{file}: a label is missing or stands twice: {lines[0]}")
        labels.append(lines[0])
    return labels


def counts_of(name):
    """The lines of the files of expectations of an example."""
    labels = labels_of(support.EXAMPLES / f"{name}.mlir")
    for ending in ENDINGS:
        file = support.EXAMPLES / (name + ending)
        if file.exists():
            if labels_of(file) != labels:
                sys.exit(f"{file}: its labels are not those of {name}.mlir, in order")
            yield f"{name}{ending}: {len(labels)} of {len(labels)} cases"


def main():
    """Writes both files."""
    files = [str(file.relative_to(support.EXAMPLES)) for file in support.EXAMPLES.rglob("*.mlir")]
    names = sorted(file.removesuffix(".mlir") for file in files if not file.endswith(".opt.mlir"))
    lines = [line for name in names for line in counts_of(name)]
    (CRATE / "args").write_text("\n".join(names) + "\n")
    (CRATE / "stdout").write_text("\n".join(lines) + "\n")


if __name__ == "__main__":
    main()
