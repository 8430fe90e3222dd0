#!/usr/bin/env python3
"""How the cost of passes grows: families of generate_pass_texts.py of which one pass or another could take more than its share, each at
1, 2, 4 and 8 times its size.

    time_families.py PROGRAM [OTHER [FAMILY..]]     OTHER is an earlier program, run in turn with the first, or `-`

A row for each family: the command, and for each size the seconds of the processor and MB of memory of PROGRAM, and of OTHER. Behind
them stands by how much the last doubling grows the seconds. A run ends after 60 seconds, or at 8 GB; then `-` stands for it, and larger
sizes are not run. What both print has to be the same.
"""
import filecmp
import os
import pathlib
import resource
import subprocess
import sys
import tempfile

sys.dont_write_bytecode = True
import support
from generate_pass_texts import TEXTS

SECONDS = 60
MEMORY = 8 << 30
SIZES = [1, 2, 4, 8]

FAMILIES = {
    "above": "opt --cse",
    "equals": "opt --cse",
    "unused": "opt --cse",
    "constants": "opt --cse",
    "below": "opt --canonicalize",
    "cone": "opt --canonicalize",
    "back": "opt --canonicalize",
    "sum": "opt --canonicalize",
    "long": "opt --canonicalize",
    "same": "opt --canonicalize",
    "turns": "opt --canonicalize",
    "users": "opt --canonicalize",
    "line": "opt --hw-flatten-modules",
    "row": "opt --hw-flatten-modules",
    "through": "opt --hw-flatten-modules",
    "injects": "translate --export-verilog",
    "slices": "translate --export-verilog",
}
# Families whose size in TEXTS is that of the largest run.
LARGE = {"unused": 1000, "constants": 1000, "back": 500, "long": 1000, "same": 1000, "turns": 1000}


def limit():
    """What a run may take."""
    resource.setrlimit(resource.RLIMIT_AS, (MEMORY, MEMORY))
    resource.setrlimit(resource.RLIMIT_CPU, (SECONDS, SECONDS))


def cost(program, words, text, printed):
    """The seconds and MB of a run, if it ends well."""
    with open(text, "rb") as source, open(printed, "wb") as out:
        child = subprocess.Popen([program, *words], stdin=source, stdout=out, stderr=subprocess.DEVNULL, preexec_fn=limit)
        _, status, usage = os.wait4(child.pid, 0)
    child.returncode = os.waitstatus_to_exitcode(status)
    return None if child.returncode else (usage.ru_utime + usage.ru_stime, usage.ru_maxrss / 1024)


def shown(one):
    """A cost as it is printed."""
    return f"{one[0]:.2f} ({one[1]:.0f})" if one else "-"


def growth(costs):
    """By how much the last doubling grows the seconds."""
    return f"{costs[-1][0] / max(costs[-2][0], 0.01):.1f}" if len(costs) > 1 and costs[-1] and costs[-2] else "-"


def measure(programs, name, folder):
    """Says the costs of one family."""
    words = FAMILIES[name].split()
    make, count = TEXTS[name]
    rows = [[] for _ in programs]
    for size in SIZES:
        text = folder / "text"
        support.write_text(text, make, LARGE.get(name, count) * size)
        ended = []
        for number, (program, row) in enumerate(zip(programs, rows)):
            if not row or row[-1]:
                row.append(cost(program, words, text, folder / str(number)))
                if row[-1]:
                    ended.append(folder / str(number))
        if len(ended) == 2 and not filecmp.cmp(*ended, shallow=False):
            sys.exit(f"{name}: the programs print other texts")
    cells = [" | ".join([shown(one) for one in row] + ["-"] * (len(SIZES) - len(row)) + [growth(row)]) for row in rows]
    print(f"| {name} | {LARGE.get(name, count)} | `{FAMILIES[name]}` | " + " | ".join(cells) + " |", flush=True)


def main():
    """Measures the families that are named, or all."""
    program = support.program_word(__doc__)
    programs = [program] + [word for word in sys.argv[2:3] if word != "-"]
    columns = "".join(f" {size} |" for size in SIZES) + " growth |"
    print("| family | size | command |" + columns * len(programs))
    print("|---|---|---|" + "---|" * ((len(SIZES) + 1) * len(programs)))
    with tempfile.TemporaryDirectory() as folder:
        for name in sys.argv[3:] or FAMILIES:
            measure(programs, name, pathlib.Path(folder))


if __name__ == "__main__":
    main()
