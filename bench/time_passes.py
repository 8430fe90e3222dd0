#!/usr/bin/env python3
"""Measures what passes cost: the processor times of `opt` without passes and with each list of flags, in turn, on each text of
generate_pass_texts.py. Beside each time stands the size of what is printed.

    time_passes.py PROGRAM [ROUNDS]     the program `circt`, 5 rounds by default
"""
import pathlib
import sys
import tempfile

sys.dont_write_bytecode = True
import support
from generate_pass_texts import TEXTS

# The lists of flags that are compared, the first one without passes.
FLAGS = [[], ["--canonicalize"], ["--cse"], ["--canonicalize", "--cse"]]


def measure(program, name, rounds, folder):
    """Says the times of one text: the median for each list of flags, and the sizes of what is printed."""
    text = folder / "text"
    support.write_text(text, *TEXTS[name])
    printed = [folder / str(number) for number in range(len(FLAGS))]
    runs = [lambda flags=flags, out=out: support.run([program, "opt", *flags], text, out) for flags, out in zip(FLAGS, printed)]
    costs = support.costs_in_turn(rounds, runs)
    columns = (f"{cost.processor:>10.3f}{out.stat().st_size:>12}" for cost, out in zip(costs, printed))
    print(f"{name:10}" + "".join(columns), flush=True)


def main():
    """Measures all texts."""
    program = support.program_word(__doc__)
    rounds = support.number_word(2, 5)
    print(f"{'text':10}" + "".join(f"{' '.join(flags) or 'opt':>22}" for flags in FLAGS))
    with tempfile.TemporaryDirectory() as folder:
        for name in TEXTS:
            measure(program, name, rounds, pathlib.Path(folder))


if __name__ == "__main__":
    main()
