#!/usr/bin/env python3
"""Hands Verilog texts to other readers, and says how many each takes.

    check_verilog.py [PROGRAM [MODULES]]     with PROGRAM the Verilog of so many generated modules too, by default 2000

The texts are the cases of the files examples/**/*.v, as they are expected. A line `// -----` stands between two, and the first line
of each is its label. The readers are those of these that are there, each told to read IEEE 1364-2005:

* Icarus Verilog: `iverilog -g2005 -gno-xtypes -gno-icarus-misc`; its default is 1364-2005 with words of its own besides;
* Yosys: `read_verilog` without `-sv`, and then `hierarchy -check; proc`;
* Verilator: `--lint-only --default-language 1364-2005`; its default is SystemVerilog (1800-2017), which has `logic`, `bit` and some
  hundred other keywords that a port or a module of 1364-2005 may have as its name.
"""
import collections
import concurrent.futures
import os
import shutil
import subprocess
import sys
import tempfile

sys.dont_write_bytecode = True
import support

READERS = {
    "iverilog": ["iverilog", "-g2005", "-gno-xtypes", "-gno-icarus-misc", "-o", "/dev/null", "FILE"],
    "yosys": ["yosys", "-q", "-p", "read_verilog FILE; hierarchy -check; proc"],
    "verilator": ["verilator", "--lint-only", "--default-language", "1364-2005", "-Wno-fatal", "-Wno-lint", "-Wno-style", "-Wno-MULTITOP",
                  "FILE"],
}
# How many generated modules a text has.
MODULES_A_TEXT = 200


def is_taken(words, text):
    """Whether a reader takes a text; what it says otherwise goes to standard error."""
    with tempfile.NamedTemporaryFile("w", suffix=".v") as file:
        file.write(text)
        file.flush()
        run = subprocess.run([word.replace("FILE", file.name) for word in words], text=True, capture_output=True)
    if run.returncode != 0:
        sys.stderr.write(f"{words[0]}, of\n{text}\n{run.stderr}{run.stdout}\n")
    return run.returncode == 0


def example_texts():
    """The texts of each file; a label alone is none."""
    for file in sorted(support.EXAMPLES.rglob("*.v")):
        yield str(file.relative_to(support.EXAMPLES)), [text for text in support.cases_of(file) if "\n" in text.rstrip("\n")]


def generated_texts(program, modules):
    """The Verilog of generated designs, each of another seed."""
    for seed in range(-(-modules // MODULES_A_TEXT)):
        words = [program, "gen", str(seed), str(MODULES_A_TEXT), "--verilog"]
        yield subprocess.run(words, text=True, capture_output=True, check=True).stdout


def main():
    """Says of each file how many of its texts each reader takes."""
    readers = {name: words for name, words in READERS.items() if shutil.which(name)}
    files = list(example_texts())
    if len(sys.argv) > 1:
        files.append(("gen", list(generated_texts(sys.argv[1], support.number_word(2, 2000)))))
    refused, totals = 0, collections.Counter()
    print("| file | texts | " + " | ".join(readers) + " |")
    print("|---|---|" + "---|" * len(readers))
    with concurrent.futures.ThreadPoolExecutor(os.cpu_count()) as pool:
        for name, texts in files:
            taken = {reader: sum(pool.map(lambda text, words=words: is_taken(words, text), texts)) for reader, words in readers.items()}
            print(f"| {name} | {len(texts)} | " + " | ".join(str(count) for count in taken.values()) + " |", flush=True)
            refused += sum(len(texts) - count for count in taken.values())
            totals.update(taken, texts=len(texts))
    print(f"| all | {totals['texts']} | " + " | ".join(str(totals[reader]) for reader in readers) + " |")
    sys.exit(1 if refused else 0)


if __name__ == "__main__":
    main()
