#!/usr/bin/env python3
"""Writes a large text for measures to standard output.

    generate_reader_texts.py operations [MEGABYTES]   one module of operations, 60 MB by default
    generate_reader_texts.py modules [COUNT]          modules of eight operations each, 10,000 by default
    generate_reader_texts.py chain [COUNT]            one module in which each operation uses the one before it, 100,000 by default
    generate_reader_texts.py shared [COUNT]           one module in which each operation uses the same value, 100,000 by default
    generate_reader_texts.py outputs [COUNT]          a chain of which each operation is an output, instanced once, 16,000 by default
    generate_reader_texts.py wide [COUNT]             so many inputs and outputs, each output of two inputs, instanced once, 16,000 by default
"""
import sys

KINDS = ["add", "mul", "and", "or", "xor", "sub"]


def operation(number):
    """An operation over the two results before it."""
    kind = KINDS[number % len(KINDS)]
    before = number - 1
    earlier = max(number - 7, 0)
    return f"  %{number} = comb.{kind} %{before}, %{earlier} : i32\n"


def one_module(limit, write):
    """One module whose text is about so many bytes long."""
    size = write("hw.module @M(in %0 : i32, out o : i32) {\n")
    number = 1
    while size < limit:
        size += write(operation(number))
        number += 1
    write(f"  hw.output %{number - 1} : i32\n}}\n")


def many_modules(count, write):
    """So many modules of eight operations."""
    for index in range(count):
        write(f"hw.module @M{index}(in %clk : !seq.clock, in %a : i32, in %b : i32, out o : i32) {{\n")
        write("  %0 = comb.add %a, %b : i32\n")
        write("  %1 = comb.extract %0 from 3 : (i32) -> i8\n")
        write("  %2 = comb.replicate %1 : (i8) -> i32\n")
        write("  %k = hw.constant -7 : i32\n")
        write('  %3 = comb.icmp ult %2, %k {sv.namehint = "less"} : i32\n')
        write("  %4 = comb.mux %3, %0, %2 : i32\n")
        write("  %r = seq.compreg %4, %clk : i32\n")
        write("  hw.output %r : i32\n}\n")


def chain(count, write):
    """Operations that each use the one before it, and a port."""
    write("hw.module @Chain(in %a : i32, in %b : i32, out o : i32) {\n  %0 = comb.sub %a, %b : i32\n")
    for number in range(1, count):
        write(f"  %{number} = comb.sub %{number - 1}, %b : i32\n")
    write(f"  hw.output %{count - 1} : i32\n}}\n")


def shared(count, write):
    """Operations that each use the first one, and the one before it."""
    write("hw.module @Shared(in %a : i32, in %b : i32, out o : i32) {\n  %0 = comb.mul %a, %b : i32\n")
    for number in range(1, count):
        write(f"  %{number} = comb.xor %{number - 1}, %0 : i32\n")
    write(f"  hw.output %{count - 1} : i32\n}}\n")


def instanced(count, inputs, operation, write):
    """A module of operations of which each is an output, and a module that instances it once."""
    ports = ", ".join(f"in %a{i} : i8" for i in range(inputs))
    outputs = ", ".join(f"out o{i} : i8" for i in range(count))
    write(f"hw.module private @N({ports}, {outputs}) {{\n")
    for i in range(count):
        write(f"  %{i} = comb.sub {operation(i)} : i8\n")
    values = ", ".join(f"%{i}" for i in range(count))
    write(f"  hw.output {values} : {', '.join(['i8'] * count)}\n}}\n")
    operands = ", ".join(f"a{i}: %a{i}: i8" for i in range(inputs))
    results = ", ".join(f"o{i}: i8" for i in range(count))
    write(f"hw.module @T({ports}, out o : i8) {{\n")
    write(f'  %u:{count} = hw.instance "u" @N({operands}) -> ({results})\n  hw.output %u#0 : i8\n}}\n')


def outputs(count, write):
    """A chain of operations of which each is an output, of one input."""
    instanced(count, 1, lambda i: f"%{i - 1}, %a0" if i else "%a0, %a0", write)


def wide(count, write):
    """As many inputs as outputs, each output of an input and the next one."""
    instanced(count, count, lambda i: f"%a{i}, %a{(i + 1) % count}", write)


# The texts, each with the count that is meant where none is given.
TEXTS = {
    "operations": (lambda megabytes, write: one_module(megabytes * 1000000, write), 60),
    "modules": (many_modules, 10000),
    "chain": (chain, 100000),
    "shared": (shared, 100000),
    "outputs": (outputs, 16000),
    "wide": (wide, 16000),
}


def main():
    """Writes the text that the words name."""
    if len(sys.argv) not in (2, 3) or sys.argv[1] not in TEXTS:
        sys.exit(__doc__)
    make, count = TEXTS[sys.argv[1]]
    make(int(sys.argv[2]) if len(sys.argv) > 2 else count, sys.stdout.write)


if __name__ == "__main__":
    main()
