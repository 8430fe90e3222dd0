#!/usr/bin/env python3
"""Writes a large text for measures of passes to standard output.

    generate_pass_texts.py NAME [TIMES]     TIMES as many of what it has, by default 1; 2, 4 and 8 show how the cost grows

The texts are
    modules    the 10,000 modules of generate_reader_texts.py, in which nothing folds
    third      one body of 100,000 operations, of which each third one folds
    chain      100,000 adds, each of the one before it and a constant, which fold to one add
    chain2     the same of 200,000 adds, to see how the time grows
    last       chain, the last add first in the text
    shared     100,000 operations that each use the same value, which folds last
    long       10,000 adds, each of the one before it and an input, which fold to one add of 10,001 operands
    long2      the same of 20,000 adds
    back       2,000 operations, each after the one that uses it and folding once the one after it has, so one in a sweep
    back2      the same of 4,000 operations
    equal      100,000 operations, of which each third one is equal to the one before it
    equal2     the same of 200,000 operations
    dead       100,000 operations, of which none is used in the end
    above      two equal chains of 1,000 operations, each above the one that it uses, so that a sweep merges one of each
    above2     the same of 2,000 operations
    above3     the same of 100,000 operations
    unused     100,000 operations, each above the one that it uses, of which none is used in the end
    constants  100,000 constants of one struct, of which no two are equal
    fields     a struct of 100 fields, of which each is taken 100 times
    equals     1,000 adds of one value and equal constants, each above the constant that it uses
    below      1,000 operations, each below the one that it uses, of which none is used in the end
    cone       a mux by a constant above 1,000 operations, each below the one that it uses, which nothing else uses
    sum        one add of 2,000 constants
    same       one and of one value 2,000 times
    turns      one add of 2,000 operands, a constant and an input in turn
    users      500 values that fold one after another, each used by 100 operations
    injects    250 structs, each the one before it with another bit, beside an array of 1,023 bits
    slices     seven parts of one array of 128 bits after another, of which none is used
    line       1,250 private modules, each with one operation and one instance of the one before, and a public one at the end
    row        1,250 private modules, each with one operation, of which a public one instances each
    through    1,250 instances of a private module that gives its input, the last one first in the text, whose value has 1,250 uses
"""
import sys

sys.dont_write_bytecode = True
import generate_reader_texts

HEADER = "hw.module @M(in %a : i32, in %b : i32, in %c : i1, out o : i32) {\n"

# What stands at each third place of a body; each folds to the value before it.
FOLDED = ["add %{0}, %z", "mul %k, %{0}", "sub %{0}, %z", "shl %{0}, %z", "mux %t, %{0}, %a", "or %{0}, %{0}"]


def third(count, write):
    """So many operations, of which each third one folds."""
    write(HEADER + "  %z = hw.constant 0 : i32\n  %k = hw.constant 1 : i32\n  %t = hw.constant true\n")
    write("  %0 = comb.mul %a, %b : i32\n")
    for number in range(1, count):
        before = number - 1
        if number % 3 == 0:
            row = FOLDED[number // 3 % len(FOLDED)].format(before)
        else:
            row = ("sub %{0}, %b", "shl %{0}, %a")[number % 2].format(before)
        write(f"  %{number} = comb.{row} : i32\n")
    write(f"  hw.output %{count - 1} : i32\n}}\n")


def add(number):
    """An add of the one before it and a constant."""
    return f"  %k{number} = hw.constant {number % 1000} : i32\n  %{number} = comb.add %{number - 1}, %k{number} : i32\n"


def chain(count, write):
    """So many adds of constants, each of the one before it."""
    write(HEADER + "  %0 = comb.add %a, %b : i32\n")
    for number in range(1, count):
        write(add(number))
    write(f"  hw.output %{count - 1} : i32\n}}\n")


def last(count, write):
    """The same, each add before the one that it uses."""
    write(HEADER)
    for number in reversed(range(1, count)):
        write(add(number))
    write(f"  %0 = comb.add %a, %b : i32\n  hw.output %{count - 1} : i32\n}}\n")


def shared(count, write):
    """So many operations of the one before each and a value that folds after them."""
    write(HEADER + "  %0 = comb.mul %a, %b : i32\n")
    for number in range(1, count):
        write(f"  %{number} = comb.sub %{number - 1}, %s : i32\n")
    write(f"  %s = comb.mux %t, %b, %a : i32\n  %t = hw.constant true\n  hw.output %{count - 1} : i32\n}}\n")


def long(count, write):
    """So many adds, each of the one before it and an input."""
    write(HEADER + "  %0 = comb.add %a, %b : i32\n")
    for number in range(1, count):
        write(f"  %{number} = comb.add %{number - 1}, %a : i32\n")
    write(f"  hw.output %{count - 1} : i32\n}}\n")


def back(count, write):
    """So many products that are 0, each before the one that it uses."""
    write(HEADER)
    for number in reversed(range(1, count)):
        write(f"  %{number} = comb.mul %{number - 1}, %a : i32\n")
    write(f"  %0 = comb.sub %a, %a : i32\n  hw.output %{count - 1} : i32\n}}\n")


def equal(count, write):
    """So many operations, of which each third one is equal to the one before it."""
    write(HEADER + "  %0 = comb.mul %a, %b : i32\n")
    for number in range(1, count):
        row = (f"mul %{number - 1}, %{number - 2}", f"sub %{number - 1}, %b", f"sub %{number - 2}, %b")[number % 3]
        write(f"  %{number} = comb.{row} : i32\n")
    write(f"  hw.output %{count - 1} : i32\n}}\n")


def dead(count, write):
    """So many operations, each of the one before it, of which none is used in the end."""
    write(HEADER + "  %0 = comb.mul %a, %b : i32\n")
    for number in range(1, count):
        write(f"  %{number} = comb.sub %{number - 1}, %b : i32\n")
    write("  hw.output %a : i32\n}\n")


def above(count, write):
    """Two equal chains of so many operations, each above the one that it uses."""
    write(HEADER)
    for number in reversed(range(1, count)):
        for chain_name in "xy":
            write(f"  %{chain_name}{number} = comb.sub %{chain_name}{number - 1}, %b : i32\n")
    write("  %x0 = comb.mul %a, %b : i32\n  %y0 = comb.mul %a, %b : i32\n")
    write(f"  %o = comb.xor %x{count - 1}, %y{count - 1} : i32\n  hw.output %o : i32\n}}\n")


def unused(count, write):
    """So many operations, each above the one that it uses, of which none is used in the end."""
    write(HEADER)
    for number in reversed(range(1, count)):
        write(f"  %{number} = comb.sub %{number - 1}, %b : i32\n")
    write("  %0 = comb.mul %a, %b : i32\n  hw.output %a : i32\n}\n")


def constants(count, write):
    """So many constants of one struct, of which no two are equal."""
    kind = "!hw.struct<x: i32, y: i32>"
    write(HEADER)
    for number in range(count):
        write(f"  %{number} = hw.aggregate_constant [{number} : i32, {number % 7} : i32] : {kind}\n")
        write(f'  %v{number} = hw.struct_extract %{number}["x"] : {kind}\n')
    write(f"  %o = comb.xor {', '.join(f'%v{number}' for number in range(count))} : i32\n  hw.output %o : i32\n}}\n")


def fields(count, write):
    """A struct of so many fields, of which each is taken 100 times."""
    kind = "!hw.struct<" + ", ".join(f"f{number}: i32" for number in range(count)) + ">"
    write(f"hw.module @M(in %s : {kind}, out o : i32) {{\n")
    names = [f"%{time}_{number}" for time in range(100) for number in range(count)]
    for name in names:
        write(f'  {name} = hw.struct_extract %s["f{name.split("_")[1]}"] : {kind}\n')
    write(f"  %o = comb.xor {', '.join(names)} : i32\n  hw.output %o : i32\n}}\n")


def equals(count, write):
    """So many adds of one value and equal constants, each above the constant that it uses."""
    write(HEADER)
    for number in range(count):
        write(f"  %{number} = comb.sub %a, %k{number} : i32\n")
    for number in range(count):
        write(f"  %k{number} = hw.constant 7 : i32\n")
    write(f"  %o = comb.xor {', '.join(f'%{number}' for number in range(count))} : i32\n  hw.output %o : i32\n}}\n")


def cone(count, write):
    """A mux by a constant above so many operations, each below the one that it uses, which nothing else uses."""
    write(HEADER + f"  %t = hw.constant true\n  %o = comb.mux %t, %a, %{count - 1} : i32\n  %0 = comb.mul %a, %b : i32\n")
    for number in range(1, count):
        write(f"  %{number} = comb.sub %{number - 1}, %b : i32\n")
    write("  hw.output %o : i32\n}\n")


def sum_of_constants(count, write):
    """One add of so many constants."""
    write(HEADER)
    for number in range(count):
        write(f"  %{number} = hw.constant {number + 1} : i32\n")
    write(f"  %o = comb.add {', '.join(f'%{number}' for number in range(count))} : i32\n  hw.output %o : i32\n}}\n")


def same(count, write):
    """One and of one value so many times."""
    write(HEADER + f"  %o = comb.and {', '.join(['%a'] * count)} : i32\n  hw.output %o : i32\n}}\n")


def turns(count, write):
    """One add of so many operands, a constant and an input in turn."""
    write(HEADER + "  %k = hw.constant 7 : i32\n")
    write(f"  %o = comb.add {', '.join('%a' if number % 2 else '%k' for number in range(count))} : i32\n  hw.output %o : i32\n}}\n")


def users(count, write):
    """So many values that fold one after another, each used by 100 operations."""
    write(HEADER + "  %z = hw.constant 0 : i32\n  %v0 = comb.mul %a, %b : i32\n")
    for number in range(1, count):
        write(f"  %v{number} = comb.or %v{number - 1}, %z : i32\n")
    for number in range(count):
        for time in range(100):
            write(f"  %u{number}_{time} = comb.sub %v{number}, %b : i32\n")
    write(f"  hw.output %v{count - 1} : i32\n}}\n")


def injects(count, write):
    """So many structs, each the one before it with another bit, beside an array of 1,023 bits."""
    kind = "!hw.struct<a: !hw.array<1023xi1>, b: i1>"
    write(f"hw.module @M(in %s : {kind}, in %b : i1, out o : i1) {{\n  %0 = hw.struct_inject %s[\"b\"], %b : {kind}\n")
    for number in range(1, count):
        write(f'  %{number} = hw.struct_inject %{number - 1}["b"], %b : {kind}\n')
    write(f'  %o = hw.struct_extract %{count - 1}["b"] : {kind}\n  hw.output %o : i1\n}}\n')


def slices(count, write):
    """Seven parts of one array of so many bits after another, of which none is used."""
    kind = f"!hw.array<{count}xi1>"
    width = max(1, (count - 1).bit_length())
    write(f"hw.module @M(in %0 : {kind}, in %i : i{width}, in %b : i1, out o : i1) {{\n")
    for number in range(1, 8):
        write(f"  %{number} = hw.array_slice %{number - 1}[%i] : ({kind}) -> {kind}\n")
    write("  hw.output %b : i1\n}\n")


def line(count, write):
    """So many private modules, each with one operation and one instance of the one before, and a public one at the end."""
    write("hw.module private @P0(in %a : i8, out o : i8) {\n  hw.output %a : i8\n}\n")
    for number in range(1, count + 1):
        scope = "private " if number < count else ""
        write(f"hw.module {scope}@P{number}(in %a : i8, out o : i8) {{\n  %0 = comb.mul %a, %a : i8\n")
        write(f'  %1 = hw.instance "u" @P{number - 1}(a: %0: i8) -> (o: i8)\n  hw.output %1 : i8\n}}\n')


def row(count, write):
    """So many private modules, each with one operation, of which a public one instances each."""
    for number in range(count):
        write(f"hw.module private @P{number}(in %a : i8, out o : i8) {{\n  %0 = comb.mul %a, %a : i8\n  hw.output %0 : i8\n}}\n")
    write("hw.module @M(in %a : i8, out o : i8) {\n")
    for number in range(count):
        write(f'  %{number} = hw.instance "u{number}" @P{number}(a: %a: i8) -> (o: i8)\n')
    write(f"  hw.output %{count - 1} : i8\n}}\n")


def through(count, write):
    """So many instances of a private module that gives its input, each above the one that it uses, and as many uses of the last."""
    write("hw.module private @P(in %a : i8, out o : i8) {\n  hw.output %a : i8\n}\n")
    write("hw.module @M(in %0 : i8, out o : i8) {\n")
    for number in range(count):
        write(f"  %v{number} = comb.sub %{count}, %0 : i8\n")
    for number in reversed(range(1, count + 1)):
        write(f'  %{number} = hw.instance "u{number}" @P(a: %{number - 1}: i8) -> (o: i8)\n')
    write(f"  %o = comb.xor {', '.join(f'%v{number}' for number in range(count))} : i8\n  hw.output %o : i8\n}}\n")


TEXTS = {
    "modules": (generate_reader_texts.many_modules, 10000),
    "third": (third, 100000),
    "chain": (chain, 100000),
    "chain2": (chain, 200000),
    "last": (last, 100000),
    "shared": (shared, 100000),
    "long": (long, 10000),
    "long2": (long, 20000),
    "back": (back, 2000),
    "back2": (back, 4000),
    "equal": (equal, 100000),
    "equal2": (equal, 200000),
    "dead": (dead, 100000),
    "above": (above, 1000),
    "above2": (above, 2000),
    "above3": (above, 100000),
    "unused": (unused, 100000),
    "constants": (constants, 100000),
    "fields": (fields, 100),
    "equals": (equals, 1000),
    "below": (dead, 1000),
    "cone": (cone, 1000),
    "sum": (sum_of_constants, 2000),
    "same": (same, 2000),
    "turns": (turns, 2000),
    "users": (users, 500),
    "injects": (injects, 250),
    "slices": (slices, 128),
    "line": (line, 1250),
    "row": (row, 1250),
    "through": (through, 1250),
}


def main():
    """Writes the text that the first word names, so many times as large as the second one says."""
    if len(sys.argv) not in (2, 3) or sys.argv[1] not in TEXTS or not all(word.isdigit() for word in sys.argv[2:]):
        sys.exit(__doc__)
    make, count = TEXTS[sys.argv[1]]
    make(count * int(sys.argv[2] if len(sys.argv) == 3 else 1), sys.stdout.write)


if __name__ == "__main__":
    main()
