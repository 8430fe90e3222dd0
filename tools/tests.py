#!/usr/bin/env python3
"""Tests of the scripts of this folder, over texts that were written by hand.

    tests.py              says how many tests there are, and which fail
"""
import io
import json
import pathlib
import re
import subprocess
import sys
import tempfile

sys.dont_write_bytecode = True
sys.path[:0] = [str(pathlib.Path(__file__).parent), str(pathlib.Path(__file__).parent.parent / "bench")]
import from_firtool
import show_refusal
import support

FOLDER = pathlib.Path(__file__).resolve().parent

# What is shown, a text of CIRCT's printers, and what from_firtool makes of it; an answer that begins with a digit is a refusal.
CONVERSIONS = [
    ("nothing to do", "hw.module @M(in %a : i8) {}\n", "hw.module @M(in %a : i8) {}\n"),
    ("a location behind an operation",
     "hw.module @M(in %a : i8) {\n  %0 = comb.add %a, %a : i8 loc(#loc1)\n}\n",
     "hw.module @M(in %a : i8) {\n  %0 = comb.add %a, %a : i8\n}\n"),
    ("locations in one another, behind a port, a module and the file",
     'module {\n  hw.module @M(in %a : i8 loc("a b":1:2)) {\n  } loc(fused["x", callsite("f" at "g")])\n} loc(unknown)\n',
     "module {\n  hw.module @M(in %a : i8) {\n  }\n}\n"),
    ("aliases of locations, above and below",
     '#loc = loc("a.fir":1:2)\n#loc1 = loc(fused[#loc, "b"])\nhw.module @M() {}\n#loc2 = loc(unknown)\n',
     "\n\nhw.module @M() {}\n\n"),
    ("an alias over two lines keeps the number of lines",
     '#a = #hw.output_file<"x",\n  includeReplicatedOps>\nhw.module @M() {}\n', "\n\nhw.module @M() {}\n"),
    ("the word loc in a string and in a comment", 'hw.module @M() attributes {a = "loc(1)"} {} // loc(x)\n',
     'hw.module @M() attributes {a = "loc(1)"} {} // loc(x)\n'),
    ("an entry of ui64, the only one",
     "hw.module @M(in %c : !seq.clock, in %d : i8) {\n  %r = seq.firreg %d clock %c {firrtl.random_init_start = 0 : ui64} : i8\n}\n",
     "hw.module @M(in %c : !seq.clock, in %d : i8) {\n  %r = seq.firreg %d clock %c : i8\n}\n"),
    ("an entry of ui64 between others",
     "hw.module @M(in %c : !seq.clock, in %d : i8) {\n  %r = seq.firreg %d clock %c {a, b = 0 : ui64, sv.namehint = \"h\"} : i8\n}\n",
     "hw.module @M(in %c : !seq.clock, in %d : i8) {\n  %r = seq.firreg %d clock %c {a, sv.namehint = \"h\"} : i8\n}\n"),
    ("entries that are read stay as they are",
     'hw.module @M() attributes {a = 1, b = [true, @s, -3 : i4], c = "x", d} {}\n',
     'hw.module @M() attributes {a = 1, b = [true, @s, -3 : i4], c = "x", d} {}\n'),
    ("entries that are not read",
     "hw.module @M() attributes {a = {b = 1}, c = i8, d = 1.5, e = #x, f = dense<[1]> : t<1xi8>, g = @a::@b, h = [1 : ui8], i = 1} {}\n",
     "hw.module @M() attributes {i = 1} {}\n"),
    ("no entry is left", "hw.module @M() attributes {a = #x<1>} {}\n", "hw.module @M() {}\n"),
    ("numbers at the end of what is read",
     "hw.module @M() attributes {a = 18446744073709551615, b = 18446744073709551616, c = -9223372036854775808} {}\n",
     "hw.module @M() attributes {a = 18446744073709551615, c = -9223372036854775808} {}\n"),
    ("a dictionary over two lines",
     "hw.module @M() attributes {a = 1 : ui8,\n  b = 2} {}\n", "hw.module @M() attributes {b = 2}\n {}\n"),
    ("a dictionary of a port",
     "hw.module @M(in %a : i8 {hw.exportPort = #hw<innerSym@a>}, out o : i8 {k}) {\n  hw.output %a : i8\n}\n",
     "hw.module @M(in %a : i8, out o : i8) {\n  hw.output %a : i8\n}\n"),
    ("a name as words on a wire, with a symbol",
     'hw.module @M(in %a : i8) {\n  %w = hw.wire %a sym @s name "x y" : i8\n}\n',
     'hw.module @M(in %a : i8) {\n  %w = hw.wire %a {name = "x y"} : i8\n}\n'),
    ("a name as words before a dictionary",
     'hw.module @M(in %a : i8) {\n  %w = hw.wire %a name "x" {k} : i8\n}\n',
     'hw.module @M(in %a : i8) {\n  %w = hw.wire %a {name = "x", k} : i8\n}\n'),
    ("a name as words on a register",
     'hw.module @M(in %c : !seq.clock, in %d : i8) {\n  %r = seq.compreg name "x" %d, %c : i8\n}\n',
     'hw.module @M(in %c : !seq.clock, in %d : i8) {\n  %r = seq.compreg %d, %c {name = "x"} : i8\n}\n'),
    ("a symbol of a register", "hw.module @M(in %c : !seq.clock, in %d : i8) {\n  %r = seq.firreg %d clock %c sym @s : i8\n}\n",
     "hw.module @M(in %c : !seq.clock, in %d : i8) {\n  %r = seq.firreg %d clock %c : i8\n}\n"),
    ("the symbol of an instance stays", 'hw.module @M() {\n  hw.instance "u" sym @s @N() -> () {doNotPrint}\n}\n',
     'hw.module @M() {\n  hw.instance "u" sym @s @N() -> () {doNotPrint}\n}\n'),
    ("the word public", "hw.module public @M() {}\n", "hw.module @M() {}\n"),
    ("an alias of a type", "!t = !hw.array<2xi8>\nhw.module @M(in %a : !t) {\n  %w = hw.wire %a : !t\n}\n",
     "\nhw.module @M(in %a : !hw.array<2xi8>) {\n  %w = hw.wire %a : !hw.array<2xi8>\n}\n"),
    ("an alias of a type in another", "!t = i8\n!u = !hw.struct<a: !t, b: !t>\nhw.module @M(in %a : !u) {}\n",
     "\n\nhw.module @M(in %a : !hw.struct<a: i8, b: i8>) {}\n"),
    ("a named type", "hw.module @M(in %a : !hw.typealias<@s::@t, !hw.array<2xi8>>, in %b : !hw.array<2x!hw.typealias<@s::@u, i4>>) {}\n",
     "hw.module @M(in %a : !hw.array<2xi8>, in %b : !hw.array<2xi4>) {}\n"),
    ("results of an older header", "hw.module @M(%a: i8 loc(#l)) -> (o: i8 {k}) {\n  hw.output %a : i8\n}\n",
     "hw.module @M(%a: i8) -> (o: i8) {\n  hw.output %a : i8\n}\n"),
    ("brackets of constants and structs",
     "hw.module @M(in %a : i8) {\n  %k = hw.aggregate_constant [1 : i8, 2 : i8] : !hw.array<2xi8> loc(#l)\n"
     "  %s = hw.struct_create (%a) : !hw.struct<x: i8> loc(#l)\n  %x = hw.struct_extract %s[\"x\"] : !hw.struct<x: i8>\n}\n",
     "hw.module @M(in %a : i8) {\n  %k = hw.aggregate_constant [1 : i8, 2 : i8] : !hw.array<2xi8>\n"
     "  %s = hw.struct_create (%a) : !hw.struct<x: i8>\n  %x = hw.struct_extract %s[\"x\"] : !hw.struct<x: i8>\n}\n"),
    ("an operation of another dialect", "hw.module @M() {\n  sv.assert %a\n}\n", "2:3: `sv.assert` cannot be kept: circt does not read it here"),
    ("a module without a body", "hw.module.extern @X()\n", "1:1: `hw.module.extern` cannot be kept: circt does not read it here"),
    ("a memory", "hw.module @M() {\n  %m = seq.firmem 0, 1, undefined, undefined : <1 x 8>\n}\n",
     "2:8: `seq.firmem` cannot be kept: circt does not read it here"),
    ("the generic form", 'hw.module @M(in %a : i8) {\n  %0 = "comb.add"(%a, %a) : (i8, i8) -> i8\n}\n',
     "2:8: the generic form of operations cannot be read"),
    ("parameters of a module", "hw.module @M<W: i32>() {}\n", "1:13: parameters cannot be kept"),
    ("parameters of an instance", 'hw.module @M() {\n  hw.instance "u" @N<W: i32 = 8>() -> ()\n}\n', "2:21: parameters cannot be kept"),
    ("an inout port", "hw.module @M(inout %a : i8) {}\n", "1:14: an `inout` port cannot be kept"),
    ("a type that is not read", "hw.module @M(in %a : !hw.union<x: i8>) {}\n", "1:22: the type `!hw.union` cannot be kept"),
    ("a value that a register has at first",
     "hw.module @M(in %c : !seq.clock, in %d : i8) {\n  %r = seq.firreg %d clock %c preset 3 : i8\n}\n",
     "2:31: `preset`: what a register holds at first cannot be kept"),
    ("a module without an end", "hw.module @M() {\n", "2:1: the module has no end"),
    ("a word that is no module", "foo\n", "1:1: `foo` cannot be kept: circt does not read it here"),
    ("a column counts bytes", 'hw.module @M() attributes {a = "é"} { sv.x }\n', "1:40: `sv.x` cannot be kept: circt does not read it here"),
]

# What is said of a text.
SUMMARIES = [
    ("hw.module @M() {}\n", "nothing to take out"),
    ("#loc = loc(unknown)\nhw.module @M() {} loc(#loc)\n", "took out 1 attribute alias (#loc), 1 location"),
    ("hw.module @M(in %a : i8 loc(#l), in %b : i8 loc(#l)) {}\n", "took out 2 locations"),
    ("!t = i8\nhw.module @M(in %a : !t loc(#l)) {}\n", "wrote out 1 type alias (!t); took out 1 location"),
    ("hw.module @M() attributes {a = #x, b = #y} {}\n", "took out 2 dictionary entries (a, b)"),
    ('hw.module @M(in %a : i8) {\n  %w = hw.wire %a name "x" : i8\n}\n', "rewrote 1 name as an entry"),
]

# An error line, the source, and what is shown.
EXCERPTS = [
    ("<stdin>:1:18: error: 'hw.module' S1: bad byte", "hw.module @M() { ; }\n",
     ["    1 | hw.module @M() { ; }", "      |                  ^"]),
    ("<stdin>:2:8: error: 'comb.nand' S3: unknown operation", "hw.module @M(in %a : i8) {\n  %0 = comb.nand %a, %a : i8\n",
     ["    2 |   %0 = comb.nand %a, %a : i8", "      |        ^~~~~~~~~"]),
    ("<stdin>:1:22: error: 'hw.module' S5: number too large", "hw.module @M(in %a : i4294967296) {}\n",
     ["    1 | hw.module @M(in %a : i4294967296) {}", "      |                      ^~~~~~~~~~~"]),
    ("<stdin>:1:17: error: 'hw.module' S2: unexpected token", "hw.module @M() {", ["    1 | hw.module @M() {", "      |                 ^"]),
    ("<stdin>:1:38: error: 'hw.module' S1: bad byte", 'hw.module @M() attributes {a = "éé" ; } {}\n',
     ['    1 | hw.module @M() attributes {a = "éé" ; } {}', "      |                                    ^"]),
    ("<stdin>:9:1: error: 'hw.module' V4: width outside the limits", "hw.module @M() {}\n", []),
    ("circt: usage: bad arguments", "", []),
]

# Lines that the matcher of problems takes, and what it finds; none where it takes none.
PROBLEMS = [
    ("a/b.mlir:3:8: error: 'comb.divu' V9: divisor is not a nonzero constant",
     ("a/b.mlir", "3", "8", "error", "'comb.divu' V9: divisor is not a nonzero constant", "V9")),
    ("<stdin>:1:1: error: 'builtin.module' S7: text too long", ("<stdin>", "1", "1", "error", "'builtin.module' S7: text too long", "S7")),
    ("p.lrat:12:1: error: 'check' P4: step does not follow", ("p.lrat", "12", "1", "error", "'check' P4: step does not follow", "P4")),
    ("circt: cannot read a.mlir", None),
    ("c1 != c2", None),
]


def conversion(text):
    """What from_firtool makes of a text."""
    try:
        return from_firtool.convert(text)[0]
    except from_firtool.Refused as refused:
        return str(refused)


def excerpt(line, source):
    """What show_refusal puts below an error line."""
    out = io.StringIO()
    show_refusal.show(line.encode() + b"\n", source.encode(), out)
    return out.getvalue().splitlines()


def problem(line):
    """What the matcher finds in a line."""
    pattern = json.loads((FOLDER / "problem_matcher.json").read_text())["problemMatcher"][0]["pattern"][0]
    found = re.search(pattern["regexp"], line)
    return found and tuple(found.group(pattern[key]) for key in ("file", "line", "column", "severity", "message", "code"))


def script(words, given=b""):
    """The status, the output and the error output of a script."""
    run = subprocess.run([sys.executable, *words], input=given, capture_output=True)
    return run.returncode, run.stdout, run.stderr


def runs():
    """Runs of whole scripts, each with what comes and what has to come."""
    firtool, shower = str(FOLDER / "from_firtool.py"), str(FOLDER / "show_refusal.py")
    with tempfile.TemporaryDirectory() as folder:
        output = pathlib.Path(folder) / "out.mlir"
        text = b"hw.module @M() {} loc(unknown)\n"
        yield "output file", (*script([firtool, "-", "-o", str(output)], text)[:2], output.read_bytes()), (0, b"", b"hw.module @M() {}\n")
        yield "refusal", script([firtool], b"sv.x\n"), (1, b"", b"<stdin>:1:1: `sv.x` cannot be kept: circt does not read it here\n")
        yield "words", script([firtool, "--x"])[:2], (2, b"")
        yield "no file", script([firtool, f"{folder}/x"]), (5, b"", f"from_firtool: cannot read {folder}/x\n".encode())
        yield "no folder", script([firtool, "-o", f"{folder}/x/y"], text), (6, b"", f"from_firtool: cannot write {folder}/x/y\n".encode())
        yield "other bytes", script([firtool], b'hw.module @M() attributes {a = "\xff"} {} loc(#l)\n')[:2], (
            0, b'hw.module @M() attributes {a = "\xff"} {}\n')
        source = pathlib.Path(folder) / "a.mlir"
        source.write_text("hw.module @M() { ; }\n")
        line = f"{source}:1:18: error: 'hw.module' S1: bad byte\n"
        shown = f"{line}    1 | hw.module @M() {{ ; }}\n      |                  ^\n".encode()
        yield "lines", script([shower], line.encode()), (0, shown, b"")
        yield "a command", script([shower, sys.executable, "-c", f"import sys; sys.stderr.write({line!r}); sys.exit(1)"]), (1, b"", shown)
        yield "a command's output", script([shower, sys.executable, "-c", "print(input())"], b"x\n"), (0, b"x\n", b"")


def accepted():
    """The texts of the examples that circt reads, by their files."""
    for file in sorted(support.EXAMPLES.rglob("*.mlir")):
        if file.name.endswith(".opt.mlir") or file.with_suffix(".opt.mlir").exists() or file.with_suffix(".v").exists():
            for text in support.cases_of(file):
                yield str(file.relative_to(support.EXAMPLES)), text


def tests():
    """Each test: what it shows, what came and what had to come."""
    for label, text, expected in CONVERSIONS:
        yield f"conversion: {label}", conversion(text), expected
        if not expected[0].isdigit():
            yield f"conversion again: {label}", conversion(expected), expected
            yield f"lines: {label}", conversion(text).count("\n"), text.count("\n")
    for name, text in accepted():
        yield f"nothing to take out: {name}", conversion(text), text
    for text, expected in SUMMARIES:
        yield f"summary: {expected}", from_firtool.convert(text)[1], expected
    for line, source, expected in EXCERPTS:
        yield f"excerpt: {line}", excerpt(line, source), [line, *expected]
    for line, expected in PROBLEMS:
        yield f"problem: {line}", problem(line), expected
    for label, came, expected in runs():
        yield f"run: {label}", came, expected


def main():
    """Says which tests fail."""
    count = failed = 0
    for label, came, expected in tests():
        count += 1
        if came != expected:
            failed += 1
            print(f"{label}\nexpected:\n{expected}\ncame:\n{came}\n")
    print(f"{count - failed} passed, {failed} failed")
    sys.exit(1 if failed else 0)


if __name__ == "__main__":
    main()
