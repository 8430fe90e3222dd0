#!/usr/bin/env python3
"""Gives the program texts that are nearly right, and asks of each answer what holds of every answer.

    fuzz.py PROGRAM [TEXTS [SEED [FOLDER]]]     by default 10000 texts, seed 1; findings go into FOLDER, by default /tmp/findings

The texts are mutations of the cases of `examples/` (bytes, tokens, lines, whole operations, numbers at limits, splices of two
texts), drawn from the seed, so a run can be repeated. As many runs go side by side as there are processors. Of ten texts one is
a formula or a proof of one, one a step file, and one a text in the AIGER format, in place of a design. Of each design it asks:

* no run ends by a signal (one that works for 120 seconds does), and each by a status of the table: 0 to 4, or 7 with its line
  where 1 GB of memory does not suffice, which is counted;
* a text that is refused gives one error line of the form `<stdin>:LINE:COL: error: 'OPERATION' CODE: TEXT`, whose line and
  column lie in the text, and nothing on the output; an accepted one gives no error message;
* what `opt` prints is accepted again and printed as the same text; `translate` of it gives the Verilog of the source;
* passes in any order are accepted, what they print is accepted again, and the Verilog of it is made;
* `lec` of each public module of the source against itself, and against what passes made of it, says `==`, or `unknown`, or
  that the ports or registers are others, or that there are too many gates;
* its text in the AIGER format, unless it is refused for one of A1 to A4, has no fault, and its variables stand in order (this is
  looked at below 1 MB).

Of each formula and proof it asks that `check` verifies it, or refuses one of both with its line, which lies in that text or just
after it; and that what is verified is refuted indeed where the formula has few variables.

Of each step file of two registers it asks that `sim` prints the lines that are computed here, or refuses the line for the cause that
is found here. Of each text in the AIGER format, that it is refused at the line and for the cause that is found here, or that what is
printed of it is printed again as the same text, and is exported as a text that runs as it does.
"""
import multiprocessing
import multiprocessing.util
import os
import pathlib
import random
import re
import resource
import shutil
import sys
import tempfile

sys.dont_write_bytecode = True
import aiger
import support

ERROR_LINE = re.compile(rb"\A([^\n]*):(\d+):(\d+): error: '([^'\n]*)' ([SVLPMAG]\d+): [^\n]+\n\Z", re.DOTALL)
TOKEN = re.compile(r"\"(?:[^\"\\\n]|\\.)*\"|[%@#!]?[A-Za-z_$.0-9][\w$.\-]*|->|[^\s]|[ \t]+|\n")
NUMBER = re.compile(r"\d+")
LIMITS = ["0", "1", "2", "127", "128", "129", "255", "256", "4095", "4096", "65535", "65536", "2147483647", "2147483648",
          "4294967295", "4294967296", "18446744073709551615", "18446744073709551616", "340282366920938463463374607431768211455",
          "340282366920938463463374607431768211456", "-1", "-128", "007", "0x1F"]
PASSES = ["canonicalize", "cse", "seq-lower-regs", "hw-lower-aggregates", "hw-flatten-modules", "symbol-dce"]
ON_BODIES = {"canonicalize", "cse", "seq-lower-regs"}
SECONDS = 120
MEMORY = 1 << 30


def corpus():
    """The cases of all examples, without their labels."""
    texts = []
    for file in sorted(support.EXAMPLES.rglob("*.mlir")):
        if ".opt" not in file.name:
            texts += [case.split("\n", 1)[-1] if case.startswith("//") else case for case in support.cases_of(file)]
    return [text for text in texts if len(text) < 20000]


# ---- mutations: each makes a text of a text, by a source of chance and the other texts


def change_byte(chance, text, _texts):
    if not text:
        return text
    at = chance.randrange(len(text))
    kind = chance.randrange(3)
    new = chr(chance.choice([0, 9, 10, 13, 32, 34, 37, 64, 92, 127, chance.randrange(33, 126)]))
    return text[:at] + ("" if kind == 0 else new) + text[at + (kind != 1):]


def change_token(chance, text, texts):
    tokens = TOKEN.findall(text)
    if not tokens:
        return text
    at = chance.randrange(len(tokens))
    kind = chance.randrange(4)
    if kind == 0:
        del tokens[at]
    elif kind == 1:
        tokens.insert(at, tokens[at])
    elif kind == 2:
        other = chance.randrange(len(tokens))
        tokens[at], tokens[other] = tokens[other], tokens[at]
    else:
        tokens[at] = chance.choice(TOKEN.findall(chance.choice(texts)) or [""])
    return "".join(tokens)


def change_line(chance, text, texts):
    lines = text.splitlines(keepends=True)
    if not lines:
        return text
    at = chance.randrange(len(lines))
    kind = chance.randrange(4)
    if kind == 0:
        del lines[at]
    elif kind == 1:
        lines.insert(at, lines[at])
    elif kind == 2:
        other = chance.randrange(len(lines))
        lines[at], lines[other] = lines[other], lines[at]
    else:
        lines.insert(at, chance.choice(chance.choice(texts).splitlines(keepends=True) or [""]))
    return "".join(lines)


def change_operand(chance, text, _texts):
    """Another value, or another keyword of the text, in the place of one."""
    sigil = chance.choice(["%", "@", "i", "comb.", "seq.", "hw."])
    found = [m for m in TOKEN.finditer(text) if m[0].startswith(sigil)]
    if len(found) < 2:
        return text
    one, other = chance.sample(found, 2)
    return text[:one.start()] + other[0] + text[one.end():]


def change_number(chance, text, _texts):
    found = list(NUMBER.finditer(text))
    if not found:
        return text
    one = chance.choice(found)
    near = str(max(0, int(one[0]) + chance.choice([-1, 1]))) if len(one[0]) < 40 else "0"
    return text[:one.start()] + chance.choice(LIMITS + [near] * len(LIMITS)) + text[one.end():]


def splice(chance, text, texts):
    other = chance.choice(texts)
    return text[:chance.randrange(len(text) + 1)] + other[chance.randrange(len(other) + 1):]


def join(chance, text, texts):
    """Two texts as one, so that instances find modules of both."""
    return text + "\n" + chance.choice(texts)


MUTATIONS = [change_byte, change_token, change_token, change_line, change_line, change_operand, change_operand, change_operand,
             change_number, change_number, splice, join]


def mutated(seed, number, texts):
    chance = random.Random(f"{seed} {number}")
    text = chance.choice(texts)
    for _ in range(chance.choice([0, 1, 1, 1, 2, 2, 3, 5])):
        text = chance.choice(MUTATIONS)(chance, text, texts)
    return text, chance


# ---- what holds of every answer


class Finding(Exception):
    """An answer that no text may have."""


class OutOfMemory(Exception):
    """A run that wants more memory than it is given."""


class Program:
    """The program, with a folder in which its runs have their files."""

    def __init__(self, path):
        self.path = path
        self.folder = pathlib.Path(tempfile.mkdtemp(dir="/dev/shm" if os.path.isdir("/dev/shm") else None))
        self.second = str(self.folder / "second")
        names = [str(self.folder / name) for name in ("in", "out", "err")]
        self.source, self.out, self.err = names
        new = os.O_WRONLY | os.O_CREAT | os.O_TRUNC
        self.places = [(os.POSIX_SPAWN_OPEN, 0, self.source, os.O_RDONLY, 0), (os.POSIX_SPAWN_OPEN, 1, self.out, new, 0o600),
                       (os.POSIX_SPAWN_OPEN, 2, self.err, new, 0o600)]

    def run(self, words, text):
        """The status, the output and the error message of a run on a text as standard input."""
        write(self.source, text)
        child = os.posix_spawn(self.path, [self.path, *words], os.environ, file_actions=self.places)
        resource.prlimit(child, resource.RLIMIT_CPU, (SECONDS, SECONDS))
        _, status = os.waitpid(child, 0)
        code, out, err = os.waitstatus_to_exitcode(status), read(self.out), read(self.err)
        if code == 7 and not out and err == b"circt: out of memory\n":
            raise OutOfMemory()
        if code < 0 or code > 4:
            raise Finding(f"{' '.join(words)}: status {code}, {err[:300]!r}")
        if code == 1:
            self.check_refusal(words, text, out, err)
        elif err:
            raise Finding(f"{' '.join(words)}: status {code}, and an error message {err[:300]!r}")
        return code, out

    def check_refusal(self, words, text, out, err):
        if out:
            raise Finding(f"{' '.join(words)}: refused, and {len(out)} bytes on the output")
        line = ERROR_LINE.match(err)
        if not line:
            raise Finding(f"{' '.join(words)}: error message {err[:300]!r}")
        if line[5].startswith(b"L"):
            return
        lines = (read(self.second) if line[1] == self.second.encode() else text).split(b"\n")
        row, column = int(line[2]), int(line[3])
        last = len(lines) + 1 if line[5][:1] in b"PMG" else len(lines)
        if not (1 <= row <= last and 1 <= column <= len((lines + [b""])[row - 1]) + 1):
            raise Finding(f"{' '.join(words)}: {err[:300]!r} lies outside the text")

    def taken(self, words, text, why):
        """The output of a run that has to end well."""
        status, out = self.run(words, text)
        if status != 0:
            raise Finding(f"{' '.join(words)}: status {status} of {why}")
        return out


def read(path):
    with open(path, "rb") as file:
        return file.read()


def write(path, text):
    with open(path, "wb") as file:
        file.write(text)


def pipeline_of(chance):
    passes = [chance.choice(PASSES) for _ in range(chance.randrange(1, 6))]
    items = [f"hw.module({p})" if p in ON_BODIES else p for p in passes]
    return f"--pass-pipeline=builtin.module({','.join(items)})"


def check_design(program, text, chance):
    """Whether the text is accepted. It raises a finding."""
    status, printed = program.run(["opt"], text)
    other, verilog = program.run(["translate", "--export-verilog"], text)
    if other != status:
        raise Finding(f"opt ends with {status}, translate with {other}")
    if status != 0:
        return False
    if program.taken(["opt"], printed, "what opt printed") != printed:
        raise Finding("opt of what opt printed is another text")
    if program.taken(["translate", "--export-verilog"], printed, "what opt printed") != verilog:
        raise Finding("translate of what opt printed is another text")
    program.taken(["translate", "--export-verilog", "--lowering-options=implicitExtension"], text, "an accepted text")
    words = pipeline_of(chance)
    made = program.taken(["opt", words, "--workers", str(chance.choice([1, 2, 4]))], text, "an accepted text")
    if program.taken(["opt"], made, f"what {words} made") != made:
        raise Finding(f"opt of what {words} made is another text")
    program.taken(["translate", "--export-verilog"], made, f"what {words} made")
    check_export(program, text, [])
    check_export(program, text, [words])
    check_verdicts(program, text, made, words)
    return True


def check_export(program, text, words):
    """Whether the text of a design in the AIGER format is right, where there is one."""
    status, made = program.run(["translate", "--export-aiger", *words], text)
    if status == 1 and b"' A" not in read(program.err):
        raise Finding(f"--export-aiger refuses an accepted text: {read(program.err)!r}")
    if status == 0 and len(made) < 1 << 20 and (aiger.first_fault(made) or not aiger.is_in_order(aiger.read_text(made.decode("latin-1")))):
        raise Finding(f"--export-aiger: {aiger.first_fault(made)} or another order, {made[:200]!r}")


def check_verdicts(program, text, made, words):
    names = re.findall(rb"^\s*hw\.module @([A-Za-z_][\w$.]*)\s*\(", text, re.MULTILINE)[:2]
    write(program.second, made)
    for name in {name.decode() for name in names}:
        asked = ["-c1", name, "-c2", name, "--conflict-limit", "2000"]
        status, out = program.run(["lec", "-", *asked], text)
        if status == 3:
            raise Finding(f"lec of {name} against itself: {out[:200]!r}")
        status, out = program.run(["lec", "-", program.second, *asked], text)
        if status == 3:
            raise Finding(f"lec of {name} against what {words} made of it: {out[:200]!r}")


# ---- formulas and proofs


def formula_and_proof(chance):
    """A formula of few variables that nothing satisfies, and a proof of it that resolves all clauses of each variable in turn."""
    variables = chance.randrange(1, 4)
    rows = [[(v + 1) * (1 if bits >> v & 1 else -1) for v in range(variables)] for bits in range(1 << variables)]
    lines, known, number = [], {tuple(row): k for k, row in enumerate(rows, 1)}, len(rows)
    for size in reversed(range(variables)):
        for bits in range(1 << size):
            row = tuple((v + 1) * (1 if bits >> v & 1 else -1) for v in range(size))
            number += 1
            known[row] = number
            lines.append(f"{number} {' '.join(map(str, row + (0,)))} {known[row + (size + 1,)]} {known[row + (-size - 1,)]} 0")
    clauses = [" ".join(map(str, row + [0])) for row in rows]
    return "\n".join([f"p cnf {variables} {len(rows)}", *clauses]) + "\n", "\n".join(lines) + "\n"


def is_satisfiable(formula):
    """Whether a formula of at most twelve variables has an assignment that satisfies it."""
    words = [word for line in formula.split(b"\n") if not line.startswith(b"c") for word in line.split()]
    variables, numbers = int(words[2]), [int(word) for word in words[4:]]
    clauses, clause = [], []
    for number in numbers:
        if number:
            clause.append(number)
        else:
            clauses.append(clause)
            clause = []
    return variables <= 12 and any(all(any((bits >> (abs(l) - 1) & 1) == (l > 0) for l in c) for c in clauses)
                                   for bits in range(1 << variables))


def check_proof(program, number):
    """Whether a formula and a proof, of which one is changed, are verified. It raises a finding."""
    chance = random.Random(f"{SEED} {number}")
    texts = list(formula_and_proof(chance))
    which = chance.randrange(2)
    for _ in range(chance.choice([0, 1, 1, 2, 3])):
        texts[which] = chance.choice(MUTATIONS)(chance, texts[which], formula_and_proof(chance))
    formula, proof = (text.encode("utf-8", "surrogateescape") for text in texts)
    write(program.second, proof)
    status, out = program.run(["check", "-", program.second], formula)
    if status not in (0, 1) or (status == 0 and out != b"verified\n"):
        raise Finding(f"check: status {status}, {out[:200]!r}")
    if status == 0 and is_satisfiable(formula):
        raise Finding("check verifies a proof of a formula that is satisfied")
    return status == 0


# ---- step files

REGISTERS = (support.EXAMPLES / "two_registers.mlir").read_bytes()
LITERAL = re.compile(rb"([1-9][0-9]*)'h([0-9a-fA-F]+)")
HELD, INPUTS = [8, 8], [1, 1, 1, 8]


def row_text(chance, widths):
    return " ".join(f"{width}'h{chance.randrange(1 << width):{chance.choice('xX')}}" for width in widths)


def step_text(chance):
    rows = [row_text(chance, INPUTS) + "\n" * chance.choice([1, 1, 1, 2]) for _ in range(chance.randrange(6))]
    return f"state {row_text(chance, HELD)}\n" + "".join(rows)


def row_of(words, widths):
    """The values of literals of these widths, or the cause for which they are none."""
    found = [LITERAL.fullmatch(word) for word in words]
    if not all(found) or any(int(m[2], 16) >> min(int(m[1]), 1000) for m in found):
        return None, b"M1"
    if len(words) != len(widths):
        return None, b"M2"
    return ([int(m[2], 16) for m in found], None) if [int(m[1]) for m in found] == widths else (None, b"M3")


def simulated(text):
    """What `sim` prints of the two registers, or the line and the cause that it refuses."""
    lines = text.removesuffix(b"\n").split(b"\n") if text else []
    held, printed = None, []
    for number, line in enumerate(lines, 1):
        words = re.split(rb"[ \t\r]+", line.strip(b" \t\r"))
        if words == [b""]:
            continue
        if held is None and words[0] != b"state":
            return number, b"M1"
        values, cause = row_of(words[1:], HELD) if held is None else row_of(words, INPUTS)
        if cause:
            return number, cause
        if held is None:
            held = values
            continue
        clock, reset, enable, data = values
        printed.append(b"8'h%X 8'h%X\n" % tuple(held))
        held = ([9, 9] if reset else [data, held[0]] if enable else held) if clock else held
    return (len(lines) + 1, b"M1") if held is None else b"".join(printed)


def check_steps(program, number):
    """Whether a step file is run. It raises a finding."""
    chance = random.Random(f"{SEED} {number}")
    text = step_text(chance)
    for _ in range(chance.choice([0, 1, 1, 2, 3])):
        text = chance.choice(MUTATIONS)(chance, text, [step_text(chance)])
    source = text.encode("utf-8", "surrogateescape")
    write(program.second, REGISTERS)
    status, out = program.run(["sim", program.second, "-", "--top", "Two"], source)
    said = simulated(source)
    if status == 0 and out != said:
        raise Finding(f"sim: {out[:200]!r}, not {said!r}")
    if status == 1 and read(program.err) != b"<stdin>:%d:1: error: 'sim' %s: %s\n" % (*said, CAUSES[said[1]]):
        raise Finding(f"sim: {read(program.err)!r}, not {said!r}")
    return status == 0


CAUSES = {b"M1": b"bad line", b"M2": b"wrong number of literals", b"M3": b"wrong width"}


# ---- texts in the AIGER format


def random_aiger(chance):
    """A text of few inputs, latches and gates, in some order, with some numbers of variables."""
    inputs, latches, gates = chance.randrange(4), chance.randrange(3), chance.randrange(7)
    count = inputs + latches + gates
    variables = chance.sample(range(1, count + 1 + chance.choice([0, 0, 2])), count)
    known = [0] + variables[: inputs + latches]

    def literal(among):
        return 2 * chance.choice(among) + chance.randrange(2)

    rows = []
    for variable in variables[inputs + latches :]:
        rows.append((2 * variable, literal(known), literal(known)))
        known.append(variable)
    chance.shuffle(rows)
    held = [(2 * v, literal(known)) for v in variables[inputs : inputs + latches]]
    tree = aiger.Aiger([2 * v for v in variables[:inputs]], held, [literal(known) for _ in range(chance.randrange(3))], rows,
                       {"i0": "a"} if chance.randrange(2) else {})
    lines = aiger.ascii_text(tree).split("\n")
    for k in range(1 + inputs, 1 + inputs + latches):
        lines[k] += chance.choice(["", "", " 0", " 1", " " + lines[k].split()[0]])
    return "\n".join(lines) + chance.choice(["", "", "c\nx\n"])


def check_aiger(program, number):
    """Whether a text in the AIGER format is accepted. It raises a finding."""
    chance = random.Random(f"{SEED} {number}")
    text = random_aiger(chance)
    for _ in range(chance.choice([0, 1, 1, 1, 2, 3])):
        text = chance.choice(MUTATIONS)(chance, text, [random_aiger(chance)])
    source = text.encode("utf-8", "surrogateescape")
    fault = aiger.first_fault(source)
    status, printed = program.run(["translate", "--import-aiger"], source)
    if (status == 1) != (fault is not None):
        raise Finding(f"--import-aiger: status {status}, {fault} was expected")
    if fault:
        line, code = fault
        if read(program.err) != b"<stdin>:%d:1: error: 'aiger' %s: %s\n" % (line, code.encode(), CAUSES[code.encode()]):
            raise Finding(f"--import-aiger: {read(program.err)!r}, not {fault}")
        return False
    if program.taken(["opt"], printed, "what --import-aiger printed") != printed:
        raise Finding("opt of what --import-aiger printed is another text")
    made = program.taken(["translate", "--export-aiger"], printed, "what --import-aiger printed")
    compare_runs(aiger.read_text(text), aiger.read_text(made.decode()), chance)
    return True


def compare_runs(left, right, chance):
    """Two trees have to run alike from one content."""
    held = [[chance.randrange(2) for _ in left.latches]] * 2
    for _ in range(6):
        inputs = [chance.randrange(2) for _ in left.inputs]
        (one, first), (two, second) = aiger.step(left, inputs, held[0]), aiger.step(right, inputs, held[1])
        if one != two:
            raise Finding(f"the imported text runs otherwise: {one}, {two}")
        held = [first, second]


CAUSES.update({b"G1": b"bad line", b"G2": b"literal out of range", b"G3": b"literal defined twice", b"G4": b"literal not defined",
               b"G5": b"cycle of gates"})


def check_one(program, number, source, chance):
    """Whether the text of a number is accepted: a design, or a formula and a proof, a step file, a text in the AIGER format."""
    if number % 10 == 9:
        return check_proof(program, number)
    if number % 10 == 7:
        return check_aiger(program, number)
    return check_steps(program, number) if number % 10 == 8 else check_design(program, source, chance)


# ---- the run


def check_number(number):
    """Whether the text of a number is accepted, whether memory did not suffice, and what was found, if anything."""
    text, chance = mutated(SEED, number, TEXTS)
    source = text.encode("utf-8", "surrogateescape")
    try:
        return check_one(PROGRAM, number, source, chance), False, None
    except OutOfMemory:
        return True, True, None
    except Finding as finding:
        for file in PROGRAM.folder.iterdir():
            shutil.copy(file, FOLDER / f"{SEED}_{number}.{file.name}")
        write(FOLDER / f"{SEED}_{number}.mlir", source)
        return False, False, f"{SEED}_{number}.mlir: {finding}"


def begin_worker(path):
    """Each worker has its files and its limits, which its runs have too."""
    global PROGRAM
    PROGRAM = Program(path)
    resource.setrlimit(resource.RLIMIT_AS, (MEMORY, MEMORY))
    resource.setrlimit(resource.RLIMIT_CORE, (0, 0))
    multiprocessing.util.Finalize(PROGRAM, shutil.rmtree, (PROGRAM.folder, True), exitpriority=1)


def main(path):
    count = support.number_word(2, 10000)
    accepted, short, findings = 0, 0, 0
    with multiprocessing.Pool(os.cpu_count(), begin_worker, (path,)) as pool:
        for number, (is_accepted, is_short, finding) in enumerate(pool.imap(check_number, range(count), 50), 1):
            accepted += is_accepted
            short += is_short
            if finding:
                findings += 1
                print(finding, flush=True)
            if number % 10000 == 0:
                print(f"{number} texts, {accepted} accepted, {short} short of memory, {findings} findings", flush=True)
        pool.close()
        pool.join()
    print(f"{count} texts, {accepted} accepted, {short} short of memory, {findings} findings")
    return findings > 0


if __name__ == "__main__":
    SEED = support.number_word(3, 1)
    FOLDER = pathlib.Path(sys.argv[4] if len(sys.argv) > 4 else "/tmp/findings")
    FOLDER.mkdir(parents=True, exist_ok=True)
    TEXTS = corpus()
    sys.exit(main(os.path.abspath(support.program_word(__doc__))))
