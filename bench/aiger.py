"""Texts in the AIGER format: read, run, and in both of its forms (AIGER 1.9, Biere, Heljanko and Wieringa)."""
import collections
import re

# A text: inputs, latches (literal, next), outputs, gates (literal, left, right), names of bits by letter and number.
Aiger = collections.namedtuple("Aiger", "inputs latches outputs gates names")


def read_text(text):
    """What a text of the ASCII form says."""
    lines = text.split("\n")
    _, _, inputs, latches, outputs, gates = (int(word) if word.isdigit() else word for word in lines[0].split()[:6])
    rows = [tuple(map(int, line.split())) for line in lines[1 : 1 + inputs + latches + outputs + gates]]
    cut = [0, inputs, inputs + latches, inputs + latches + outputs, len(rows)]
    parts = [rows[a:b] for a, b in zip(cut, cut[1:])]
    names = {}
    for line in lines[1 + len(rows) :]:
        if line == "c":
            break
        if line:
            head, name = line.split(" ", 1)
            names[head] = name
    return Aiger([row[0] for row in parts[0]], [row[:2] for row in parts[1]], [row[0] for row in parts[2]], parts[3], names)


def step(tree, inputs, content):
    """The bits of the outputs, and what the latches hold next; gates may stand in any order."""
    bits = {0: 0}
    bits.update((literal // 2, bit) for literal, bit in zip(tree.inputs, inputs))
    bits.update((latch[0] // 2, bit) for latch, bit in zip(tree.latches, content))

    def value(literal):
        return bits[literal // 2] ^ literal & 1

    waiting = tree.gates
    while waiting:
        later = []
        for literal, left, right in waiting:
            if left // 2 in bits and right // 2 in bits:
                bits[literal // 2] = value(left) & value(right)
            else:
                later.append((literal, left, right))
        waiting = later
    return [value(literal) for literal in tree.outputs], [value(latch[1]) for latch in tree.latches]


# ---- what is wrong with a text of the ASCII form

NUMBER = re.compile(rb"0|[1-9][0-9]*")
SYMBOL = re.compile(rb"[ilo](0|[1-9][0-9]*) .*", re.DOTALL)
MOST_VARIABLE = (1 << 31) - 1


def numbers_of(line, counts):
    """The numbers of a line, of which there are so many, or nothing."""
    words = line.split(b" ")
    if len(words) not in counts or not all(NUMBER.fullmatch(word) for word in words):
        return None
    return [int(word) for word in words]


def header_of(line):
    """The five numbers of the first line, or nothing."""
    if not line.startswith(b"aag "):
        return None
    numbers = numbers_of(line[4:], range(5, 10))
    if numbers is None or any(numbers[5:]) or numbers[0] > MOST_VARIABLE or numbers[0] < numbers[1] + numbers[2] + numbers[4]:
        return None
    return numbers[:5]


def row_of(line, kind):
    """The literal that a line defines, if any, and those that it uses; or nothing."""
    numbers = numbers_of(line, {"input": [1], "latch": [2, 3], "output": [1], "gate": [3]}[kind])
    if numbers is None or (kind == "latch" and len(numbers) == 3 and numbers[2] not in (0, 1, numbers[0])):
        return None
    return (None, numbers) if kind == "output" else (numbers[0], numbers[1:2] if kind == "latch" else numbers[1:])


def kind_at(header, k):
    """What the line of a number behind the first one is."""
    for kind, count in zip(("input", "latch", "output", "gate"), header[1:]):
        if k < count:
            return kind
        k -= count
    return None


def first_fault(text):
    """The line and the code of the first fault of a text in bytes, or nothing."""
    lines = text.removesuffix(b"\n").split(b"\n") if text else []
    header = header_of(lines[0]) if lines else None
    if header is None:
        return 1, "G1"
    defined, rows = set(), []
    for number, line in enumerate(lines[1:], 2):
        kind = kind_at(header, number - 2)
        if kind is None:
            if line == b"c":
                break
            if not SYMBOL.fullmatch(line):
                return number, "G1"
            continue
        row = row_of(line, kind)
        if row is None:
            return number, "G1"
        own, used = row
        if any(literal > 2 * header[0] + 1 for literal in used + [own or 0]) or (own is not None and (own < 2 or own % 2)):
            return number, "G2"
        if own is not None and own // 2 in defined:
            return number, "G3"
        defined.add(None if own is None else own // 2)
        rows.append((number, kind, own, used))
    if kind_at(header, len(lines) - 1) is not None:
        return len(lines) + 1, "G1"
    return undefined_or_cycle(rows, defined)


def undefined_or_cycle(rows, defined):
    """The line and the code of the first literal that no line defines, or of the first gate on a cycle."""
    for number, _, _, used in rows:
        if any(literal > 1 and literal // 2 not in defined for literal in used):
            return number, "G4"
    needs = {own // 2: {literal // 2 for literal in used} for _, kind, own, used in rows if kind == "gate"}
    if all_settle(needs):
        return None
    for number, kind, own, _ in rows:
        if kind == "gate" and own // 2 in reached(needs, own // 2):
            return number, "G5"
    return None


def all_settle(needs):
    """Whether gates can be put into an order in which each needs earlier ones alone: then none is on a cycle."""
    users, left = {}, {}
    for gate, used in needs.items():
        own = [variable for variable in used if variable in needs]
        left[gate] = len(own)
        for variable in own:
            users.setdefault(variable, []).append(gate)
    ready = [gate for gate, count in left.items() if count == 0]
    settled = 0
    while ready:
        settled += 1
        for user in users.get(ready.pop(), ()):
            left[user] -= 1
            if left[user] == 0:
                ready.append(user)
    return settled == len(needs)


def reached(needs, start):
    """The variables that a gate needs, by gates."""
    seen, waiting = set(), list(needs[start])
    while waiting:
        variable = waiting.pop()
        if variable not in seen:
            seen.add(variable)
            waiting += needs.get(variable, ())
    return seen


def number_bytes(number):
    """A number in the binary form: seven bits a byte, the low ones first."""
    out = bytearray()
    while number >= 128:
        out.append(number & 127 | 128)
        number >>= 7
    out.append(number)
    return bytes(out)


def is_in_order(tree):
    """Whether inputs, latches and gates have the variables from 1 on, and each gate's literals fall, as the binary form has it."""
    literals = tree.inputs + [latch[0] for latch in tree.latches] + [gate[0] for gate in tree.gates]
    return literals == list(range(2, 2 * len(literals) + 2, 2)) and all(a > b >= c for a, b, c in tree.gates)


def binary_bytes(tree, starts=None):
    """The binary form of a tree whose variables stand in order. A latch begins with any bit where no start is given."""
    count = len(tree.inputs) + len(tree.latches) + len(tree.gates)
    out = [f"aig {count} {len(tree.inputs)} {len(tree.latches)} {len(tree.outputs)} {len(tree.gates)}\n".encode()]
    out += [f"{latch[1]} {latch[0] if starts is None else starts}\n".encode() for latch in tree.latches]
    out += [f"{literal}\n".encode() for literal in tree.outputs]
    out += [number_bytes(a - b) + number_bytes(b - c) for a, b, c in tree.gates]
    out += [f"{head} {name}\n".encode() for head, name in tree.names.items()]
    return b"".join(out)


def read_binary(data):
    """What a text of the binary form says."""
    end = data.index(b"\n")
    _, inputs, latches, outputs, gates, *more = map(int, data[:end].split()[1:])
    outputs += more[0] if more else 0  # ABC writes the outputs of what has latches as bad states
    place = end + 1

    def line():
        nonlocal place
        stop = data.index(b"\n", place)
        words = data[place:stop].split()
        place = stop + 1
        return [int(word) for word in words]

    def number():
        nonlocal place
        result = shift = 0
        while True:
            byte = data[place]
            place += 1
            result |= (byte & 127) << shift
            shift += 7
            if byte < 128:
                return result

    held = [(2 * (inputs + k + 1), line()[0]) for k in range(latches)]
    given = [line()[0] for _ in range(outputs)]
    rows = []
    for k in range(gates):
        literal = 2 * (inputs + latches + k + 1)
        left = literal - number()
        rows.append((literal, left, left - number()))
    return Aiger([2 * (k + 1) for k in range(inputs)], held, given, rows, {})


def ascii_text(tree):
    """The ASCII form."""
    count = max([literal // 2 for literal in tree.inputs + [row[0] for row in tree.latches + tree.gates]], default=0)
    lines = [f"aag {count} {len(tree.inputs)} {len(tree.latches)} {len(tree.outputs)} {len(tree.gates)}"]
    lines += [" ".join(map(str, row)) for row in [(n,) for n in tree.inputs] + tree.latches + [(n,) for n in tree.outputs] + tree.gates]
    lines += [f"{head} {name}" for head, name in tree.names.items()]
    return "\n".join(lines) + "\n"
