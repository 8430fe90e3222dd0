#!/usr/bin/env python3
"""Takes out of a text of CIRCT's printers what circt refuses and what carries no behaviour.

    from_firtool.py [FILE] [-o FILE]     `-`, or no file, is standard input; the text goes to standard output

Taken out are locations (`loc(..)`, behind operations and ports), aliases of attributes (`#loc = ..`), entries of dictionaries whose
value circt does not read (`0 : ui64`, `#hw.output_file<..>`, `{..}`, types, numbers with a point), dictionaries of ports, symbols of
wires and registers (`sym @s`), and the word `public`. Names that are written as words (`name "w"`) are put into the dictionary. Aliases
of types, and `!hw.typealias<..>`, are replaced by what they stand for. Lines stay where they are, so that a later refusal names the
line of the given text. What was done is said in a line on the error output.

Refused, with a line on the error output, nothing on the output and the exit status 1, is what carries behaviour or structure that
cannot be kept: operations that circt does not read, the generic form, parameters, `inout` ports, types that circt does not read,
initial values of registers. All else is left as it is, and circt has the last word. The exit status is 2 for bad arguments, and 5 or 6
where a file cannot be read or written.
"""
import re
import sys

OPERATIONS = set("""
comb.add comb.mul comb.and comb.or comb.xor comb.sub comb.divu comb.modu comb.divs comb.mods comb.shl comb.shru comb.shrs comb.icmp
comb.parity comb.extract comb.concat comb.replicate comb.mux hw.constant hw.aggregate_constant hw.array_create hw.array_concat
hw.array_get hw.array_slice hw.array_inject hw.struct_create hw.struct_extract hw.struct_inject hw.struct_explode hw.bitcast hw.wire
hw.instance hw.output seq.compreg seq.compreg.ce seq.firreg
""".split())
# Operations with a name of their own.
NAMED = {"hw.wire", "seq.compreg", "seq.compreg.ce", "seq.firreg"}
TYPES = {"!seq.clock", "!hw.array", "!hw.struct"}
# Words before a value that a register has at first.
FIRST_VALUES = {"initial", "preset", "powerOn"}

TOKEN = re.compile(r"""
    (?P<blank> \s+ | //[^\n]* )
  | (?P<string> "(?:[^"\\\n]|\\.)*" )
  | (?P<symbol> @(?:"(?:[^"\\\n]|\\.)*"|[\w$.-]+) )
  | (?P<value> %[\w$.-]+ )
  | (?P<hash> \#[\w$.-]+ )
  | (?P<type> ![A-Za-z_][\w$.]* )
  | (?P<number> 0x[0-9A-Fa-f]+ | \d+\.\d*(?:[eE][-+]?\d+)? | \d+ )
  | (?P<name> [A-Za-z_][\w$.]* )
  | (?P<mark> -> | :: | . )
""", re.X | re.S)


class Refused(Exception):
    """What cannot be kept, with its place."""


class Token:
    """A piece of the text, with the places where it begins and ends."""

    def __init__(self, kind, text, begin):
        self.kind, self.text, self.begin, self.end = kind, text, begin, begin + len(text)


def tokens_of(text):
    """The tokens of a text, without blanks and comments."""
    return [Token(found.lastgroup, found.group(), found.start()) for found in TOKEN.finditer(text) if found.lastgroup != "blank"]


class Text:
    """A text that is gone through from its first token to its last, and what is changed of it."""

    def __init__(self, text):
        self.text, self.tokens, self.at = text, tokens_of(text), 0
        self.edits, self.done, self.aliases = [], {}, {}

    # ---- tokens

    def token(self, ahead=0):
        """A token from here on; behind the last one stands an empty one."""
        index = self.at + ahead
        return self.tokens[index] if index < len(self.tokens) else Token("end", "", len(self.text))

    def is_next(self, *texts):
        """Whether the next tokens are these."""
        return all(self.token(ahead).text == text for ahead, text in enumerate(texts))

    def refuse(self, token, why):
        """Ends with the place of a token."""
        line = self.text.count("\n", 0, token.begin) + 1
        column = len(self.text[self.text.rfind("\n", 0, token.begin) + 1:token.begin].encode()) + 1
        raise Refused(f"{line}:{column}: {why}")

    def want(self, text):
        """Passes this token."""
        if self.token().text != text:
            self.refuse(self.token(), f"`{text}` is wanted here")
        self.at += 1

    def pass_group(self):
        """Passes a bracket with all that stands in it."""
        closing = {"(": ")", "[": "]", "{": "}", "<": ">"}
        first, open_ones = self.token(), []
        while True:
            token = self.token()
            if token.kind == "end":
                self.refuse(first, "this bracket is not closed")
            self.at += 1
            if token.kind == "mark" and token.text in closing:
                open_ones.append(closing[token.text])
            elif token.kind == "mark" and open_ones and token.text == open_ones[-1]:
                open_ones.pop()
            if not open_ones:
                return

    # ---- changes

    def note(self, what, name=None):
        """Counts a change."""
        count, names = self.done.get(what, (0, []))
        self.done[what] = count + 1, names if name is None or name in names else [*names, name]

    def replace(self, begin, end, new):
        """Puts another text in place of a part, with as many lines."""
        lines = self.text.count("\n", begin, end) - new.count("\n")
        self.edits.append((begin, end, new + "\n" * lines))

    def take_out(self, begin, end):
        """Takes a part out, with the blanks before it on its line."""
        while begin > 0 and self.text[begin - 1] in " \t":
            begin -= 1
        self.replace(begin, end, "")

    def changed(self):
        """The text with all changes."""
        pieces, at = [], 0
        for begin, end, new in sorted(self.edits):
            pieces += [self.text[at:begin], new]
            at = end
        return "".join([*pieces, self.text[at:]])

    def summary(self):
        """What was done, in words."""
        said = {}
        for what, (count, names) in self.done.items():
            verb, thing = (what if count == 1 else PLURALS[what]).split(":")
            said.setdefault(verb, []).append(f"{count} {thing}" + (f" ({', '.join(names)})" if names else ""))
        return "; ".join(f"{verb} {', '.join(things)}" for verb, things in said.items()) or "nothing to take out"

    # ---- parts of a file

    def file(self):
        """Goes through a file."""
        while self.token().kind != "end":
            token = self.token()
            if token.kind == "hash" and self.token(1).text == "=":
                self.attribute_alias()
            elif token.kind == "type" and self.token(1).text == "=":
                self.type_alias()
            elif token.text in ("module", "builtin.module"):
                self.wrapper()
            elif token.text == "hw.module":
                self.module()
            elif token.text == "}" and token.kind == "mark":
                self.at += 1
            elif not self.location():
                self.no_operation(token)

    def no_operation(self, token):
        """Refuses what is no operation here."""
        if token.kind == "string":
            self.refuse(token, "the generic form of operations cannot be read")
        if token.kind == "name":
            self.refuse(token, f"`{token.text}` cannot be kept: circt does not read it here")
        self.refuse(token, f"`{token.text}` is unexpected here")

    def location(self):
        """Takes out a location, if one is next."""
        if not self.is_next("loc", "("):
            return False
        begin = self.token().begin
        self.at += 1
        self.pass_group()
        self.take_out(begin, self.tokens[self.at - 1].end)
        self.note("took out:location")
        return True

    def attribute_alias(self):
        """Takes out the alias of an attribute."""
        first = self.token()
        self.at += 2
        self.attribute()
        self.take_out(first.begin, self.tokens[self.at - 1].end)
        self.note("took out:attribute alias", first.text)

    def type_alias(self):
        """Takes out the alias of a type, whose text is kept."""
        first = self.token()
        self.at += 2
        begin = self.token().begin
        edits = self.edits
        self.edits = []
        self.type()
        text = Text.__new__(Text)
        text.text = self.text[begin:self.tokens[self.at - 1].end]
        text.edits = [(one - begin, end - begin, new) for one, end, new in self.edits]
        self.aliases[first.text] = text.changed().replace("\n", " ")
        self.edits = edits
        self.take_out(first.begin, self.tokens[self.at - 1].end)
        self.note("wrote out:type alias", first.text)

    def wrapper(self):
        """Goes through the beginning of a file's module."""
        self.at += 1
        if self.token().kind == "symbol":
            self.at += 1
        if self.is_next("attributes"):
            self.at += 1
            self.dictionary(None)
        self.want("{")

    def module(self):
        """Goes through a module."""
        self.at += 1
        if self.is_next("public"):
            self.take_out(self.token().begin, self.token().end)
            self.note("took out:word `public`")
            self.at += 1
        elif self.is_next("private"):
            self.at += 1
        if self.token().kind != "symbol":
            self.refuse(self.token(), "a module's symbol is wanted here")
        self.at += 1
        if self.is_next("<"):
            self.refuse(self.token(), "parameters cannot be kept")
        self.ports()
        if self.is_next("->"):
            self.at += 1
            self.ports()
        if self.is_next("attributes"):
            self.at += 1
            self.dictionary(None)
        self.body()

    def ports(self):
        """Goes through a list of ports."""
        self.want("(")
        while not self.is_next(")"):
            token = self.token()
            if token.kind == "end":
                self.refuse(token, "the list of ports has no end")
            if token.text == "inout" and self.token(1).kind == "value":
                self.refuse(token, "an `inout` port cannot be kept")
            if token.text == "{":
                self.pass_group()
                self.take_out(token.begin, self.tokens[self.at - 1].end)
                self.note("took out:port's dictionary")
            elif not self.location() and not self.known_type():
                self.at += 1
        self.at += 1

    def body(self):
        """Goes through the operations of a module."""
        self.want("{")
        operation, name, depth = None, None, 0
        while depth > 0 or not self.is_next("}"):
            token = self.token()
            if token.kind == "end":
                self.refuse(token, "the module has no end")
            if depth == 0 and token.kind == "name" and "." in token.text:
                if token.text not in OPERATIONS:
                    self.no_operation(token)
                operation, name = token.text, None
                self.at += 1
            elif token.kind == "string" and self.token(1).text == "(":
                self.no_operation(token)
            elif token.text == "{" and token.kind == "mark":
                self.dictionary(name)
                name = None
            elif operation in NAMED and token.text == "sym" and self.token(1).kind == "symbol":
                self.take_out(token.begin, self.token(1).end)
                self.note("took out:symbol of a wire or register", self.token(1).text)
                self.at += 2
            elif operation in NAMED and token.text == "name" and self.token(1).kind == "string":
                name = self.token(1).text
                self.take_out(token.begin, self.token(1).end)
                self.note("rewrote:name as an entry")
                self.at += 2
            elif operation in NAMED and token.kind == "name" and token.text in FIRST_VALUES:
                self.refuse(token, f"`{token.text}`: what a register holds at first cannot be kept")
            elif name is not None and token.text == ":" and depth == 0:
                self.edits.append((token.begin, token.begin, f"{{name = {name}}} "))
                name = None
                self.at += 1
            elif token.kind == "symbol" and self.token(1).text == "<":
                self.refuse(self.token(1), "parameters cannot be kept")
            elif not self.location() and not self.known_type():
                depth += {"(": 1, "[": 1, ")": -1, "]": -1}.get(token.text, 0) if token.kind == "mark" else 0
                self.at += 1
        self.at += 1

    # ---- types

    def known_type(self):
        """Goes through a type with a sign, if one is next; says whether one was. What stands in `<..>` is left."""
        token = self.token()
        if token.kind != "type":
            return False
        if token.text in self.aliases:
            self.replace(token.begin, token.end, self.aliases[token.text])
            self.at += 1
        elif token.text == "!hw.typealias":
            self.named_type()
        elif token.text in TYPES:
            self.at += 1
        else:
            self.refuse(token, f"the type `{token.text}` cannot be kept")
        return True

    def named_type(self):
        """`!hw.typealias<@scope::@name, T>`, of which T is kept."""
        first = self.token()
        self.at += 1
        self.want("<")
        while self.token().kind == "symbol" or self.is_next("::"):
            self.at += 1
        self.want(",")
        self.replace(first.begin, self.token().begin, "")
        self.type()
        closing = self.token()
        self.want(">")
        self.replace(closing.begin, closing.end, "")
        self.note("wrote out:named type")

    def type(self):
        """Goes through a whole type."""
        if self.token().kind == "name":
            self.at += 1
            return
        if not self.known_type():
            self.refuse(self.token(), "a type is wanted here")
        if self.is_next("<"):
            self.at += 1
            open_ones = 1
            while open_ones:
                if self.token().kind == "end":
                    self.refuse(self.token(), "the type has no end")
                if not self.known_type():
                    open_ones += {"<": 1, ">": -1}.get(self.token().text, 0)
                    self.at += 1

    # ---- dictionaries

    def dictionary(self, name):
        """Goes through a dictionary, puts a name into it, and takes out entries whose values are not read."""
        first, before = self.token(), self.tokens[self.at - 1]
        self.want("{")
        kept, dropped = [], []
        while not self.is_next("}"):
            key = self.token()
            if key.kind not in ("name", "string"):
                self.refuse(key, "a key is wanted here")
            self.at += 1
            is_kept = True
            if self.is_next("="):
                self.at += 1
                is_kept = self.attribute()
            text = self.text[key.begin:self.tokens[self.at - 1].end]
            if is_kept:
                kept.append(text)
            else:
                dropped.append(key.text)
            if not self.is_next(","):
                break
            self.at += 1
        last = self.token()
        self.want("}")
        for key in dropped:
            self.note("took out:dictionary entry", key)
        if name is not None:
            kept.insert(0, f"name = {name}")
        if dropped or name is not None:
            if kept:
                self.replace(first.begin, last.end, "{" + ", ".join(kept) + "}")
            elif before.text == "attributes":
                self.take_out(before.begin, last.end)
            else:
                self.take_out(first.begin, last.end)

    def attribute(self):
        """Goes through an attribute, and says whether circt reads it."""
        token = self.token()
        if token.kind == "string" or token.text in ("true", "false"):
            self.at += 1
            is_read = True
        elif token.kind == "symbol":
            self.at += 1
            is_read = not self.is_next("::")
            while self.is_next("::"):
                self.at += 2
        elif token.kind == "number" or token.text == "-":
            return self.number()
        elif token.text == "[":
            return self.list()
        elif token.text in ("{", "(", "<"):
            self.pass_group()
            is_read = False
        elif token.kind in ("hash", "type", "name"):
            self.at += 1
            if self.token().text in ("<", "("):
                self.pass_group()
            is_read = False
        else:
            self.refuse(token, "an attribute is wanted here")
        if self.is_next(":"):
            self.at += 1
            self.attribute()
            is_read = False
        return is_read

    def number(self):
        """Goes through a number with its type, and says whether circt reads it."""
        is_negative = self.is_next("-")
        self.at += is_negative
        digits = self.token().text
        is_read = re.fullmatch(r"0x[0-9A-Fa-f]+|\d+", digits) is not None
        if is_read:
            value = int(digits, 0) if digits.startswith("0x") else int(digits)
            is_read = value <= 1 << 63 if is_negative else value < 1 << 64
        self.at += 1
        if self.is_next(":"):
            self.at += 1
            is_type = re.fullmatch(r"i\d+", self.token().text) is not None or self.token().text in TYPES
            is_read = is_read and is_type
            self.attribute()
        return is_read

    def list(self):
        """Goes through a list, and says whether circt reads it."""
        self.want("[")
        is_read = True
        while not self.is_next("]"):
            is_read = self.attribute() and is_read
            if not self.is_next(","):
                break
            self.at += 1
        self.want("]")
        return is_read


PLURALS = {
    "took out:location": "took out:locations",
    "took out:attribute alias": "took out:attribute aliases",
    "took out:dictionary entry": "took out:dictionary entries",
    "took out:port's dictionary": "took out:ports' dictionaries",
    "took out:symbol of a wire or register": "took out:symbols of wires or registers",
    "took out:word `public`": "took out:words `public`",
    "rewrote:name as an entry": "rewrote:names as entries",
    "wrote out:type alias": "wrote out:type aliases",
    "wrote out:named type": "wrote out:named types",
}


def convert(text):
    """The text that circt may read, and what was done. Raises Refused."""
    whole = Text(text)
    whole.file()
    return whole.changed(), whole.summary()


def words_of(words):
    """The names of the input and of the output."""
    names, output = [], "-"
    words = list(words)
    while words:
        word = words.pop(0)
        if word == "-o" and words:
            output = words.pop(0)
        elif word.startswith("-") and word != "-":
            return None
        else:
            names.append(word)
    return None if len(names) > 1 else (names[0] if names else "-", output)


def main():
    """Reads, converts and writes."""
    files = words_of(sys.argv[1:])
    if files is None:
        sys.stderr.write(__doc__)
        return 2
    source, output = files
    shown = "<stdin>" if source == "-" else source
    try:
        data = sys.stdin.buffer.read() if source == "-" else open(source, "rb").read()
    except OSError:
        sys.stderr.write(f"from_firtool: cannot read {source}\n")
        return 5
    try:
        text, summary = convert(data.decode("utf-8", "surrogateescape"))
    except Refused as refused:
        sys.stderr.write(f"{shown}:{refused}\n")
        return 1
    data = text.encode("utf-8", "surrogateescape")
    try:
        if output == "-":
            sys.stdout.buffer.write(data)
            sys.stdout.buffer.flush()
        else:
            with open(output, "wb") as file:
                file.write(data)
    except OSError:
        sys.stderr.write(f"from_firtool: cannot write {output}\n")
        return 6
    sys.stderr.write(f"{shown}: {summary}\n")
    return 0


if __name__ == "__main__":
    sys.exit(main())
