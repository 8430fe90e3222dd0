#!/usr/bin/env python3
"""Runs what README.md and docs/ show, and compares the lists of the guide with the program's own.

    check_guide.py PROGRAM [--write] [FILE..]     the files are by default README.md and docs/*.md

What is shown in a document is run in order, in an empty folder of its own where `examples`, `bench` and `tools` are those of the
repository and `circt` is PROGRAM:

* a block ```mlir or ```verilog whose first line is `// NAME` is the file NAME, that line included. Without a name, a block of
  MLIR has to stand in a file of examples/, and one of Verilog has to be what `translate` prints of the block of MLIR before it;
* a block ```console has commands, each after `$ ` (its further lines after `> `), and below each what it prints, on the output and
  on the error output. A line `...` stands for any lines. A command of the program alone has to end with the status that goes with
  what it prints. A block is not run, and named, where a program that it calls is not there;
* a command in the text, in backquotes, that begins with `circt` and has no word in capitals, brackets or dots, has to end with 0,
  or to print the lines that the text says after `prints`.

Blocks ```sh are not run; they are named. The lists that are compared, each in both directions:

* the operations of docs/LANGUAGE.md (first cells of the tables below `## Operations`) with those of crates/opcode, each of which
  has to stand in a block of MLIR there, and those that are left out with crates/mlir_operations;
* the headings of docs/REFUSALS.md with the causes of crates/diag, with the usages of crates/command_line, and with the other lines
  of crates/circt_top; each section has to show a line with its code and text;
* the options of each command in docs/COMMANDS.md and docs/circt.1 with crates/command_line, and the passes with crates/pass_pipeline.

With `--write` what came is written in place of what is shown: read the difference before it is kept.
"""
import os
import pathlib
import re
import shutil
import subprocess
import sys
import tempfile

sys.dont_write_bytecode = True
import support

TOP = support.TOP
DOCS = TOP / "docs"
# The files of which no line is longer than this.
NARROW = ["docs/LANGUAGE.md", "docs/REFUSALS.md", "docs/COMMANDS.md", "docs/circt.1"]
MOST_CHARACTERS = 120
# The seconds that a command may take.
MOST_SECONDS = 300
# What a command that ends with each status prints, first match first.
STATUSES = [
    (1, re.compile(r"^[^\n]*:\d+:\d+: error: '", re.M)),
    (2, re.compile(r"^circt: usage: ", re.M)),
    (5, re.compile(r"^circt: cannot read ", re.M)),
    (6, re.compile(r"^circt: cannot write ", re.M)),
    (7, re.compile(r"^circt: out of memory$", re.M)),
    (3, re.compile(r"^c1 != c2$", re.M)),
    (4, re.compile(r"^unknown$", re.M)),
]


class Report:
    """What is wrong, what is not run, and how much is run."""

    def __init__(self):
        self.faults, self.skipped, self.commands, self.files = [], [], 0, 0

    def fault(self, where, text):
        """Something differs."""
        self.faults.append(f"{where}: {text}")


class Block:
    """A fenced block: its language, its lines, and the number of its first line."""

    def __init__(self, language, first, lines):
        self.language, self.first, self.lines = language, first, lines


def blocks_and_text(lines):
    """The blocks of a document and the lines of text between them, in order, each with its number."""
    block = None
    for number, line in enumerate(lines, 1):
        fence = re.match(r"^```(\w*)\s*$", line)
        if block is None and fence:
            block = Block(fence.group(1), number + 1, [])
        elif block is not None and line == "```":
            yield block
            block = None
        elif block is not None:
            block.lines.append(line)
        else:
            yield number, line


def commands_of(block):
    """The commands of a console block: the number of the first line, the words, and the lines that are shown below."""
    commands = []
    for number, line in enumerate(block.lines, block.first):
        if line.startswith("$ "):
            commands.append((number, [line[2:]], []))
        elif line.startswith("> ") and commands and not commands[-1][2]:
            commands[-1][1].append(line[2:])
        elif commands:
            commands[-1][2].append(line)
        else:
            raise ValueError(f"line {number}: a console block that does not begin with a command")
    return [(number, "\n".join(words), shown) for number, words, shown in commands]


def is_shown(shown, came):
    """Whether what came is what is shown, where a line `...` stands for any lines."""
    if "..." not in shown:
        return shown == came
    pattern = "".join(r"(?:.*\n)*?" if line == "..." else re.escape(line) + r"\n" for line in shown)
    return re.fullmatch(pattern, "".join(line + "\n" for line in came)) is not None


def missing_program(command):
    """A program that a command calls and that is not there; none where all are."""
    body = re.sub(r"'[^']*'|\"[^\"]*\"", " ", re.sub(r"<<'?END'?\n.*", "", command, flags=re.S))
    for part in re.split(r"\|\||&&|[|;]|\$\(", body):
        for word in part.replace("(", " ").split():
            if re.fullmatch(r"\w+=.*|!|do|done|for|if|then|else|fi|in|while", word):
                continue
            if re.fullmatch(r"[a-z][\w.+-]*", word) and word not in ("circt", "cd", "echo", "ulimit", "wait", "exit", "test", "export"):
                if shutil.which(word) is None:
                    return word
            break
    return None


class Guide:
    """A document, run in a folder of its own."""

    def __init__(self, file, program, report, folder):
        self.file, self.report, self.folder = file, report, pathlib.Path(folder)
        self.name = file.relative_to(TOP).as_posix()
        self.lines = file.read_text(encoding="utf-8").split("\n")
        self.last_source = None
        self.changes = []
        self.checks_addresses = b"AddressSanitizer" in program.read_bytes()
        for name in ("examples", "bench", "tools", "docs"):
            (self.folder / name).symlink_to(TOP / name)
        programs = self.folder / ".bin"
        programs.mkdir()
        (programs / "circt").symlink_to(program)
        self.path = f"{programs}:{os.environ.get('PATH', '/usr/bin:/bin')}"

    def shell(self, command):
        """The status of a command, and the lines that it prints on both outputs."""
        environment = {"PATH": self.path, "LC_ALL": "C.UTF-8", "HOME": str(self.folder)}
        run = subprocess.run(["sh", "-c", command], cwd=self.folder, env=environment, stdin=subprocess.DEVNULL, stdout=subprocess.PIPE,
                             stderr=subprocess.STDOUT, timeout=MOST_SECONDS)
        text = run.stdout.decode("utf-8", "backslashreplace")
        lines = text.split("\n")
        return run.returncode, lines[:-1] if lines[-1] == "" else lines

    def run(self):
        """Runs all that the document shows."""
        for part in blocks_and_text(self.lines):
            if isinstance(part, tuple):
                self.inline(*part)
            elif part.language == "console":
                self.console(part)
            elif part.language in ("mlir", "verilog"):
                self.source(part)
            elif part.language == "sh":
                self.report.skipped.append(f"{self.name}:{part.first}: " + "; ".join(part.lines))

    def console(self, block):
        """Runs the commands of a block."""
        commands = commands_of(block)
        for number, command, shown in commands:
            missing = missing_program(command)
            if missing is not None:
                self.report.skipped.append(f"{self.name}:{number}: {missing} is not there")
                return
            if "ulimit" in command and self.checks_addresses:
                self.report.skipped.append(f"{self.name}:{number}: a limit, which a program that checks addresses does not stand")
                return
        for number, command, shown in commands:
            status, came = self.shell(command)
            self.report.commands += 1
            where = f"{self.name}:{number}"
            if not is_shown(shown, came):
                self.report.fault(where, f"{command}\nshown:\n" + "\n".join(shown) + "\ncame:\n" + "\n".join(came))
                begin = number + command.count("\n")
                self.changes.append((begin, begin + len(shown), came))
            if re.match(r"circt\b[^;|&]*$", command.split("\n")[0]):
                self.check_status(where, command, status, "\n".join(came))

    def check_status(self, where, command, status, text):
        """A status has to go with what is printed."""
        expected = next((code for code, pattern in STATUSES if pattern.search(text)), 0)
        if status != expected:
            self.report.fault(where, f"{command}\nended with {status}, not with {expected}")

    def source(self, block):
        """A block of MLIR or Verilog: a file, or what stands in the examples."""
        name = re.fullmatch(r"// ([\w.-]+\.(?:mlir|v))", block.lines[0])
        text = "".join(line + "\n" for line in block.lines)
        where = f"{self.name}:{block.first}"
        self.report.files += 1
        if name:
            (self.folder / name.group(1)).write_text(text, encoding="utf-8")
        elif block.language == "mlir":
            self.last_source = text
            if not any(text in file.read_text(encoding="utf-8") for file in support.EXAMPLES.rglob("*.mlir")):
                self.report.fault(where, "this text stands in no file of examples/")
        else:
            (self.folder / ".shown.mlir").write_text(self.last_source or "", encoding="utf-8")
            _, came = self.shell("circt translate --export-verilog .shown.mlir")
            if came != block.lines:
                self.report.fault(where, "`translate` prints\n" + "\n".join(came))

    def inline(self, number, line):
        """Runs the commands that stand in a line of text."""
        for span in re.finditer(r"`(circt [^`]+)`", line):
            command = span.group(1)
            if re.search(r"\b[A-Z]{2,}\b|\[|\.\.|\bN\b|\bX\b", command):
                continue
            status, came = self.shell(command)
            self.report.commands += 1
            where = f"{self.name}:{number}"
            said = re.match(r" prints (?:the lines )?`([^`]*)`(?: and `([^`]*)`)?", line[span.end():])
            if said:
                lines = [text for text in said.groups() if text is not None]
                if came != lines:
                    self.report.fault(where, f"{command}\nsaid:\n" + "\n".join(lines) + "\ncame:\n" + "\n".join(came))
                self.check_status(where, command, status, "\n".join(came))
            elif status != 0:
                self.report.fault(where, f"{command}\nended with {status}:\n" + "\n".join(came))

    def manual(self, text):
        """Runs the examples of the manual page, each of which has to end with 0."""
        for command in re.findall(r"^\.Dl \$ (.*)$", text, re.M):
            status, came = self.shell(command)
            self.report.commands += 1
            if status != 0:
                self.report.fault("docs/circt.1", f"{command}\nended with {status}:\n" + "\n".join(came))

    def write(self):
        """Puts what came in place of what is shown."""
        for begin, end, came in reversed(self.changes):
            self.lines[begin:end] = came
        if self.changes:
            self.file.write_text("\n".join(self.lines), encoding="utf-8")


def source_text(path):
    """The text of a source file of the program."""
    return (TOP / "crates" / path).read_text(encoding="utf-8")


def compare(report, where, guide, program):
    """Two lists that have to be the same."""
    for item in sorted(set(program) - set(guide), key=str):
        report.fault(where, f"{item} is missing")
    for item in sorted(set(guide) - set(program), key=str):
        report.fault(where, f"{item} is not the program's")
    for item in sorted({item for item in guide if guide.count(item) > 1}, key=str):
        report.fault(where, f"{item} stands twice")


def section(text, heading):
    """What stands below a heading of the second level, up to the next one."""
    begin = text.find(f"\n## {heading}\n")
    if begin < 0:
        return ""
    begin += 1
    end = text.find("\n## ", begin)
    return text[begin:end if end >= 0 else len(text)]


def check_operations(report):
    """The operations of the language."""
    text = (DOCS / "LANGUAGE.md").read_text(encoding="utf-8")
    program = re.findall(r'Listed::\w+ => b"([\w.]+)"', source_text("opcode/src/listed.rt"))
    part = section(text, "Operations")
    guide = []
    for cell in re.findall(r"^\| ((?:`[\w.]+`(?:, )?)+) \|", part, re.M):
        guide += re.findall(r"`([\w.]+)`", cell)
    compare(report, "docs/LANGUAGE.md", guide, program)
    shown = "\n".join("\n".join(block.lines) for block in blocks_and_text(text.split("\n"))
                      if isinstance(block, Block) and block.language == "mlir")
    left_out = re.search(r"const LEFT_OUT: .*?= \[(.*?)\];", source_text("mlir_operations/src/operation_names.rt"), re.S).group(1)
    rows = re.findall(r"^\| (`.*) \| S4 \|$", text[text.rfind("\n### Operations\n"):], re.M)
    named = [name for row in rows for name in re.findall(r"`((?:hw|comb|seq)\.[\w.]+)`", row)]
    compare(report, "docs/LANGUAGE.md, left out", named, re.findall(r'"([\w.]+)"', left_out))
    for name in program:
        if not re.search(r"(?:^|\s)" + re.escape(name) + r"[\s(]", shown):
            report.fault("docs/LANGUAGE.md", f"{name} has no example")


def check_refusals(report):
    """The codes and the usages."""
    text = (DOCS / "REFUSALS.md").read_text(encoding="utf-8")
    cause = source_text("diag/src/cause.rt")
    codes = re.findall(r'Cause::(\w+) => b"(\w\d+)"', cause)
    texts = dict(re.findall(r'Cause::(\w+) => b"([^"]{4,})"', cause))
    program = [f"{code}: {texts[name]}" for name, code in codes]
    program += [f"circt: usage: {usage}" for usage in usages()]
    program += [f"circt: {line}" for line in re.findall(r'b"circt: ((?:cannot|out)[^"\\]*?) ?(?:\\n)?"', source_text("circt_top/src/report.rt"))]
    guide = re.findall(r"^### `?([^`\n]+)`?$", text, re.M)
    compare(report, "docs/REFUSALS.md", guide, program)
    for part in re.split(r"^(?=### )", text, flags=re.M)[1:]:
        heading = re.match(r"### `?([^`\n]+)`?\n", part).group(1)
        shown = [line for block in blocks_and_text(part.split("\n")) if isinstance(block, Block) and block.language == "console"
                 for _, _, lines in commands_of(block) for line in lines]
        if not any(heading in line for line in shown):
            report.fault("docs/REFUSALS.md", f"the section {heading} shows no such line")


def usages():
    """The texts of what can be wrong with the words."""
    body = source_text("command_line/src/usage.rt")
    return re.findall(r'UsageKind::[^=]*=> b"([^"]+)"', body)


def program_options():
    """The options of each command."""
    text = source_text("command_line/src/commands.rt")
    names = {}
    for name, body in re.findall(r"const (\w+): Argument = Argument \{(.*?)\};", text, re.S):
        key = re.search(r'id: "([\w-]+)"', body).group(1)
        letter = re.search(r"Form::Letter\('(\w)'\)", body)
        if "Form::Positional" not in body and key != "passes":
            names[name] = f"-{letter.group(1)}" if letter else f"--{key}"
    commands = {}
    for name, arguments in re.findall(r'Subcommand \{\s*name: "(\w+)",\s*arguments: &\[(.*?)\]', text, re.S):
        commands[name] = [names[word] for word in re.findall(r"\w+", arguments) if word in names]
    return commands


def pass_names():
    """The names of the passes."""
    return re.findall(r'Pass::\w+ => "([\w-]+)"', source_text("pass_pipeline/src/pass.rt"))


def check_options(report):
    """The options of each command, and the passes."""
    text = (DOCS / "COMMANDS.md").read_text(encoding="utf-8")
    passes = [f"--{name}" for name in pass_names()]
    for command, options in program_options().items():
        cells = re.findall(r"^\| `(--?[\w-]+)", section(text, f"circt {command}"), re.M)
        compare(report, f"docs/COMMANDS.md, circt {command}", cells, options)
    compare(report, "docs/COMMANDS.md, passes", re.findall(r"^\| `(--[\w-]+)", section(text, "Passes"), re.M), passes)
    manual = (DOCS / "circt.1").read_text(encoding="utf-8")
    for command, options in program_options().items():
        part = manual[manual.find(f"\n.Ss circt {command}\n"):]
        part = part[:re.search(r"\n\.S[hs] ", part[2:]).start() + 2]
        words = re.findall(r"^\.It Fl (-?[\w-]+)", part, re.M)
        compare(report, f"docs/circt.1, circt {command}", ["-" + word for word in words], options)
    part = manual[manual.find("\n.Sh PASSES\n"):]
    part = part[:part.find("\n.Sh ", 2)]
    compare(report, "docs/circt.1, passes", ["-" + word for word in re.findall(r"^\.It Fl (-[\w-]+)", part, re.M)], passes)


def check_manual(report):
    """A manual page without faults, where there is a program that says so."""
    if shutil.which("mandoc") is None:
        report.skipped.append("docs/circt.1: mandoc is not there")
        return
    words = ["mandoc", "-T", "lint", str(DOCS / "circt.1")]
    said = subprocess.run(words, stdout=subprocess.PIPE, stderr=subprocess.STDOUT, text=True)
    if said.stdout:
        report.fault("docs/circt.1", said.stdout)


def check_widths(report):
    """No long lines."""
    for name in NARROW:
        for number, line in enumerate((TOP / name).read_text(encoding="utf-8").split("\n"), 1):
            if len(line) > MOST_CHARACTERS:
                report.fault(f"{name}:{number}", f"{len(line)} characters")


def main():
    """Says what differs, what was not run, and how much was."""
    program = pathlib.Path(support.program_word(__doc__)).resolve()
    words = sys.argv[2:]
    files = [pathlib.Path(word).resolve() for word in words if word != "--write"]
    report = Report()
    for file in files or [TOP / "README.md", *sorted(DOCS.glob("*.md"))]:
        with tempfile.TemporaryDirectory() as folder:
            guide = Guide(file, program, report, folder)
            guide.run()
            if file == DOCS / "COMMANDS.md":
                guide.manual((DOCS / "circt.1").read_text(encoding="utf-8"))
            if "--write" in words:
                guide.write()
    if not files:
        for check in (check_operations, check_refusals, check_options, check_manual, check_widths):
            check(report)
    for text in report.skipped:
        print(f"not run: {text}")
    for text in report.faults:
        print(f"wrong: {text}")
    print(f"{report.commands} commands and {report.files} texts, {len(report.skipped)} not run, {len(report.faults)} wrong")
    sys.exit(1 if report.faults else 0)


if __name__ == "__main__":
    main()
