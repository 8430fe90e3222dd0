#!/usr/bin/env python3
"""Shows the error lines of circt with the line of the source and a caret, as GCC does.

    circt opt x.mlir 2>&1 >/dev/null | show_refusal.py     reads error lines from standard input
    show_refusal.py circt opt x.mlir                       runs a command, and ends with its status

Lines that are no refusals go through as they are. Of a command only the error output is looked at; its output goes through. Where
standard input is no terminal the command gets what it holds, and a refusal of `<stdin>` is shown with it; in error lines that are
read from standard input, `<stdin>` has no source. Columns count bytes. A tab is shown as one blank.
"""
import re
import subprocess
import sys

LINE = re.compile(rb"^(?P<name>.+?):(?P<line>\d+):(?P<column>\d+): error: '(?P<operation>.*)' (?P<code>[A-Z]\d+): (?P<text>.*)$")
# What a caret underlines: a string, a name with its sign, a number or an arrow; else one character.
TOKEN = re.compile(r'@?"(?:[^"\\\n]|\\.)*"|[%@#!]?[A-Za-z0-9_$.-]*[A-Za-z0-9_$]|->|.')


def source_lines(name, standard_input):
    """The lines of a file, or of what standard input held; none where they cannot be had."""
    if name == b"<stdin>":
        return None if standard_input is None else standard_input.split(b"\n")
    try:
        with open(name, "rb") as file:
            return file.read().split(b"\n")
    except OSError:
        return None


def excerpt(source, line, column):
    """The line of the source and the line of the caret; none where the source has no such place."""
    if source is None or not 1 <= line <= len(source) or column > len(source[line - 1]) + 1:
        return []
    row = source[line - 1].rstrip(b"\r")
    before = len(row[:column - 1].decode("utf-8", "replace"))
    text = row.decode("utf-8", "replace").replace("\t", " ")
    token = TOKEN.match(text, before)
    length = len(token.group()) if token else 1
    number = f"{line:5}"
    return [f"{number} | {text}", f"{' ' * len(number)} | {' ' * before}^{'~' * (length - 1)}"]


def shown(line, standard_input):
    """An error line, and below it what it is about."""
    found = LINE.match(line)
    lines = [line.decode("utf-8", "replace")]
    if found:
        lines += excerpt(source_lines(found["name"], standard_input), int(found["line"]), int(found["column"]))
    return "".join(text + "\n" for text in lines)


def show(error, standard_input, out):
    """Shows each line of an error output."""
    for line in error.split(b"\n")[: -1 if error.endswith(b"\n") or not error else None]:
        out.write(shown(line, standard_input))


def main():
    """Reads error lines, or runs a command."""
    words = sys.argv[1:]
    if words and words[0] in ("-h", "--help"):
        sys.exit(__doc__)
    if not words:
        show(sys.stdin.buffer.read(), None, sys.stdout)
        return 0
    given = None if sys.stdin is None or sys.stdin.isatty() else sys.stdin.buffer.read()
    run = subprocess.run(words, input=given, stderr=subprocess.PIPE)
    show(run.stderr, given, sys.stderr)
    return run.returncode


if __name__ == "__main__":
    sys.exit(main())
