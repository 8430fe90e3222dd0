#!/usr/bin/env python3
"""Runs the program where the system fails it, and asks that it ends as the table says.

    check_faults.py PROGRAM

| what fails | how the program ends |
|---|---|
| the device of the output is full; the output is closed; nobody reads it any more | 6, `circt: cannot write <stdout>` |
| the error output is full or closed, at a refusal, a difference, a usage, a read fault | the status stays: 1, 3, 2, 5 |
| the input is a folder, is missing, or no descriptor is left for it | 5, `circt: cannot read NAME` |
| the input is closed | 5, `circt: cannot read <stdin>` |
| the input grows while it is read | a text of it up to some end: accepted or refused as that is |
| a pipe ends early | the answer to what came |
| the program is stopped and goes on while it reads and writes | as without that |
| `-o` names a folder, a file in one that is missing, one that may not be made | 6, `circt: cannot write NAME`; nothing is made |
| `-o` of an input that is refused | 1; the file is as it was |
| the file of `-o` is on a full device | 6 |
| 40 MB of address space for 8 MB of text | 7, `circt: out of memory`, nothing on the output |
| a stack of 64 KB | as without |
| a limit on the size of files, where the caller ignores SIGXFSZ | 6; the file holds a prefix of the text |
| the same, where the caller does not | the system ends the program by that signal; the file holds a prefix of the text |

The last is no end of the table: the kit's runtime has no call that ignores a signal, so who limits the size of files lets the program
ignore it: `sh -c 'trap "" XFSZ; exec circt ..'`.
"""
import os
import pathlib
import resource
import signal
import subprocess
import sys
import tempfile
import threading
import time

sys.dont_write_bytecode = True
import support

ADDER = (support.TOP / "examples" / "adder.mlir").read_bytes()
REFUSED = ADDER.replace(b"in %b : i8, ", b"")
TWO = (support.TOP / "examples" / "equivalence.mlir").read_bytes()
SECONDS = 120
FAULTS = []


def limit(kind, amount):
    return lambda: resource.setrlimit(kind, (amount, amount))


def limit_size_and_ignore():
    signal.signal(signal.SIGXFSZ, signal.SIG_IGN)
    resource.setrlimit(resource.RLIMIT_FSIZE, (4096, 4096))


def limit_size():
    signal.signal(signal.SIGXFSZ, signal.SIG_DFL)
    resource.setrlimit(resource.RLIMIT_FSIZE, (4096, 4096))


def large_text(modules):
    return b"\n".join(ADDER.replace(b"@Add8", b"@Add%d" % number) for number in range(modules))


def note(what, expected, found):
    print(("as said   " if expected == found else "OTHERWISE ") + what)
    if expected != found:
        FAULTS.append(what)
        print(f"    said {expected!r}, found {found!r}")


class Case:
    """A program in a folder with the files of the cases."""

    def __init__(self, program, folder):
        self.program, self.folder = program, folder
        for name, text in (("adder.mlir", ADDER), ("refused.mlir", REFUSED), ("two.mlir", TWO), ("large.mlir", large_text(2000)),
                           ("kept.mlir", b"as it was\n")):
            (folder / name).write_bytes(text)
        (folder / "folder").mkdir()

    def run(self, line, **options):
        options.setdefault("stdin", subprocess.DEVNULL)
        options.setdefault("stdout", subprocess.PIPE)
        options.setdefault("stderr", subprocess.PIPE)
        done = subprocess.run([self.program, *line.split()], cwd=self.folder, timeout=SECONDS, **options)
        return done.returncode, done.stdout, done.stderr

    def text(self, name):
        path = self.folder / name
        return path.read_bytes() if path.is_file() else None

    def piped(self, line, text):
        """The status and the output of a run whose input is a pipe."""
        done = subprocess.run([self.program, *line.split()], cwd=self.folder, input=text, stdout=subprocess.PIPE,
                              stderr=subprocess.PIPE, timeout=SECONDS)
        return done.returncode, done.stdout

    def redirected(self, line, redirection):
        """The status and the error message under a shell's redirection."""
        done = subprocess.run(["sh", "-c", f'exec "$0" {line} {redirection}', self.program], cwd=self.folder, stdin=subprocess.DEVNULL,
                              stdout=subprocess.PIPE, stderr=subprocess.PIPE, timeout=SECONDS)
        return done.returncode, done.stderr


def outputs(case):
    unwritten = (6, b"circt: cannot write <stdout>\n")
    note("the output's device is full", unwritten, case.redirected("opt adder.mlir", "> /dev/full"))
    note("the output is closed", unwritten, case.redirected("opt adder.mlir", ">&-"))
    reader, writer = os.pipe()
    os.close(reader)
    status, _, message = case.run("opt large.mlir", stdout=writer)
    os.close(writer)
    note("nobody reads the output", unwritten, (status, message))
    for line, status in (("opt refused.mlir", 1), ("lec two.mlir -c1 r -c2 s", 3), ("opt --no", 2), ("opt none.mlir", 5)):
        note(f"the error output is full: {line}", (status, b""), case.redirected(line, "2> /dev/full"))
        note(f"the error output is closed: {line}", (status, b""), case.redirected(line, "2>&-"))


def inputs(case):
    note("the input is a folder", (5, b"", b"circt: cannot read folder\n"), case.run("opt folder"))
    note("the input is missing", (5, b"", b"circt: cannot read none.mlir\n"), case.run("opt none.mlir"))
    note("no descriptor is left for the second file", (5, b"", b"circt: cannot read two.mlir\n"),
         without_descriptors(case, "lec - two.mlir -c1 p -c2 q", TWO))
    note("the input is closed", (5, b"circt: cannot read <stdin>\n"), case.redirected("opt", "<&-"))
    whole = case.run("opt adder.mlir")
    for length in (0, 50, 103, len(ADDER)):
        (case.folder / "front.mlir").write_bytes(ADDER[:length])
        status, out, _ = case.run("opt front.mlir")
        note(f"a pipe ends after {length} bytes", (status, out), case.piped("opt", ADDER[:length]))
    note("stopped and going on", whole, stopped(case, "opt", ADDER))
    note("the input grows", True, grows(case))


def stopped(case, line, text):
    """A run that is stopped between the bytes that it reads."""
    child = subprocess.Popen([case.program, *line.split()], cwd=case.folder, stdin=subprocess.PIPE, stdout=subprocess.PIPE,
                             stderr=subprocess.PIPE)
    for start in range(0, len(text), 16):
        child.stdin.write(text[start:start + 16])
        child.stdin.flush()
        time.sleep(0.01)
        child.send_signal(signal.SIGSTOP)
        child.send_signal(signal.SIGCONT)
    out, message = child.communicate(timeout=SECONDS)
    return child.returncode, out, message


def without_descriptors(case, line, text):
    """A run that may open no more files once it waits for its standard input."""
    child = subprocess.Popen([case.program, *line.split()], cwd=case.folder, stdin=subprocess.PIPE, stdout=subprocess.PIPE,
                             stderr=subprocess.PIPE)
    time.sleep(1)
    resource.prlimit(child.pid, resource.RLIMIT_NOFILE, (3, 3))
    out, message = child.communicate(text, timeout=SECONDS)
    return child.returncode, out, message


def grows(case):
    """Whether a file to which comments are added while it is read gives a text of it or a refusal."""
    path = case.folder / "grows.mlir"
    path.write_bytes(large_text(2000))
    whole = case.run("opt large.mlir")[1]
    done = threading.Event()

    def add():
        with open(path, "ab") as file:
            while not done.is_set():
                file.write(b"// more\n")
                file.flush()

    writer = threading.Thread(target=add)
    writer.start()
    ends = [case.run("opt grows.mlir") for _ in range(20)]
    done.set()
    writer.join()
    return all((status, out) == (0, whole) or (status, out) == (1, b"") for status, out, _ in ends)


def files(case):
    for name in ("folder", "none/made.mlir", "/proc/made.mlir"):
        note(f"-o {name}", (6, b"", f"circt: cannot write {name}\n".encode()), case.run(f"opt adder.mlir -o {name}"))
    note("-o /dev/full", (6, b"", b"circt: cannot write /dev/full\n"), case.run("opt adder.mlir -o /dev/full"))
    note("-o of a refused input", 1, case.run("opt refused.mlir -o kept.mlir")[0])
    note("its file is as it was", b"as it was\n", case.text("kept.mlir"))
    whole = case.run("opt large.mlir")[1]
    for what, first, status in (("ignored", limit_size_and_ignore, 6), ("not ignored", limit_size, -signal.SIGXFSZ)):
        note(f"a limit on the size of files, its signal {what}", status, case.run("opt large.mlir -o made.mlir", preexec_fn=first)[0])
        made = case.text("made.mlir")
        note("the file holds a prefix of the text", True, made is not None and len(made) < len(whole) and whole.startswith(made))


def limits(case):
    (case.folder / "larger.mlir").write_bytes(large_text(80000))
    note("40 MB of address space", (7, b"", b"circt: out of memory\n"),
         case.run("opt larger.mlir", preexec_fn=limit(resource.RLIMIT_AS, 40 << 20)))
    for line in ("opt adder.mlir", "translate --export-verilog adder.mlir", "gen 1 3", "lec two.mlir -c1 p -c2 q",
                 "opt large.mlir --canonicalize --cse"):
        note(f"a stack of 64 KB: {line}", case.run(line), case.run(line, preexec_fn=limit(resource.RLIMIT_STACK, 64 << 10)))


def main():
    program = os.path.abspath(support.program_word(__doc__))
    with tempfile.TemporaryDirectory() as name:
        case = Case(program, pathlib.Path(name))
        for group in (outputs, inputs, files, limits):
            group(case)
    print(f"{len(FAULTS)} ends are otherwise")
    return len(FAULTS) > 0


if __name__ == "__main__":
    sys.exit(main())
