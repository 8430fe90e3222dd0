"""What several scripts here use: words of the command line, texts in files, runs of programs with what they cost, and cases of examples."""
import collections
import os
import pathlib
import re
import statistics
import subprocess
import sys
import time

TOP = pathlib.Path(__file__).resolve().parent.parent
EXAMPLES = TOP / "crates" / "circt_examples" / "data"

# The line between two cases of a file of examples.
SEPARATOR = re.compile(r"^// -----[ \t\r]*\n", re.MULTILINE)

# The seconds of a run by the clock and of the processor, and its peak memory in MB.
Cost = collections.namedtuple("Cost", "clock processor memory")


def program_word(usage):
    """The first word of the command line; without it the script ends with how it is used."""
    if len(sys.argv) < 2 or sys.argv[1].startswith("-"):
        sys.exit(usage)
    return sys.argv[1]


def number_word(position, default):
    """The number that a word of the command line says, if it is there."""
    return int(sys.argv[position]) if len(sys.argv) > position else default


def write_text(path, make, count):
    """Writes into a file the text that a generator makes for a count."""
    with open(path, "w", encoding="utf-8") as file:
        make(count, file.write)


def run(words, text, printed=os.devnull):
    """What a run on a text costs, whose output goes to a file. A run that fails ends the script."""
    begin = time.perf_counter()
    with open(text, "rb") as source, open(printed, "wb") as out:
        child = subprocess.Popen(words, stdin=source, stdout=out)
        _, status, usage = os.wait4(child.pid, 0)
    child.returncode = os.waitstatus_to_exitcode(status)
    if child.returncode:
        sys.exit(f"{' '.join(words)} ended with {child.returncode}")
    return Cost(time.perf_counter() - begin, usage.ru_utime + usage.ru_stime, usage.ru_maxrss / 1024)


def median_cost(costs):
    """The medians of the times of runs, and the most memory of one."""
    clock, processor, memory = zip(*costs)
    return Cost(statistics.median(clock), statistics.median(processor), max(memory))


def costs_in_turn(rounds, runs):
    """What each of some runs costs, where all of them are made in turn, so many rounds."""
    costs = [[] for _ in runs]
    for _ in range(rounds):
        for own, one in zip(costs, runs):
            own.append(one())
    return [median_cost(own) for own in costs]


def cases_of(file):
    """The cases of a file of examples, each with the line of its label."""
    return SEPARATOR.split(file.read_bytes().decode())
