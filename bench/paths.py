"""Measures how the time of many path lines grows: paths.py PROGRAM FOLDER RUNS"""
import math
import os
import random
import re
import shutil
import subprocess
import sys

import peers

COUNTS = [62_500, 250_000, 1_000_000]
# More lines than these take valgrind minutes.
MOST_COUNTED = 250_000


def shuffled(count):
    return random.Random(1).sample(range(count), count)


# The lines of each kind, whose keys differ in their last seven digits.
KINDS = {
    "siblings, rising": lambda count: ['["key%07d"]' % i for i in range(count)],
    "siblings, falling": lambda count: ['["key%07d"]' % i for i in reversed(range(count))],
    "siblings, shuffled": lambda count: ['["key%07d"]' % i for i in shuffled(count)],
    "a shared prefix": lambda count: ['["a","b","key%07d"]' % i for i in shuffled(count)],
    "long keys": lambda count: ['["%s%07d"]' % ("x" * 100, i) for i in shuffled(count)],
}


def seconds(words, path, runs):
    """The least processor time of some runs."""
    best = math.inf
    for _ in range(runs):
        with open(path) as lines:
            process = subprocess.Popen(words, stdin=lines, stdout=subprocess.DEVNULL)
            usage = os.wait4(process.pid, 0)[2]
        best = min(best, usage.ru_utime + usage.ru_stime)
    return best


def instructions(words, path):
    """How many instructions a run takes."""
    counter = ["valgrind", "--tool=callgrind", f"--callgrind-out-file={os.devnull}", *words]
    with open(path) as lines:
        run = subprocess.run(counter, stdin=lines, capture_output=True, text=True)
    return int(re.search(r"Collected : (\d+)", run.stderr).group(1))


def row(name, figures, form):
    """A line of the table: the figures, and how many times the one before each is."""
    cells = []
    for before, figure in zip([None, *figures], figures):
        cells.append(form % figure + (f" ({figure / before:.1f})" if before else ""))
    print(f"| {name} | " + " | ".join(cells) + " |", flush=True)


def main(program, folder, runs):
    commands = {"ours": [program, "get"], "std::map": [peers.map(folder)]}
    growth = [count * math.log2(count) for count in COUNTS]
    print("| Lines | " + " | ".join(f"{count:,}" for count in COUNTS) + " |")
    print("|---" * (1 + len(COUNTS)) + "|")
    row("n log n", [it / growth[0] for it in growth], "%.1f")
    for kind, lines in KINDS.items():
        paths = [os.path.join(folder, str(count)) for count in COUNTS]
        for count, path in zip(COUNTS, paths):
            with open(path, "w") as file:
                file.write("\n".join(lines(count)) + "\n\n{}")
        for name, words in commands.items():
            row(f"{kind}, {name}, seconds", [seconds(words, path, runs) for path in paths], "%.2f")
            if shutil.which("valgrind"):
                counted = [path for count, path in zip(COUNTS, paths) if count <= MOST_COUNTED]
                row(f"{kind}, {name}, millions of instructions", [instructions(words, it) / 1e6 for it in counted], "%.0f")


if __name__ == "__main__":
    main(sys.argv[1], sys.argv[2], int(sys.argv[3]))
