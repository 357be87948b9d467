"""Measures what the rule for equal keys costs: keys.py PROGRAM BEFORE FOLDER RUNS"""
import json
import os
import random
import sys

from documents import record
from paths import instructions, seconds

RULES = ["first", "last", "refuse"]
# One key, so many times.
EQUAL = 1_000_000
# What valgrind reads in some seconds.
COUNTED = 4_000_000


def head(paths):
    return "".join(paths) + "\n"


def members(count, looked_for):
    """One object of so many members, of which some are looked for, the last one among them."""
    paths = ['["k%07d"]\n' % (count - 1 - i * (count // looked_for)) for i in range(looked_for)]
    return head(paths) + "{" + ",".join('"k%07d":%d' % (i, i) for i in range(count)) + "}"


def equal(paths):
    """An object with one key many times, each an object that a path in so many goes on in."""
    lines = ['["a","k%06d"]\n' % i for i in range(paths)]
    rng = random.Random(1)
    return head(lines) + "{" + ",".join('"a":{"k%06d":1}' % rng.randrange(paths) for _ in range(EQUAL)) + "}"


def records(size):
    """Records, of which the last one's name is looked for, and one of two hundred on the way."""
    rng = random.Random(7)
    texts = []
    while size > 0:
        texts.append(json.dumps(record(rng)))
        size -= len(texts[-1]) + 1
    last = len(texts) - 1
    paths = ['[%d,"name"]\n' % (last - i * (len(texts) // 200)) for i in range(200)]
    return head(paths) + "[" + ",".join(texts) + "]"


DOCUMENTS = {
    "records, 200 paths": lambda: records(41_000_000),
    "400,000 members, one path": lambda: members(400_000, 1),
    "2,000,000 members, 100,000 paths": lambda: members(2_000_000, 100_000),
    "one key a million times, 50 paths below": lambda: equal(50),
    "one key a million times, 5,000 paths below": lambda: equal(5_000),
    "one key a million times, 50,000 paths below": lambda: equal(50_000),
}


def main(program, before, folder, runs):
    path = os.path.join(folder, "document")
    print("| Document | MB | `cat`, s | " + " | ".join(f"{rule}, s (times `cat`)" for rule in RULES) + " |")
    print("|---" * (3 + len(RULES)) + "|")
    for name, document in DOCUMENTS.items():
        with open(path, "w") as file:
            file.write(document())
        cat = seconds(["cat"], path, runs)
        cells = []
        for rule in RULES:
            taken = seconds([program, "get", "--keys", rule], path, runs)
            cells.append(f"{taken:.3f} ({taken / cat:.0f})")
        print(f"| {name} | {os.path.getsize(path) / 1e6:.0f} | {cat:.3f} | " + " | ".join(cells) + " |", flush=True)
    if not before:
        return
    print("\n| `get`, by the first keys | instructions before | now | ratio |")
    print("|---|---|---|---|")
    for name, document in {"records, 200 paths": records(COUNTED), "members, 5,000 paths": members(100_000, 5_000)}.items():
        with open(path, "w") as file:
            file.write(document)
        was, now = (instructions([it, "get"], path) for it in (before, program))
        print(f"| {name} | {was:,} | {now:,} | {now / was:.4f} |", flush=True)


if __name__ == "__main__":
    main(sys.argv[1], sys.argv[2], sys.argv[3], int(sys.argv[4]))
