"""Measures patches: patches.py PROGRAM FOLDER RUNS"""
import json
import os
import random
import sys

from documents import record
from timing import measure

MEMBERS = 1_000_000
ADDED = 100_000
SIZE = 100_000_000


def patch(*operations):
    """The first line of an input."""
    return "[" + ",".join(operations) + "]\n"


def operation(word, path, value=None):
    rest = "" if value is None else ',"value":' + value
    return f'{{"op":"{word}","path":"{path}"{rest}}}'


def large():
    """A document of records, and two small members behind them."""
    rng = random.Random(3)
    texts, size = [], 0
    while size < SIZE:
        texts.append(json.dumps(record(rng)))
        size += len(texts[-1]) + 1
    return '{"records":[' + ",".join(texts) + '],"b":{"c":[1,2,3]},"d":0}'


def members(order, separator, colon):
    return "{" + separator.join('"k%07d"%s%d' % (i, colon, i) for i in order) + "}"


def cases():
    """The name of each case, what the program is asked in it, and what is asked beside it."""
    document = large()
    four = patch(
        operation("add", "/b/x", "1"), operation("replace", "/d", "[2]"),
        operation("add", "/b/c/-", "3"), operation("add", "/b/c/0", "0"),
    )
    edits = '["pair",["b"],"x",1]\n["set",["d"],[2]]\n["push",["b","c"],3]\n["set",["b","c",0],0]\n\n'
    yield "four operations, 100 MB", ("patch", four + document), ("edit", edits + document)
    yield "100,000 `add` at `/-`", ("patch", patch(*(operation("add", "/-", str(i)) for i in range(ADDED))) + "[]"), None
    order = list(range(MEMBERS))
    plain, spaced = members(order, ",", ":"), members(order, " , ", " : ")
    both = ("fast", f"\n[{plain},{spaced}]")
    yield "`add` of a million members", ("patch", patch(operation("add", "", plain)) + spaced), both
    yield "`test` of them, other spacing", ("patch", patch(operation("test", "", plain)) + spaced), both
    random.Random(5).shuffle(order)
    yield "`test` of them, shuffled", ("patch", patch(operation("test", "", plain)) + members(order, ",", ":")), both


def run(program, folder, asked, runs):
    """The processor seconds of a command over an input, and of `cat`."""
    command, text = asked
    path = os.path.join(folder, "input")
    with open(path, "w") as file:
        file.write(text)
    return measure([program, command], path, runs)[0], measure(["cat"], path, runs)[0]


def main(program, folder, runs):
    print("| What | `cat`, s | `patch`, s | beside it, s |")
    print("|---" * 4 + "|")
    for name, asked, beside in cases():
        taken, cat = run(program, folder, asked, runs)
        other = f"`{beside[0]}` {run(program, folder, beside, runs)[0]:.2f}" if beside else "-"
        print(f"| {name} | {cat:.2f} | {taken:.2f} | {other} |", flush=True)


if __name__ == "__main__":
    main(sys.argv[1], sys.argv[2], int(sys.argv[3]))
