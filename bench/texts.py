"""Measures the commands over whole documents beside other readers: texts.py PROGRAM FOLDER MEGABYTES RUNS"""
import os
import random
import shutil
import sys
from dataclasses import dataclass

import documents
import peers
from timing import measure

# The text over lines is a hundred times as long as this document, and jq takes minutes for it.
DEEP = "arrays, 200 in each other"
# A name, and a row of the array that the document is.
DOCUMENTS = [
    ("records over lines", documents.pretty_record),
    ("records", documents.compact_record),
    ("whole numbers", documents.whole_numbers),
    (DEEP, documents.deep_array),
]


@dataclass
class Column:
    name: str
    words: list
    # What comes before the document.
    head: bytes = b""
    runs: int = 0
    # Whether the deep document is left out.
    flat: bool = False


def write(path, size, row):
    """A document of at least so many bytes."""
    rng = random.Random(7)
    with open(path, "w") as file:
        file.write("[" + row(rng))
        while file.tell() < size:
            file.write(",\n" + row(rng))
        file.write("]\n")


def columns(program, others):
    yield Column("`cat`", ["cat"])
    yield Column("judged alone", [program, "fast"], b"\n")
    yield Column("`index`", [program, "index"])
    yield Column("`min`", [program, "min"])
    yield Column("`indent 2`", [program, "indent", "2"], flat=True)
    if "yyjson_texts" in others:
        for mode in ("read", "small", "wide"):
            yield Column(f"yyjson, {mode}", [others["yyjson_texts"], mode], flat=mode == "wide")
    if "simdjson_texts" in others:
        for mode in ("read", "small"):
            yield Column(f"simdjson, {mode}", [others["simdjson_texts"], mode])
    if "jq" in others:
        yield Column("`jq -c .`", ["jq", "-c", "."], runs=1, flat=True)
        yield Column("`jq .`", ["jq", "."], runs=1, flat=True)


def main(program, folder, megabytes, runs):
    others = peers.build(folder, peers.yyjson_texts, peers.simdjson_texts, peers.jq)
    every = list(columns(program, others))
    print("| Document | " + " | ".join(it.name for it in every) + " |")
    print("|---" * (len(every) + 1) + "|")
    for name, row in DOCUMENTS:
        alone, headed = os.path.join(folder, "document"), os.path.join(folder, "input")
        write(alone, megabytes * 10**6, row)
        with open(alone, "rb") as document, open(headed, "wb") as file:
            file.write(b"\n")
            shutil.copyfileobj(document, file)
        cells = []
        for it in every:
            if it.flat and name == DEEP:
                cells.append("-")
                continue
            seconds, peak, _ = measure(it.words, headed if it.head else alone, it.runs or runs)
            cells.append(f"{seconds:.2f}, {peak:.0f}")
        print(f"| {name} | {' | '.join(cells)} |", flush=True)


if __name__ == "__main__":
    main(sys.argv[1], sys.argv[2], int(sys.argv[3]), int(sys.argv[4]))
