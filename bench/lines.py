"""Measures `lines` beside other readers: lines.py PROGRAM FOLDER MEGABYTES RUNS GIGABYTES"""
import json
import os
import subprocess
import sys
import time

import peers
from documents import WORDS
from timing import measure

CLUSTER = os.path.join(os.path.dirname(os.path.abspath(__file__)), "..", "examples", "cluster", "rows")


def record(number):
    """A record of eight keys."""
    return {
        "id": number,
        "user": f"{WORDS[number % 8]}{number}",
        "t": [WORDS[number % 7], WORDS[number % 5], "log"],
        "lat": number % 180 - 90.25,
        "lon": number % 360 - 180.5,
        "ok": number % 3 == 0,
        "text": f'{WORDS[number % 3]} says "{WORDS[number % 6]}" to all',
        "last": None,
    }


# A name, the paths, jq's filter for them, and a line by its number.
STREAMS = [
    ("records of eight keys", ['["id"]', '["t",0]'], "[.id,.t[0]]", lambda n: json.dumps(record(n))),
    ("short lines", ['["id"]', '["z"]'], "[.id,.z]", lambda n: '{"id":%d}' % n),
]


# So many lines are made at a time.
BATCH = 10_000


def make(path, size, line):
    """A stream of at least so many bytes; how many lines it has."""
    count = 0
    with open(path, "w") as stream:
        while stream.tell() < size:
            stream.write("".join(line(n) + "\n" for n in range(count, count + BATCH)))
            count += BATCH
    return count


def write(folder, size, paths, line):
    """The input of the program, and the stream alone; how many lines it has."""
    whole, alone = os.path.join(folder, "input"), os.path.join(folder, "stream")
    count = make(alone, size, line)
    with open(whole, "w") as file:
        file.write("".join(path + "\n" for path in paths) + "\n")
    with open(whole, "ab") as file, open(alone, "rb") as stream:
        for piece in iter(lambda: stream.read(1 << 20), b""):
            file.write(piece)
    return whole, alone, count


def size_of_rows(program, path, folder):
    """How many bytes `lines` writes, into a file: what this process holds would count to the peak of
    each that it starts."""
    rows = os.path.join(folder, "rows")
    with open(path) as file, open(rows, "w") as out:
        subprocess.run([program, "lines"], stdin=file, stdout=out)
    return os.path.getsize(rows)


def streams(program, folder, size, runs):
    others = peers.build(folder, peers.jq, peers.iterate_many)
    print("| Stream | MB | lines | rows, MB | `cat`, s | `lines`, s | peak, MB | `jq -c`, s (times ours) | `iterate_many` from memory, s (ours to it) |")
    print("|---" * 9 + "|")
    for name, paths, filter, line in STREAMS:
        whole, alone, count = write(folder, size, paths, line)
        rows = size_of_rows(program, whole, folder) / 10**6
        cat = measure(["cat"], whole, runs)[0]
        ours, peak, _ = measure([program, "lines"], whole, runs)
        cells = ["-", "-"]
        if "jq" in others:
            theirs = measure([others["jq"], "-c", filter], alone, 1)[0]
            cells[0] = f"{theirs:.2f} ({theirs / ours:.1f})"
        if "iterate_many" in others:
            told = measure([others["iterate_many"], alone, *[word for path in paths for word in json.loads(path)[:1]]], alone, 1)[2]
            theirs = float(told)
            cells[1] = f"{theirs:.2f} ({ours / theirs:.1f})"
        size_of = os.path.getsize(whole) / 10**6
        print(f"| {name} | {size_of:.0f} | {count:,} | {rows:.0f} | {cat:.2f} | {ours:.2f} | {peak:.0f} | {' | '.join(cells)} |", flush=True)


def blocks(program, folder, size):
    """A file that is cut into blocks, by one process at a time and by all processors."""
    paths, file = os.path.join(folder, "paths"), os.path.join(folder, "file")
    open(paths, "w").write("".join(path + "\n" for path in STREAMS[0][1]))
    count = make(file, size, STREAMS[0][3])
    print(f"\n{os.path.getsize(file) / 10**9:.2f} GB of records, {count:,} lines")
    for processors in sorted({1, os.cpu_count()}):
        environment = {**os.environ, "PROGRAM": program}
        begun = time.monotonic()
        words = ["taskset", "-c", f"0-{processors - 1}", CLUSTER, paths, file]
        subprocess.run(words, env=environment, stdout=subprocess.DEVNULL, check=True)
        print(f"{processors} processors: {time.monotonic() - begun:.2f} s of the clock", flush=True)


def main(program, folder, megabytes, runs, gigabytes):
    streams(program, folder, megabytes * 10**6, runs)
    if gigabytes:
        blocks(program, folder, int(gigabytes * 10**9))


if __name__ == "__main__":
    main(sys.argv[1], sys.argv[2], int(sys.argv[3]), int(sys.argv[4]), float(sys.argv[5]))
