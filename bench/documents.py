"""Makes the documents: documents.py FOLDER MEGABYTES

Each is a file NAME.in as a command reads it: path lines, an empty line, the document. Where nothing
else is said, the paths lead to its end, so that the whole document is read. A file that is there in
this size is left as it is.
"""
import json
import os
import random
import sys

WORDS = ["alder", "birch", "cedar", "elm", "hazel", "larch", "maple", "rowan"]
KEYS = 100_000
# Where in a record the paths lead to.
POINT = ["place", "track", "points", 2, 1]


def record(rng):
    """An object with strings, numbers and arrays, four levels deep."""
    points = [[rng.randrange(10**4), round(rng.random(), 6)] for _ in range(3)]
    return {
        "id": rng.randrange(10**8),
        "name": " ".join(rng.choices(WORDS, k=3)),
        "ok": True,
        "tags": rng.choices(WORDS, k=4),
        "place": {"city": rng.choice(WORDS), "track": {"points": points, "closed": False}},
        "note": None,
    }


def compact_record(rng):
    return json.dumps(record(rng))


def pretty_record(rng):
    return json.dumps(record(rng), indent=2)


def whole_numbers(rng):
    numbers = [rng.randrange(10**7) for _ in range(40)]
    nested = [rng.randrange(10**9), -rng.randrange(10**4), [rng.randrange(10)]]
    return json.dumps([rng.randrange(10**6), nested, None, numbers], separators=(",", ":"))


def floats(rng):
    """Most have some 17 digits, and one of four an exponent."""
    numbers = [rng.uniform(-1000, 1000) * (1e-9 if i % 4 == 3 else 1) for i in range(20)]
    return json.dumps(numbers, separators=(",", ":"))


def long_string(rng):
    return json.dumps(" ".join(rng.choices(WORDS, k=1700)))


def string_with_escapes(rng):
    return json.dumps(f'key {rng.randrange(10**6)}\n\u00e9 "quoted" \U0001f600')


def deep_array(rng):
    return "[" * 200 + "]" * 200


def rows(row, paths=lambda last: [[last]]):
    """Writes an array of rows, and asks for what the paths say for the number of its last one."""

    def document(size):
        rng = random.Random(7)
        texts = []
        while size > 0:
            texts.append(row(rng))
            size -= len(texts[-1]) + 2
        return paths(len(texts) - 1), "[" + ",\n".join(texts) + "]\n"

    return document


def brackets(size):
    """Arrays, one inside the other: half of the document opens them, half closes them."""
    return [[]], "[" * (size // 2) + "]" * (size // 2)


def wide(size):
    """An object of many keys, whose values are as long as the size asks: arrays of words. Three
    paths are found and one lacks its key, so that each key is compared with four."""
    rng = random.Random(7)
    words = max(1, int((size / KEYS - 16) / 8.75))
    members = [f'"key {i}": {json.dumps(rng.choices(WORDS, k=words))}' for i in range(KEYS)]
    paths = [[f"key {KEYS // 2}"], [f"key {KEYS - 1}", 0], [f"key {KEYS // 10}"], ["missing"]]
    return paths, "{" + ",\n".join(members) + "}\n"


def point(last):
    return [[last, *POINT]]


def first_point(last):
    return [[5, *POINT]]


def four_paths(last):
    """Of one record. The last one lacks its key, and the document is read to its end."""
    return [[last, *POINT], [last, "id"], [last, "tags", 0], [last, "missing"]]


def thousand_paths(last):
    return [[last * i // 999, *POINT] for i in range(1000)]


def first_number(last):
    return [[last, 0]]


DOCUMENTS = {
    "records": rows(compact_record, point),
    "start": rows(compact_record, first_point),
    "four": rows(compact_record, four_paths),
    "thousand": rows(compact_record, thousand_paths),
    "pretty": rows(pretty_record, point),
    "numbers": rows(whole_numbers, first_number),
    "floats": rows(floats, first_number),
    "strings": rows(long_string),
    "escapes": rows(string_with_escapes),
    "200-deep": rows(deep_array),
    "brackets": brackets,
    "wide": wide,
}


# What `list` reads, which has no path lines: so many items each.
ITEMS = 1_000_000
LISTS = {
    "elements": lambda: "[" + ", ".join(map(str, range(ITEMS))) + "]\n",
    "members": lambda: "{" + ", ".join(f'"key {i}": {i}' for i in range(ITEMS)) + "}\n",
}


def log_record(size):
    """A schema of three keys, and then one record of so many bytes, which has them at its start, in
    its middle and at its end among others."""
    rng = random.Random(7)
    others = []
    while size > 0:
        others.append(f'"field {len(others)}": {compact_record(rng)}')
        size -= len(others[-1]) + 2
    half = len(others) // 2
    schema = json.dumps({"time": "", "level": "info", "place": {"city": "", "zone": None}})
    first = ['"time": "2026-11-28T15:00:00Z"']
    last = ['"place": {"city": "elm", "street": "rowan"}']
    members = first + others[:half] + ['"level": "warn"'] + others[half:] + last
    return schema + "\n{" + ", ".join(members) + "}\n"


# What `fill` reads.
FILLS = {
    "record": lambda: log_record(10**6),
    "long": lambda: log_record(6 * 10**7),
}


def path_of(folder, name):
    return os.path.join(folder, name + ".in")


def main():
    folder, size = sys.argv[1], int(sys.argv[2]) * 10**6
    for name, document in DOCUMENTS.items():
        path = path_of(folder, name)
        if os.path.exists(path) and abs(os.path.getsize(path) / size - 1) < 0.1:
            continue
        paths, text = document(size)
        with open(path, "w") as out:
            out.writelines(json.dumps(steps) + "\n" for steps in paths)
            out.write("\n" + text)
    for name, document in (LISTS | FILLS).items():
        if not os.path.exists(path_of(folder, name)):
            with open(path_of(folder, name), "w") as out:
                out.write(document())


if __name__ == "__main__":
    main()
