"""A log reader that takes two fields of each record, and tells a broken record from one that lacks a
field, or has it in a value of another type."""
import json

import jihluka

RECORDS = b"""{"ts": 1, "level": "info", "ms": 12.50}
{"ts": 2, "ms": 7}
{"ts": 3, "level": "warn", "ms": nan}
{"ts": 4, "level": "w\xff", "ms": 1}
{"ts": 5, "level": "caf\\u00e9 \xe2\x98\x95", "ms": [1, 2]}
["no record"]
{"ts": 6, "le"""

FIELDS = jihluka.Paths([["level"], ["ms"]])

for record in RECORDS.split(b"\n"):
    try:
        level, ms = jihluka.get_many(record, FIELDS)
        print("record", level and json.loads(level), ms)
    except jihluka.BrokenText as error:
        print("cut" if error.is_cut else "broken", error)
    except jihluka.JihlukaError as error:
        print("no record", error)
