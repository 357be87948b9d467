"""Where the package says that the values of a document are. Expected places are worked out by hand, or noted while a
document is written."""
import array
import collections.abc
import ctypes
import json
import pickle
import random
import threading
import tracemalloc
import unittest
from unittest import mock

import jihluka
from jihluka import _index, _native
from jihluka import BrokenText, Code, Entry, Index, Type, index

NULL, BOOLEAN, NUMBER, STRING, OBJECT, ARRAY = Type

ORDER = ' {"id" : 7, "wh\\u006f": "Zoë", "id": [[], {"": null}, -1.5e3]} '
ENTRIES = [
    (1, 63, None, 0, None, OBJECT),
    (9, 10, (2, 6), 0, None, NUMBER),
    (24, 30, (12, 22), 0, None, STRING),
    (38, 62, (32, 36), 0, None, ARRAY),
    (39, 41, None, 3, 0, ARRAY),
    (43, 53, None, 3, 1, OBJECT),
    (48, 52, (44, 46), 5, None, NULL),
    (55, 61, None, 3, 2, NUMBER),
]

# Texts of one value, and where it is.
SINGLE = (
    ("null", 0, 4, NULL),
    ("true", 0, 4, BOOLEAN),
    ("\tfalse\n", 1, 6, BOOLEAN),
    ("-0.5E+2", 0, 7, NUMBER),
    ("  7", 2, 3, NUMBER),
    ('""', 0, 2, STRING),
    (' "a\\"[\\\\" ', 1, 9, STRING),
    ('"ë"', 0, 4, STRING),
    ("[]", 0, 2, ARRAY),
    (" [ ] ", 1, 4, ARRAY),
    ("{}", 0, 2, OBJECT),
    ("\r\n{\t}", 2, 5, OBJECT),
)

# Of each text what is wrong with it, and where.
BROKEN = (
    ("", Code.EOF_WHILE_PARSING, 0),
    (" \n", Code.EOF_WHILE_PARSING, 1),
    ("[1", Code.EOF_WHILE_PARSING, 1),
    ("nul", Code.EOF_WHILE_PARSING, 2),
    ('{"a":[{}', Code.EOF_WHILE_PARSING, 7),
    ("[1] 2", Code.TRAILING_CHARACTERS, 4),
    ("]", Code.INVALID_JSON_VALUE, 0),
    ("[1,]", Code.INVALID_JSON_VALUE, 3),
    ("[1 2]", Code.EXPECTED_ARRAY_COMMA_OR_END, 3),
    ('{"a" 1}', Code.EXPECTED_COLON, 5),
    ('{"a":1 "b":2}', Code.EXPECTED_OBJECT_COMMA_OR_END, 7),
    ('{"a":1,}', Code.EXPECT_OBJECT_KEY_OR_END, 7),
    ("[nil]", Code.INVALID_LITERAL, 2),
    ("[01]", Code.INVALID_NUMBER, 2),
    ('["\\x"]', Code.INVALID_ESCAPE, 3),
    ('["\\u00g0"]', Code.INVALID_UNICODE_CODE_POINT, 6),
    ('{"\n":1}', Code.CONTROL_CHARACTER_WHILE_PARSING_STRING, 2),
    (b'{"a":"\xff"}', Code.INVALID_UTF8, 6),
    (b'\xef\xbb\xbf1', Code.INVALID_JSON_VALUE, 0),
    ("[" + "0," * 1000 + "]", Code.INVALID_JSON_VALUE, 2001),
    ("[" * 100000 + "]" * 99999, Code.EOF_WHILE_PARSING, 199998),
)  # fmt: skip


def kinds(text):
    """A text in each kind that it may be of."""
    raw = text.encode()
    return (text, raw, bytearray(raw), memoryview(raw), memoryview(b"x" + raw + b"x")[1:-1], array.array("B", raw))


def nested(count):
    return "[" * count + "]" * count


def entries_of_nested(count):
    first = (0, 2 * count, None, 0, None, ARRAY)
    return [first] + [(it, 2 * count - it, None, it - 1, 0, ARRAY) for it in range(1, count)]


class Writer:
    """A random document, with notes of where its values are."""

    SCALARS = (
        (NULL, "null"), (BOOLEAN, "true"), (BOOLEAN, "false"), (NUMBER, "0"), (NUMBER, "-12.50"), (NUMBER, "1e-7"),
        (STRING, '""'), (STRING, '"ë, []{}:"'), (STRING, '"\\"\\\\"'), (STRING, '"\\ud83d\\ude00\\u0000"'),
    )  # fmt: skip
    KEYS = ('""', '"a"', '"\\u0061"', '"b"', '"{\\"x\\":1}"', '"\\\\"', '"\U0001f600"')
    SPACES = ("", "", "", " ", "\n  ", "\r\n\t")

    def __init__(self, seed):
        self.random, self.text, self.entries = random.Random(seed), bytearray(), []
        self.space()
        self.value(0, None, 0, None)
        self.space()

    def put(self, text):
        start = len(self.text)
        self.text += text.encode()
        return start, len(self.text)

    def space(self):
        self.put(self.random.choice(self.SPACES))

    def value(self, depth, key, parent, position):
        number, kind = len(self.entries), self.random.choice((None, OBJECT, ARRAY) if depth < 5 else (None,))
        self.entries.append(None)
        if kind is None:
            kind, text = self.random.choice(self.SCALARS)
            start, end = self.put(text)
        else:
            start, _ = self.put("{" if kind == OBJECT else "[")
            self.space()
            for it in range(self.random.randrange(4 if depth else 100)):
                if it:
                    self.put(",")
                    self.space()
                self.item(depth + 1, kind, number, it)
                self.space()
            _, end = self.put("}" if kind == OBJECT else "]")
        self.entries[number] = (start, end, key, parent, position, kind)

    def item(self, depth, kind, parent, position):
        if kind == ARRAY:
            return self.value(depth, None, parent, position)
        key = self.put(self.random.choice(self.KEYS))
        self.space()
        self.put(":")
        self.space()
        self.value(depth, key, parent, None)


class Values(unittest.TestCase):
    def test_each_kind(self):
        for text in kinds(ORDER):
            self.assertEqual(list(index(text)), ENTRIES)
        raw, first = ORDER.encode(), index(ORDER)[2]
        self.assertEqual((raw[first.start : first.end], raw[slice(*first.key)]), ('"Zoë"'.encode(), b'"wh\\u006f"'))

    def test_single(self):
        for text, start, end, kind in SINGLE:
            for it in kinds(text):
                self.assertEqual(list(index(it)), [(start, end, None, 0, None, kind)])

    def test_entries(self):
        root, member, element = (index('[{"a": 1}]')[number] for number in (0, 2, 1))
        self.assertEqual((root.key, root.position, root.parent), (None, None, 0))
        self.assertEqual((member.key, member.position, member.parent), ((2, 5), None, 1))
        self.assertEqual((element.key, element.position, element.parent), (None, 0, 0))
        self.assertEqual(member, Entry(start=7, end=8, key=(2, 5), parent=1, position=None, type=NUMBER))
        for it in (root, member, element):
            self.assertIs(type(it), Entry)
            self.assertIs(type(it.type), Type)
            again = pickle.loads(pickle.dumps(it))
            self.assertEqual((type(again), again), (Entry, it))
        with self.assertRaises(AttributeError):
            root.parent = 1

    def test_keys(self):
        keys = ["", "\n", '"', "\\", "\\n", "\0", "Zoë", "\U0001f600", "a\u2028b", "x" * 3000 + "\n"]
        for text in (json.dumps(dict.fromkeys(keys)), json.dumps(dict.fromkeys(keys), ensure_ascii=False)):
            raw = text.encode()
            _, *found = index(raw)
            self.assertEqual([jihluka.as_str(raw[slice(*it.key)]) for it in found], keys)
        self.assertEqual([it.key for it in index('{"a":0,"a":0,"\\u0061":0}')], [None, (1, 4), (7, 10), (13, 21)])
        many = "{" + ",".join(f'"{number % 500:03}":0' for number in range(1000)) + "}"
        self.assertEqual(list(index(many))[1:], [(8 * it + 7, 8 * it + 8, (8 * it + 1, 8 * it + 6), 0, None, NUMBER) for it in range(1000)])

    def test_deep(self):
        for count in (1, 2, 255, 256, 257, 100000):
            self.assertEqual(list(index(nested(count))), entries_of_nested(count))
        found = index('{"a":' * 10000 + "1" + "}" * 10000)
        self.assertEqual(len(found), 10001)
        self.assertEqual(found[9999], (49995, 50002, (49991, 49994), 9998, None, OBJECT))
        self.assertEqual(found[10000], (50000, 50001, (49996, 49999), 9999, None, NUMBER))

    def test_written(self):
        lengths = set()
        for seed in range(400):
            it = Writer(seed)
            text = bytes(it.text)
            json.loads(text)
            found = index(text)
            self.assertEqual(list(found), it.entries, text)
            lengths.add(len(found) > 256)
        self.assertEqual(lengths, {False, True})

    def test_broken(self):
        for text, code, offset in BROKEN:
            told = []
            for call in (jihluka.validate, index):
                with self.assertRaises(BrokenText) as it:
                    call(text)
                told.append((it.exception.code, it.exception.line, it.exception.column, it.exception.offset))
            self.assertEqual(told[0], told[1])
            self.assertEqual((told[1][0], told[1][3]), (code, offset), text[:80])
        for text in kinds(""):
            with self.assertRaises(BrokenText) as it:
                index(text)
            self.assertTrue(it.exception.is_cut)

    def test_no_text(self):
        for text in (None, 1, ["a"], memoryview(b"[1, 2]")[::2]):
            with self.assertRaises(TypeError):
                index(text)
        with self.assertRaises(UnicodeEncodeError):
            index('"\ud800"')


class Sequences(unittest.TestCase):
    def test_as_a_list(self):
        for count in (3, 300):
            found, wanted = index(nested(count)), entries_of_nested(count)
            self.assertIsInstance(found, collections.abc.Sequence)
            self.assertEqual((len(found), repr(found), bool(found)), (count, f"<Index of {count} values>", True))
            for number in (0, 1, -1, -count, count - 1, True):
                self.assertEqual(found[number], wanted[number])
            for part in (slice(None), slice(1, None), slice(None, None, -1), slice(5, 2), slice(-2, 10**6)):
                self.assertEqual(found[part], wanted[part])
            for number in (count, -count - 1, 1 << 64):
                with self.assertRaises(IndexError):
                    found[number]
            for number in ("0", None, 1.0):
                with self.assertRaises(TypeError):
                    found[number]
            self.assertEqual(list(reversed(found)), wanted[::-1])
            self.assertEqual((wanted[2] in found, (0, 1) in found, found.index(wanted[2]), found.count(wanted[2])), (True, False, 2, 1))
            again = pickle.loads(pickle.dumps(found))
            self.assertEqual((type(again), list(again)), (Index, wanted))

    def test_cells(self):
        self.assertEqual(_index._CELL.size, ctypes.sizeof(_native.Cell))
        self.assertEqual([int(it) for it in _index._TYPES], list(range(6)))

    def test_rooms(self):
        with mock.patch.object(_native, "call", side_effect=_native.call) as calls:
            for text, count, wanted in (
                ("1", 1, 1),
                ("[0,0]", 3, 1),
                (" " * 10**5 + "[{}]", 2, 1),
                ("[" + "0," * 254 + "0]", 256, 1),
                ("[" + "0," * 255 + "0]", 257, 2),
                ("[" + "0, " * 255 + "0]", 257, 2),
            ):
                calls.reset_mock()
                found = index(text)
                self.assertEqual((len(found), len(list(found)), calls.call_count), (count, count, wanted))

    def test_little_memory(self):
        for text, count in (
            (b'["' + b"x" * 10**6 + b'"]', 2),
            (b"[" + b"7," * 99 + b"7]" + b" " * 10**6, 101),
            (b"[" + b"7," * 9999 + b"7]", 10001),
        ):
            index(text)
            tracemalloc.start()
            found = index(text)
            kept, peak = tracemalloc.get_traced_memory()
            tracemalloc.stop()
            self.assertEqual(len(found), count)
            self.assertLess(kept, 56 * count + 2048)
            self.assertLess(peak, 56 * (count + 256) + 4096)

    def test_what_others_hold(self):
        text = bytearray(ORDER.encode())
        found = index(text)
        text.append(32)  # nothing else holds the memory, which could not grow then
        text[1:] = b""
        self.assertEqual(list(found), ENTRIES)

    def test_what_others_write(self):
        text, call = bytearray((nested(300) + " " * 200).encode()), _native.call

        def call_and_write(*arguments):
            status = call(*arguments)
            text[:] = nested(400).encode()
            return status

        with mock.patch.object(_native, "call", side_effect=call_and_write) as calls:
            found = index(text)
            self.assertEqual(calls.call_count, 3)
        self.assertEqual(list(found), entries_of_nested(400))

    def test_no_memory(self):
        with mock.patch.object(_native, "call", return_value=_native.NO_MEMORY):
            with self.assertRaises(MemoryError):
                index("[1]")

    def test_by_threads(self):
        shared, wrong = index(nested(1000)), []

        def look(number):
            count = 200 + 20 * number
            for _ in range(50):
                if list(index(nested(count))) != entries_of_nested(count) or shared[count][0] != count:
                    wrong.append(number)

        threads = [threading.Thread(target=look, args=(number,)) for number in range(8)]
        for it in threads:
            it.start()
        for it in threads:
            it.join()
        self.assertEqual(wrong, [])


if __name__ == "__main__":
    unittest.main()
