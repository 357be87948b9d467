"""What the package tells of one value, by its text. Expected values are worked out by hand."""
import array
import json
import pickle
import threading
import tracemalloc
import unittest
from unittest import mock

import jihluka
from jihluka import _native
from jihluka import BrokenText, Code, NotInteger, Type, WrongType, as_int, as_str, count, elements, members, type_of

ORDER = ' {"id": 4711, "wh\\u006f": "Zo\\u00eb\\n", "rows": [["nut", -2], {}], "id": null} '

# Texts of which the first byte says the type, whatever follows.
BEGUN = (
    ("null x", Type.NULL),
    ("\n false", Type.BOOLEAN),
    ("-", Type.NUMBER),
    ('"\\', Type.STRING),
    ("{]", Type.OBJECT),
    (" \t\r\n[", Type.ARRAY),
)


def kinds(text):
    """A text in each kind that it may be of."""
    raw = text.encode()
    return (text, raw, bytearray(raw), memoryview(raw), memoryview(b"x" + raw + b"x")[1:-1], array.array("B", raw))


class Values(unittest.TestCase):
    def broken(self, call, text, code, offset):
        with self.assertRaises(BrokenText) as it:
            call(text)
        self.assertEqual((it.exception.code, it.exception.offset), (code, offset), (call, text))

    def test_types(self):
        for text, wanted in BEGUN:
            for it in kinds(text):
                self.assertIs(type_of(it), wanted)
        for call in (type_of, as_int, as_str, count, elements, members):
            self.broken(call, "", Code.EOF_WHILE_PARSING, 0)
            self.broken(call, b" \t", Code.EOF_WHILE_PARSING, 1)
            self.broken(call, "x", Code.INVALID_JSON_VALUE, 0)
            for text in (None, 1, ["a"]):
                with self.assertRaises(TypeError) as it:
                    call(text)
                self.assertNotIsInstance(it.exception, WrongType)

    def test_other_types(self):
        for call, *types in (
            (as_int, Type.NUMBER),
            (as_str, Type.STRING),
            (count, Type.ARRAY, Type.OBJECT),
            (elements, Type.ARRAY),
            (members, Type.OBJECT),
        ):
            for text, found in BEGUN:
                if found in types:
                    continue
                with self.assertRaises(WrongType) as it:
                    call(text)
                self.assertEqual((type(it.exception), it.exception.found), (WrongType, found))
                again = pickle.loads(pickle.dumps(it.exception))
                self.assertEqual((type(again), again.found, str(again)), (WrongType, found, str(it.exception)))
        self.assertEqual(str(WrongType(Type.STRING)), "the value is of the type string, which wasn't asked for")

    def test_integers(self):
        for text, wanted in (
            ("0", 0),
            ("-0", 0),
            (" 12 ", 12),
            ("9223372036854775807", 2**63 - 1),
            ("9223372036854775808", 2**63),
            ("18446744073709551615", 2**64 - 1),
            ("-9223372036854775808", -(2**63)),
        ):
            for it in kinds(text):
                self.assertEqual(as_int(it), wanted)
        for text in ("18446744073709551616", "-9223372036854775809", "1.0", "1e3"):
            with self.assertRaises(NotInteger) as it:
                as_int(text)
            again = pickle.loads(pickle.dumps(it.exception))
            self.assertEqual(str(again), "the number is no integer from -2**63 to 2**64 - 1")
        self.broken(as_int, "01", Code.INVALID_NUMBER, 1)
        self.broken(as_int, b"-", Code.EOF_WHILE_PARSING, 0)
        self.broken(as_int, "12 x", Code.TRAILING_CHARACTERS, 3)

    def test_strings(self):
        for text, wanted in (
            ('""', ""),
            (' \t\r\n"Zoë \U0001f600" ', "Zoë \U0001f600"),
            (r'"\"\\\/\b\f\n\r\t\u0000"', '"\\/\b\f\n\r\t\0'),
            (r' "a\ud83d\ude00\u00EB" ', "a\U0001f600ë"),
            ('"' + "ë" * 511 + 'xx"', "ë" * 511 + "xx"),
            ('"' + "ë" * 512 + 'x"', "ë" * 512 + "x"),
            ('"' + "\\n" * 100000 + '"', "\n" * 100000),
        ):
            for it in kinds(text):
                self.assertEqual(as_str(it), wanted)
        self.broken(as_str, '"a', Code.EOF_WHILE_PARSING, 1)
        self.broken(as_str, '"a\\\\" x', Code.TRAILING_CHARACTERS, 6)
        self.broken(as_str, b'"\\x"', Code.INVALID_ESCAPE, 2)
        self.broken(as_str, b'"\\n\xff"', Code.INVALID_UTF8, 3)
        self.broken(as_str, '"\n"', Code.CONTROL_CHARACTER_WHILE_PARSING_STRING, 1)

    def test_counts(self):
        for text, wanted in (("[ ] ", 0), ("{}", 0), ("[[], {}]", 2), (ORDER, 4)):
            for it in kinds(text):
                self.assertEqual(count(it), wanted)
        self.broken(count, "[1,]", Code.INVALID_JSON_VALUE, 3)
        self.broken(count, "[1] 2", Code.TRAILING_CHARACTERS, 4)
        self.broken(count, '{"a":1', Code.EOF_WHILE_PARSING, 5)
        self.broken(count, b'["\xff"]', Code.INVALID_UTF8, 2)


class Items(unittest.TestCase):
    def test_each_kind(self):
        rows, who = '[["nut", -2], {}]', '"Zo\\u00eb\\n"'
        for text, of, kind in zip(kinds(ORDER), (str, *[str.encode] * 5), (str, bytes, *[memoryview] * 4)):
            found = list(members(text))
            self.assertEqual(found, [("id", of("4711")), ("who", of(who)), ("rows", of(rows)), ("id", of("null"))])
            self.assertEqual({(type(key), type(value)) for key, value in found}, {(str, kind)})
            found = list(elements(found[2][1]))
            self.assertEqual(found, [of('["nut", -2]'), of("{}")])
            self.assertEqual({type(value) for value in found}, {kind})

    def test_ends(self):
        for call, text, wanted, code, offset in (
            (elements, "[]", [], None, None),
            (elements, " [1 , [2, {}] ] ", ["1", "[2, {}]"], None, None),
            (elements, "[1, 2,]", ["1", "2"], Code.INVALID_JSON_VALUE, 6),
            (elements, "[1] 2", ["1"], Code.TRAILING_CHARACTERS, 4),
            (elements, "[1", ["1"], Code.EOF_WHILE_PARSING, 1),
            (members, "{ } ", [], None, None),
            (members, '{"":1,"":[2],3}', [("", "1"), ("", "[2]")], Code.EXPECT_OBJECT_KEY_OR_END, 13),
        ):
            with self.subTest(text):
                found, place, items = [], (None, None), call(text)
                try:
                    for it in items:
                        found.append(it)
                except BrokenText as error:
                    place = (error.code, error.offset)
                self.assertEqual((found, place), (wanted, (code, offset)))
                self.assertEqual((list(items), next(items, None)), ([], None))
        for call, text in ((elements, b'[1, "\xff"]'), (members, b'{"a":"\xff"}')):
            with self.assertRaises(BrokenText) as it:
                call(text)
            self.assertEqual((it.exception.code, it.exception.offset), (Code.INVALID_UTF8, text.index(b"\xff")))

    def test_odd_keys(self):
        keys = ["", "\n", '"', "\\", "\\n", "\0", "Zoë", "\U0001f600", "a\u2028b", "x" * 3000 + "\n"]
        for text in (json.dumps(dict.fromkeys(keys)), json.dumps(dict.fromkeys(keys), ensure_ascii=False)):
            self.assertEqual([key for key, _ in members(text)], keys)
            self.assertEqual([key for key, _ in members(memoryview(text.encode()))], keys)

    def test_what_others_write(self):
        text = bytearray(b"[1, 20, 300]")
        items = elements(text)
        self.assertEqual(next(items), b"1")
        text[4:6] = b"31"
        self.assertEqual([bytes(it) for it in items], [b"31", b"300"])
        text.append(32)  # nothing else holds the memory, which could not grow then

    def test_no_memory(self):
        items = (elements("[1]"), members('{"a": 1}'))
        with mock.patch.object(_native, "call", return_value=_native.NO_MEMORY):
            for call, text in ((jihluka.validate, "1"), (count, "[]"), (as_str, '""'), (next, items[0]), (next, items[1])):
                with self.assertRaises(MemoryError):
                    call(text)

    def test_little_memory(self):
        text = b"[" + b"[7]," * 5000 + b"[8]]"
        for call in (type_of, count, lambda it: sum(map(len, elements(it))), lambda it: as_str(b'"\\n"')):
            call(text)
            tracemalloc.start()
            call(text)
            peak = tracemalloc.get_traced_memory()[1]
            tracemalloc.stop()
            self.assertLess(peak, 8192)

    def test_by_threads(self):
        text = json.dumps({"rows": [[number, "x\n"] for number in range(300)]}).encode()
        wrong = []

        def look():
            rows = jihluka.get(text, ["rows"])
            for wanted, row in enumerate(elements(rows)):
                number, name = elements(row)
                if (as_int(number), as_str(name)) != (wanted, "x\n"):
                    wrong.append(row)

        threads = [threading.Thread(target=look) for _ in range(8)]
        for it in threads:
            it.start()
        for it in threads:
            it.join()
        self.assertEqual(wrong, [])


if __name__ == "__main__":
    unittest.main()
