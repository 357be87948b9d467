"""What texts the package makes of a document, and why it makes none. Expected values are worked out by hand."""
import array
import json
import pickle
import threading
import unittest
from unittest import mock

import jihluka
from jihluka import _native
from jihluka import BrokenText, Cause, Code, EditError, JihlukaError, PatchError, SchemaError, WidthError, edit, fill, indent, minify, patch

ORDER = ' { "id" : 7, "items" : [ {"sku": "Zo\\u00eb", "count": 2}, [] ],\n "note" : "ë" } '
SMALL = '{"id":7,"items":[{"sku":"Zo\\u00eb","count":2},[]],"note":"ë"}'
WIDE = """{
  "id": 7,
  "items": [
    {
      "sku": "Zo\\u00eb",
      "count": 2
    },
    []
  ],
  "note": "ë"
}"""
PATCH = '[{"op":"test","path":"/id","value":7}, {"op":"add","path":"/items/-","value":"ü"}, {"op":"remove","path":"/note"}]'
PATCHED = '{"id":7,"items":[{"sku": "Zo\\u00eb", "count": 2},[],"ü"]}'
EDITS = '["set",["items",0,"count"],3]\n["push",["items"],"ü"]\n["pair",[],"paid",true]\n["take",["id"]]\n'
EDITED = '{"id":null,"items":[{"sku":"Zo\\u00eb","count":3},[],"ü"],"note":"ë","paid":true}'
SCHEMA = '{"id": 0, "currency": "€", "note": null}'
FILLED = '{"id":7,"currency":"€","note":"ë"}'
NOT_JSON = (None, 1, ["a"], memoryview(b"[1, 2]")[::2])


def kinds(text):
    """A text in each kind that it may be of."""
    raw = text.encode()
    return (text, raw, bytearray(raw), memoryview(raw), memoryview(b"x" + raw + b"x")[1:-1], array.array("B", raw))


def nested(count):
    return "[" * count + "]" * count


class Made(unittest.TestCase):
    def made(self, found, wanted):
        self.assertEqual(found, wanted.encode())
        self.assertIs(type(found), bytes)

    def refused(self, kind, call, *arguments):
        """The error, which is the same after pickle."""
        with self.assertRaises(kind) as it:
            call(*arguments)
        error = it.exception
        again = pickle.loads(pickle.dumps(error))
        self.assertEqual((type(again), type(error), str(again), repr(again)), (kind, kind, str(error), repr(error)))
        return error

    def broken(self, code, offset, call, *arguments):
        error = self.refused(BrokenText, call, *arguments)
        self.assertEqual((error.code, error.line, error.column, error.offset), (code, 1, offset + 1, offset))

    def test_each_kind(self):
        for text in kinds(ORDER):
            self.made(minify(text), SMALL)
            self.made(indent(text, 2), WIDE)
            for call, change, wanted in ((patch, PATCH, PATCHED), (edit, EDITS, EDITED)):
                for it in kinds(change):
                    self.made(call(text, it), wanted)
            for it in kinds(SCHEMA):
                self.made(fill(it, text), FILLED)

    def test_no_text(self):
        for it in NOT_JSON:
            for call, *arguments in (
                (minify, it), (indent, it, 2), (patch, it, "[]"), (patch, "1", it), (edit, it, ""), (edit, "1", it), (fill, it, "1"),
                (fill, "{}", it),
            ):  # fmt: skip
                with self.assertRaises(TypeError):
                    call(*arguments)

    def test_kept(self):
        for text in ("1", '"\\u00eb"', "[]", "{}", '{"a":1.50,"a":[]}', " [ 1 ,\n{} ] "):
            self.made(patch(text, "[]"), text.strip())
            self.made(edit(text, ""), text.strip())
            self.assertEqual(minify(minify(text)), minify(text))
            self.assertEqual(minify(indent(text, 8)), minify(text))

    def test_widths(self):
        self.made(indent("7", 8), "7")
        for width in range(9):
            blanks = " " * width
            self.made(indent('[1,{"a":{}}]', width), f'[\n{blanks}1,\n{blanks}{{\n{2 * blanks}"a": {{}}\n{blanks}}}\n]')
        for text in ("[1]", "[1", ""):
            for width in (-1, 9, (1 << 32) + 2, (1 << 64) - 1, 1 << 64, (1 << 64) + 2, -(1 << 64)):
                error = self.refused(WidthError, indent, text, width)
                self.assertEqual((error.width, str(error)), (width, f"the width is {width}, and isn't from 0 to 8"))
        self.assertNotIsInstance(error, JihlukaError)
        for width in ("2", 2.0, None):
            with self.assertRaises(TypeError):
                indent("[1]", width)

    def test_longer_than_the_room(self):
        deep = nested(200)
        wanted = "\n".join([" " * 8 * level + "[" for level in range(199)] + [" " * 8 * 199 + "[]"])
        wanted += "".join("\n" + " " * 8 * level + "]" for level in reversed(range(199)))
        self.made(indent(deep, 8), wanted)
        copies = [{"op": "copy", "from": "/0", "path": "/-"}] * 9
        self.made(patch(json.dumps(["ë" * 9000], ensure_ascii=False), json.dumps(copies)), "[" + ",".join(['"' + "ë" * 9000 + '"'] * 10) + "]")
        with mock.patch.object(_native, "call", side_effect=_native.call) as calls:
            self.made(indent("[[[1]]]", 8), "[\n        [\n" + " " * 16 + "[\n" + " " * 24 + "1\n" + " " * 16 + "]\n        ]\n]")
            self.assertEqual(calls.call_count, 2)
            for call, *arguments in (
                (minify, ORDER), (minify, "7"), (patch, ORDER, "[]"), (edit, ORDER, '["take",["id"]]'), (fill, SCHEMA, "{}"),
                (fill, "{}", ORDER),
            ):  # fmt: skip
                calls.reset_mock()
                call(*arguments)
                self.assertEqual(calls.call_count, 1)

    def test_many_values(self):
        text = "[" + " 7 ,\n" * 100000 + "7]"
        self.made(minify(text), "[" + "7," * 100000 + "7]")
        self.made(edit(text, '["take",[]]'), "null")
        self.made(minify(nested(100000)), nested(100000))

    def test_broken_documents(self):
        calls = (minify, lambda it: indent(it, 2), lambda it: patch(it, "[]"), lambda it: edit(it, ""), lambda it: fill("{}", it))
        for call in calls:
            for text in kinds(""):
                self.broken(Code.EOF_WHILE_PARSING, 0, call, text)
            self.broken(Code.EOF_WHILE_PARSING, 2, call, "[1,")
            self.broken(Code.INVALID_UTF8, 2, call, b'["\xff"]')
        for call in calls[:-1]:
            self.broken(Code.TRAILING_CHARACTERS, 4, call, "[1] 2")
            error = self.refused(BrokenText, call, "[1,\n 01]")
            self.assertEqual((error.code, error.line, error.column, error.offset), (Code.INVALID_NUMBER, 2, 3, 6))

    def test_patches(self):
        for text, change, cause, index, words in (
            ("", "{}", Cause.BAD_PATCH, None, "the patch is no array"),
            ("[1", '[{"op":"remove","path":"0"}]', Cause.BAD_OPERATION, 0, "the element of index 0 of the patch is no operation"),
            ("[1]", '[{"op":"remove","path":"/0"}, 7]', Cause.BAD_OPERATION, 1, "the element of index 1 of the patch is no operation"),
            ("[1]", '[{"op":"remove","path":"/0"}, {"op":"remove","path":"/0"}]', Cause.MISSING, 1, "leads to nothing"),
            ("[1]", '[{"op":"test","path":"/0","value":1.0}]', Cause.TEST_FAILED, 0, "another one than it tests for"),
            ('{"a":{}}', '[{"op":"move","from":"/a","path":"/a/b"}]', Cause.INTO_CHILD, 0, "move a value into itself"),
        ):
            for it in kinds(change):
                error = self.refused(PatchError, patch, text, it)
                self.assertEqual((error.cause, error.index, error.broken), (cause, index, None))
                self.assertTrue(str(error).endswith(words), str(error))
        for change, code, line, column, offset in (
            ("", Code.EOF_WHILE_PARSING, 1, 1, 0),
            ('[\n{"op"', Code.EOF_WHILE_PARSING, 2, 5, 6),
            (b'["\xff"]', Code.INVALID_UTF8, 1, 3, 2),
            ("[] 1", Code.TRAILING_CHARACTERS, 1, 4, 3),
        ):
            error = self.refused(PatchError, patch, "[1,", change)
            self.assertEqual((error.cause, error.index), (Cause.BAD_PATCH, None))
            broken = error.broken
            self.assertEqual((broken.code, broken.line, broken.column, broken.offset), (code, line, column, offset))
            self.assertEqual(str(error), f"the patch is no JSON text: {broken}")

    def test_edits(self):
        for text, change, cause, line in (
            ("[1", '["take",[]]\n["take"]', Cause.BAD_LINES, 2),
            ("[1]", "7", Cause.BAD_LINES, 1),
            ("[1]", '["take",[]]\n\n["take",[]]', Cause.BAD_LINES, 2),
            ("[1]", '["take",[0]]\n["push",[0],1]', Cause.EDIT_REFUSED, 2),
            ("[1]", '["set",[1],1]', Cause.EDIT_REFUSED, 1),
        ):
            for it in kinds(change):
                error = self.refused(EditError, edit, text, it)
                self.assertEqual((error.cause, error.line), (cause, line))
                why = "says no edit, or is blank" if cause == Cause.BAD_LINES else "isn't made, as its path leads to nothing or"
                self.assertTrue(str(error).startswith(f"line {line} of the edits {why}"), str(error))

    def test_fills(self):
        for schema, text, wanted in (
            ("{}", "{} x", "{}"),
            ("{}", '{"a": 1}', '{"a":1}'),
            ('{"a": 1}', " [7 ]", "[7]"),
            ('{"a": {"b": 1}}', '{"a": {}, "c": 2}', '{"a":{"b":1}}'),
            ('{"a": {"b": 1, "c": 2}}', '{"a": {"b": [ ]}}', '{"a":{"b":[],"c":2}}'),
            ('{"a": 1, "a": "\\u00eb"}', '{"b": 2}', '{"a":1,"a":"ë"}'),
            ('{"a": 1, "a": 2}', '{"a": 3, "a": 4}', '{"a":1,"a":4}'),
            ("{}", nested(255), nested(255)),
            ('{"a": 1}', f'{{"b": {nested(300)}, "a": {nested(255)}}}', f'{{"a":{nested(255)}}}'),
        ):
            with self.subTest(schema=schema, text=text):
                self.made(fill(schema, text), wanted)
        self.broken(Code.RECURSION_LIMIT_EXCEEDED, 255, fill, "{}", nested(256))
        for schema, code, offset in (
            ("", Code.EOF_WHILE_PARSING, 0),
            ('{"a":', Code.EOF_WHILE_PARSING, 4),
            (nested(256), Code.RECURSION_LIMIT_EXCEEDED, 255),
        ):
            error = self.refused(SchemaError, fill, schema, "")
            broken = error.broken
            self.assertEqual((broken.code, broken.line, broken.column, broken.offset), (code, 1, offset + 1, offset))
            self.assertEqual(str(error), f"the schema isn't read: {broken}")
        error = self.refused(SchemaError, fill, "[]", "")
        self.assertEqual((error.broken, str(error)), (None, "the schema is no object"))

    def test_what_others_hold(self):
        text, change = bytearray(ORDER.encode()), bytearray(EDITS.encode())
        self.made(edit(text, change), EDITED)
        text.append(32)  # nothing else holds the memory, which could not grow then
        change.append(10)

    def test_what_others_write(self):
        text, call = bytearray((nested(20) + " " * 20).encode()), _native.call

        def call_and_write(*arguments):
            status = call(*arguments)
            text[:] = nested(30).encode()
            return status

        with mock.patch.object(_native, "call", side_effect=call_and_write) as calls:
            found = indent(text, 8)
            self.assertEqual(calls.call_count, 3)
        self.assertEqual(found, indent(nested(30), 8))

    def test_no_memory(self):
        with mock.patch.object(_native, "call", return_value=_native.NO_MEMORY):
            for call, *arguments in ((minify, "1"), (indent, "1", 2), (patch, "1", "[]"), (edit, "1", ""), (fill, "{}", "1")):
                with self.assertRaises(MemoryError):
                    call(*arguments)

    def test_by_threads(self):
        wrong = []

        def look(number):
            text = json.dumps([number] * 300)
            for _ in range(100):
                again = patch(indent(text, 3), f'[{{"op":"test","path":"/299","value":{number}}}]')
                if minify(again) != text.replace(" ", "").encode():
                    wrong.append(number)

        threads = [threading.Thread(target=look, args=(number,)) for number in range(8)]
        for it in threads:
            it.start()
        for it in threads:
            it.join()
        self.assertEqual(wrong, [])


if __name__ == "__main__":
    unittest.main()
