"""What the package does with each kind of text, path and error. Expected values are worked out by hand."""
import array
import json
import mmap
import pickle
import tempfile
import threading
import unittest

import jihluka
from jihluka import BrokenText, Code, Document, DocumentError, JihlukaError, Mismatch, NotFound, PathError, Paths, Type, WrongType

BODY = '{"iss": "https://id.example", "name": "Zoë", "roles": ["reader", "editor"]}'

class Texts(unittest.TestCase):
    def test_each_kind(self):
        raw = BODY.encode()
        for text, name, role in (
            (BODY, '"Zoë"', '"editor"'),
            (raw, '"Zoë"'.encode(), b'"editor"'),
            (bytearray(raw), memoryview('"Zoë"'.encode()), memoryview(b'"editor"')),
            (memoryview(raw), memoryview('"Zoë"'.encode()), memoryview(b'"editor"')),
            (memoryview(b"xx" + raw + b"x")[2:-1], memoryview('"Zoë"'.encode()), memoryview(b'"editor"')),
            (array.array("B", raw), memoryview('"Zoë"'.encode()), memoryview(b'"editor"')),
        ):
            with self.subTest(type(text).__name__):
                jihluka.validate(text)
                self.assertEqual(jihluka.get(text, ["name"]), name)
                self.assertIs(type(jihluka.get(text, ("roles", 1))), type(role))
                self.assertEqual(jihluka.get_many(text, [["roles", 1], ["exp"], ["name"]]), [role, None, name])

    def test_subclasses(self):
        class Text(str):
            def encode(self, *_):
                return b"lies"

        class Bytes(bytes):
            def __len__(self):
                return 1 << 40

        self.assertEqual(jihluka.get(Text("[1, 20]"), [1]), "20")
        self.assertEqual(jihluka.get(Bytes(b"[1, 20]"), [1]), b"20")
        self.assertIs(type(jihluka.get(Bytes(b"[1, 20]"), [1])), bytes)

    def test_a_file(self):
        with tempfile.TemporaryFile() as file:
            file.write(BODY.encode())
            file.flush()
            with mmap.mmap(file.fileno(), 0, access=mmap.ACCESS_READ) as text:
                with jihluka.get(text, ["roles", 0]) as value:
                    self.assertEqual(value, b'"reader"')

    def test_empty(self):
        for text in ("", b"", bytearray(), memoryview(b"")):
            self.assertEqual(jihluka.get_many(text, []), [])
            with self.assertRaises(BrokenText):
                jihluka.get(text, [])
            with self.assertRaises(BrokenText):
                jihluka.validate(text)

    def test_no_copy(self):
        text = bytearray(b"[1, 20]")
        value = jihluka.get(text, [1])
        text[4:6] = b"31"
        self.assertEqual(value, b"31")
        value.release()
        text.append(32)  # nothing else holds the memory, which could not grow then

    def test_no_text(self):
        for text in (None, 1, ["a"], memoryview(b"[1, 2]")[::2]):
            with self.assertRaises(TypeError):
                jihluka.get(text, [0])
        with self.assertRaises(UnicodeEncodeError):
            jihluka.get('"\ud800"', [])

class Errors(unittest.TestCase):
    def test_each_kind(self):
        for text, path, kind, code, line, column, offset in (
            (b"", [], BrokenText, Code.EOF_WHILE_PARSING, 1, 1, 0),
            (b'{"sub": "u', ["sub"], BrokenText, Code.EOF_WHILE_PARSING, 1, 10, 9),
            (b"[1\n,nil]", [1], BrokenText, Code.INVALID_LITERAL, 2, 3, 5),
            (b'{"a": "\xff"}', ["a"], BrokenText, Code.INVALID_UTF8, 1, 8, 7),
            (b'{"a":1}', ["b"], NotFound, Code.GET_UNKNOWN_KEY_IN_OBJECT, 1, 7, 6),
            (b"[1]", [1], NotFound, Code.GET_INDEX_OUT_OF_ARRAY, 1, 3, 2),
            (b"12", [0], Mismatch, Code.MISMATCH + 21, 1, 2, 1),
        ):
            with self.subTest(text=text, path=path):
                with self.assertRaises(DocumentError) as it:
                    jihluka.get(text, path)
                error = it.exception
                self.assertIs(type(error), kind)
                self.assertEqual((error.code, error.line, error.column, error.offset), (code, line, column, offset))
                again = pickle.loads(pickle.dumps(error))
                self.assertEqual((type(again), str(again)), (kind, str(error)))

    def test_bases(self):
        for kind, *bases in (
            (JihlukaError, ValueError),
            (DocumentError, JihlukaError),
            (BrokenText, DocumentError),
            (NotFound, DocumentError, LookupError),
            (WrongType, JihlukaError, TypeError),
            (Mismatch, DocumentError, WrongType),
            (jihluka.NotInteger, JihlukaError),
            (PathError, ValueError),
        ):
            self.assertTrue(all(issubclass(kind, base) for base in bases), kind)

    def test_what_was_found(self):
        for text, path, found in (
            ("null", [0], Type.NULL),
            ('{"a": "b"}', ["a", "c"], Type.STRING),
            ("[[1]]", [0, "a"], Type.ARRAY),
        ):
            with self.assertRaises(WrongType) as it:
                jihluka.get(text, path)
            self.assertIs(it.exception.found, found)
            self.assertIs(pickle.loads(pickle.dumps(it.exception)).found, found)

    def test_documents(self):
        for text, code, column, is_cut in (
            ("[1] 2", Code.TRAILING_CHARACTERS, 5, False),
            ("[1", Code.EOF_WHILE_PARSING, 2, True),
            (b"\xef\xbb\xbf1", Code.INVALID_JSON_VALUE, 1, False),
        ):
            for call in (jihluka.validate, Document):
                with self.assertRaises(BrokenText) as it:
                    call(text)
                self.assertEqual((it.exception.code, it.exception.column, it.exception.is_cut), (code, column, is_cut))

    def test_words(self):
        self.assertEqual(jihluka.code_text(Code.INVALID_NUMBER), "Invalid number")
        self.assertEqual(jihluka.code_text(150), "invalid type: sequence, expected a JSON object")
        self.assertEqual(jihluka.code_text(99), "")

class OfPaths(unittest.TestCase):
    def test_none(self):
        for path in ([-1], [1.5], [True], [None], [["a"]], [1 << 64], ["\ud800"], [0] * 256, [float("nan")]):
            with self.subTest(path):
                with self.assertRaises(PathError) as it:
                    jihluka.get("[[0]]", path)
                self.assertEqual((it.exception.path, it.exception.index), (path, 0))
                for call in (Paths, lambda it: jihluka.get_many("[[0]]", it), lambda it: Document("[[0]]").get_many(it)):
                    with self.assertRaises(PathError) as it:
                        call([[0], path, []])
                    self.assertEqual((it.exception.path, it.exception.index), (path, 1))
        for path in ("a", b"a", 1, None, {"a"}, {"a": 1}, iter(["a"])):
            with self.assertRaises(TypeError):
                jihluka.get("{}", path)

    def test_mixed(self):
        with self.assertRaises(PathError) as it:
            Paths([["a"], ["b", 1], ["b", "c"]])
        self.assertEqual(it.exception.index, 2)
        self.assertEqual(str(pickle.loads(pickle.dumps(it.exception))), str(it.exception))

    def test_odd_keys(self):
        for key in ("", "\n", '"', "\\", "\0", "Zoë", "\U0001f600", "a\u2028b"):
            with self.subTest(key):
                text = json.dumps({"x": 0, key: [1]})
                self.assertEqual(jihluka.get(text, [key, 0]), "1")
                self.assertEqual(jihluka.get_many(text, [[key], ["x"]]), ["[1]", "0"])

    def test_long_and_none(self):
        self.assertEqual(jihluka.get("[" * 255 + "7" + "]" * 255, [0] * 255), "7")
        self.assertEqual(jihluka.get_many("", []), [])
        self.assertEqual(jihluka.get_many(" [1] x", [[], []]), ["[1]", "[1]"])

    def test_kept(self):
        paths = Paths(iter([["a"], ["b", 1]]))
        self.assertEqual((len(paths), list(paths), repr(paths)), (2, [["a"], ["b", 1]], "Paths([['a'], ['b', 1]])"))
        wrong = []

        def look(number):
            text = f'{{"b": [0, {number}], "a": "x"}}'
            for _ in range(500):
                if jihluka.get_many(text, paths) != ['"x"', str(number)]:
                    wrong.append(number)

        threads = [threading.Thread(target=look, args=(number,)) for number in range(8)]
        for it in threads:
            it.start()
        for it in threads:
            it.join()
        self.assertEqual(wrong, [])

class Documents(unittest.TestCase):
    def test_same_as_checked(self):
        for text in (BODY, BODY.encode(), memoryview(BODY.encode())):
            document = Document(text)
            self.assertIs(document.text, text)
            for path in ([], ["name"], ["roles", 1]):
                self.assertEqual(document.get(path), jihluka.get(text, path))
                self.assertIs(type(document.get(path)), type(text))
            paths = [["roles", 1], ["exp"], []]
            self.assertEqual(document.get_many(paths), jihluka.get_many(text, Paths(paths)))
            with self.assertRaises(NotFound):
                document.get(["exp"])

    def test_what_may_change_is_refused(self):
        for text in (bytearray(b"1"), memoryview(bytearray(b"1")), memoryview(bytearray(b"1")).toreadonly()):
            with self.assertRaises(TypeError):
                Document(text)

    def test_kept_after_release(self):
        text = memoryview(b"[1, 20]")
        document = Document(text)
        text.release()
        self.assertEqual(document.get([1]), b"20")

if __name__ == "__main__":
    unittest.main()
