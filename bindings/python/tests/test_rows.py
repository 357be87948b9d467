"""What rows the package makes of lines, at once and in pieces. Expected values are worked out by hand."""
import array
import pickle
import random
import threading
import unittest
from unittest import mock

from jihluka import _native
from jihluka import JihlukaError, NumberError, PathError, Paths, Rows, rows

FIELDS = [["id"], ["t", 0]]

LOG = '{"id":7,"t":["x"]}\n{"id" : "ë" }\r\n\n{"id":tru}\n \t\r\n{"t":[[ 1,\t2 ]],"id":-0.50}'
ROWS = '1 7\t3 "x"\n4 "ë"\t-\n! 4 syntax InvalidLiteral 9\n5 -0.50\t8 [ 1,\t2 ]\n'

# Lines, paths, and their rows.
WORKED = (
    ("", [["a"]], ""),
    ("\n", [["a"]], ""),
    ("\n \t\r\n\n  ", [["a"]], ""),
    ('{"id":7}\n{', [["id"]], "1 7\n! 2 eof EofWhileParsing 0\n"),
    ('{"a":1}', [["a"]], "1 1\n"),
    ('{"a":1}\n', [["a"]], "1 1\n"),
    ('{"a":1}\n\n', [["a"]], "1 1\n"),
    ('{"a":1}\r\n{"a":[2 ]}\r\n\r\n', [["a"]], "1 1\n4 [2 ]\n"),
    ('{"a":1}\r{"a":2}', [["a"]], "1 1\n"),
    ('{"a":[1,\t2],"b":"\u2028"}', [["b"], ["a"]], '5 "\u2028"\t6 [1,\t2]\n'),
    ('{"b":1}\n{"b":[]}', [["a"], ["b"], ["a"]], "-\t1 1\t-\n-\t2 []\t-\n"),
    ('{"a":{"b":1}}\n{"a":{"c":1}}', [["a", "b"], ["a"]], '1 1\t7 {"b":1}\n-\t7 {"c":1}\n'),
    ('{"a":1,"a":2,"\\u0061":3}', [["a"]], "1 1\n"),
    (' 7 \n"é"\n\n[ ]', [[]], '1 7\n4 "é"\n3 [ ]\n'),
    ("{}\n\n[1]\n", [], "\n\n"),
    ('{"a":1}}\n[1]', [["a"]], "1 1\n! 2 type Message 2\n"),
    ("[1]\n[1,[2]]", [[1]], "! 1 not-found GetIndexOutOfArray 2\n3 [2]\n"),
    ("[]\n{}", [[0]], "! 1 not-found GetInEmptyArray 1\n! 2 type Message 1\n"),
    ("{}\n", [["a"]], "! 1 not-found GetInEmptyObject 1\n"),
    ('\ufeff{"a":1}\nx\n{"a":1}', [["a"]], "! 1 syntax InvalidJsonValue 0\n! 2 syntax InvalidJsonValue 0\n1 1\n"),
    ('{"a":"\n"}', [["a"]], "! 1 eof EofWhileParsing 5\n! 2 eof EofWhileParsing 1\n"),
)

# Lines, and the row of each for FIELDS, with the number of the line where it is one of an error.
LINES = (
    (b'{"id":7,"t":["x"]}', b'1 7\t3 "x"\n'),
    (b'{"id":7,"t":["x"]}\r', b'1 7\t3 "x"\n'),
    (b' { "t" : [ "\xc3\xab\\n\\\\", 1 ] }', b'-\t8 "\xc3\xab\\n\\\\"\n'),
    (b'{"x":"\\u00eb\xe2\x82\xac"}', b"-\t-\n"),
    (b'{"id":[[],{"id":\t[0]}],"id":1}', b'16 [[],{"id":\t[0]}]\t-\n'),
    (b"", b""),
    (b"", b""),
    (b" \t\r", b""),
    (b'{"id":tru}', b"! %d syntax InvalidLiteral 9\n"),
    (b'{"id":1', b"! %d eof EofWhileParsing 6\n"),
    (b'{"id":"\xff"}', b"! %d syntax InvalidUTF8 7\n"),
    (b'{"t":[]}', b"! %d not-found GetInEmptyArray 6\n"),
    (b"[]", b"! %d type Message 1\n"),
)


def kinds(text):
    """A text in each kind that it may be of."""
    raw = text.encode()
    return (text, raw, bytearray(raw), memoryview(raw), memoryview(b"x" + raw + b"x")[1:-1], array.array("B", raw))


def stream_of(chance, count):
    """A stream of so many lines, and its rows."""
    picked = [chance.choice(LINES) for _ in range(count)]
    wanted = b"".join(row % number if b"%d" in row else row for number, (_, row) in enumerate(picked, 1))
    return b"\n".join(line for line, _ in picked) + chance.choice((b"", b"\n")), wanted


def pieces_of(chance, text):
    """The stream in pieces, which are cut anywhere, each in another kind."""
    cuts = [0, *sorted(chance.randint(0, len(text)) for _ in range(chance.randrange(12))), len(text)]
    return [chance.choice((bytes, bytearray, memoryview))(text[start:end]) for start, end in zip(cuts, cuts[1:])]


class OfLines(unittest.TestCase):
    def refused(self, kind, call, *arguments):
        """The error, which is the same after pickle."""
        with self.assertRaises(kind) as it:
            call(*arguments)
        again = pickle.loads(pickle.dumps(it.exception))
        self.assertEqual((type(again), type(it.exception), str(again)), (kind, kind, str(it.exception)))
        return it.exception

    def test_each_kind(self):
        for text in kinds(LOG):
            for paths in (FIELDS, tuple(map(tuple, FIELDS)), Paths(FIELDS), iter(FIELDS)):
                found = rows(text, paths)
                self.assertEqual(found, ROWS.encode())
                self.assertIs(type(found), bytes)

    def test_worked(self):
        for text, paths, wanted in WORKED:
            with self.subTest(text=text, paths=paths):
                self.assertEqual(rows(text, paths), wanted.encode())

    def test_broken_characters(self):
        for text, wanted in (
            (b'{"a":"\xff"}\n{"a":1}', b"! 1 syntax InvalidUTF8 6\n1 1\n"),
            (b'{"a":1,"b":"\xff"}', b"1 1\n"),
            (b'{"b":"\xc3\n\xab","a":1}', b"! 1 eof EofWhileParsing 6\n! 2 syntax InvalidJsonValue 0\n"),
        ):
            self.assertEqual(rows(text, [["a"]]), wanted)

    def test_before(self):
        text = "{\n\n[\n{}"
        for before in (0, 1, 41, True, 2**63, 2**64 - 2 - len(text)):
            wanted = f"! {before + 1} eof EofWhileParsing 0\n! {before + 3} eof EofWhileParsing 0\n! {before + 4} not-found GetInEmptyObject 1\n"
            self.assertEqual(rows(text, [["a"]], before), wanted.encode())
        self.assertEqual(rows("[\n", [], before=6), b"\n")
        self.assertEqual(rows('{"a":1}', [["a"]], before=6), b"1 1\n")
        self.assertEqual(rows("", [["a"]], 2**64 - 2), b"")
        for paths in ([["a"]], Paths([["a"]]), [[-1]]):
            for before in (-1, 2**64 - 1 - len(text), 2**64 - 1, 2**64, 2**64 + 1, -(2**64), 2**80):
                error = self.refused(NumberError, rows, text, paths, before)
                self.assertEqual(error.before, before)
                words = f"the number of lines before is {before}, and isn't from 0 to 2**64 - 2 less the bytes of the lines"
                self.assertEqual(str(error), words)
        self.assertNotIsInstance(error, JihlukaError)
        self.assertIsInstance(error, ValueError)
        for before in ("1", 1.0, None):
            with self.assertRaises(TypeError):
                rows(text, [["a"]], before)

    def test_no_paths(self):
        for path in ([-1], [1.5], [True], [None], [["a"]], [1 << 64], ["\ud800"], [0] * 256):
            for text in ("", "[[0]]\n"):
                error = self.refused(PathError, rows, text, [[0], path, []])
                self.assertEqual((error.path, error.index), (path, 1))
        for call in (Rows, lambda paths: rows("", paths)):
            error = self.refused(PathError, call, [["a"], ["b", 1], ["b", "c"]])
            self.assertEqual((error.path, error.index), (["b", "c"], 2))
            for paths in (["a"], [b"a"], [1], [None], [{"a"}], 1, None):
                with self.assertRaises(TypeError):
                    call(paths)

    def test_no_text(self):
        for text in (None, 1, ["a"], memoryview(b"[1, 2]")[::2]):
            for call in (lambda it: rows(it, FIELDS), Rows(FIELDS).feed):
                with self.assertRaises(TypeError):
                    call(text)
        with self.assertRaises(UnicodeEncodeError):
            rows('"\ud800"', FIELDS)

    def test_longer_than_the_room(self):
        with mock.patch.object(_native, "call", side_effect=_native.call) as calls:
            for text, paths, wanted, count in (
                ('{"a":1}\n' * 100, [["b"]] * 50, "\t".join("-" * 50) + "\n", 2),
                ('{"a":1}\n' * 100, [["b"]] * 4, "-\t-\t-\t-\n", 1),
                ('{"a":1}\n' * 100, [["a"]], "1 1\n", 1),
                ("7\n" * 100, [[]], "1 7\n", 2),
            ):
                calls.reset_mock()
                self.assertEqual(rows(text, paths), wanted.encode() * 100)
                self.assertEqual(calls.call_count, count)

    def test_what_others_hold(self):
        text = bytearray(LOG.encode())
        self.assertEqual(rows(text, FIELDS), ROWS.encode())
        text.append(32)  # nothing else holds the memory, which could not grow then

    def test_no_memory(self):
        with mock.patch.object(_native, "call", return_value=_native.NO_MEMORY):
            with self.assertRaises(MemoryError):
                rows("1", FIELDS)

    def test_by_threads(self):
        fields, wrong = Paths(FIELDS), []

        def look(number):
            chance = random.Random(number)
            for _ in range(60):
                text, wanted = stream_of(chance, 50)
                reader = Rows(fields)
                found = b"".join(map(reader.feed, pieces_of(chance, text))) + reader.finish()
                if (rows(text, fields), found) != (wanted, wanted):
                    wrong.append(number)

        threads = [threading.Thread(target=look, args=(number,)) for number in range(8)]
        for it in threads:
            it.start()
        for it in threads:
            it.join()
        self.assertEqual(wrong, [])


class InPieces(unittest.TestCase):
    def test_each_kind(self):
        first, last = LOG.split("\r\n\n")
        for text, more in zip(kinds(first + "\r\n\n"), kinds(last)):
            reader = Rows(FIELDS)
            found = reader.feed(text), reader.feed(more), reader.finish()
            self.assertEqual(b"".join(found), ROWS.encode())
            self.assertEqual({type(it) for it in found}, {bytes})

    def test_rows_of_each(self):
        reader = Rows(iter(FIELDS))
        self.assertEqual((reader.lines, reader.finish(), reader.lines), (0, b"", 0))
        for piece, made, lines in (
            (b"", b"", 0),
            (b'{"id":', b"", 0),
            (b"7", b"", 0),
            (b"}", b"", 0),
            (b"\n", b"1 7\t-\n", 1),
            (b"\n\n \n", b"", 4),
            (b'[\n{"id":"\xe2\x82', b"! 5 eof EofWhileParsing 0\n", 5),
            (b"", b"", 5),
            (b'\xac"}\r\n{}', b'5 "\xe2\x82\xac"\t-\n', 6),
            ("\n[", b"! 7 not-found GetInEmptyObject 1\n", 7),
        ):
            self.assertEqual((reader.feed(piece), reader.lines), (made, lines))
        self.assertEqual((reader.finish(), reader.lines), (b"! 8 eof EofWhileParsing 0\n", 0))
        self.assertEqual((reader.feed(b"[\n"), reader.lines), (b"! 1 eof EofWhileParsing 0\n", 1))
        self.assertEqual((reader.finish(), reader.finish(), reader.lines), (b"", b"", 0))

    def test_of_each_size(self):
        text = LOG.encode()
        for size in range(1, len(text) + 1):
            reader = Rows(FIELDS)
            found = [reader.feed(text[start : start + size]) for start in range(0, len(text), size)]
            self.assertEqual(reader.lines, 5)
            self.assertEqual(b"".join(found) + reader.finish(), ROWS.encode())

    def test_cut_anywhere(self):
        chance, fields = random.Random(25), Paths(FIELDS)
        reader = Rows(fields)
        for _ in range(400):
            text, wanted = stream_of(chance, chance.randint(1, 30))
            self.assertEqual(rows(text, fields), wanted)
            found = b"".join(map(reader.feed, pieces_of(chance, text)))
            self.assertEqual(reader.lines, text.count(b"\n"))
            self.assertEqual(found + reader.finish(), wanted)

    def test_long_line(self):
        reader, piece = Rows([["a"]]), b"x" * 1000
        self.assertEqual({reader.feed(it) for it in [b'{"a":"', *[piece] * 3000]}, {b""})
        self.assertEqual(reader.feed(b'"}\n'), b'3000002 "' + piece * 3000 + b'"\n')

    def test_what_others_hold(self):
        reader, piece = Rows(FIELDS), bytearray(b'[\n{"id":')
        reader.feed(piece)
        piece[:] = b'[\n{"t":'  # the held bytes are a copy
        piece.append(32)
        self.assertEqual(reader.feed(b"7}\n"), b"1 7\t-\n")

    def test_no_memory(self):
        reader = Rows(FIELDS)
        reader.feed(b'{}\n{"id":')
        for call, made, lines in ((lambda: reader.feed(b"7}\n{"), b"1 7\t-\n", 2), (reader.finish, b"! 3 eof EofWhileParsing 0\n", 0)):
            before = reader.lines
            with mock.patch.object(_native, "call", return_value=_native.NO_MEMORY):
                with self.assertRaises(MemoryError):
                    call()
            self.assertEqual(reader.lines, before)
            self.assertEqual((call(), reader.lines), (made, lines))


if __name__ == "__main__":
    unittest.main()
