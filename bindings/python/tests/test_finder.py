"""What a finder tells. Expected values are worked out by hand, noted while a document is written, or those of `get_many`."""
import copy
import gc
import pickle
import random
import subprocess
import sys
import threading
import time
import unittest
from unittest import mock

import jihluka
from jihluka import _native
from jihluka import BrokenText, Code, Document, DocumentError, Finder, NotFound, PathError, Paths, Type, WrongType
from test_index import Writer, kinds

RULES = ("first", "last", "refuse")

BODY = '{"name": "Zoë", "roles": ["reader", "editor"]}'
FIELDS = [["roles", 1], ["exp"], ["name"]]

EMPTY, TWICE, CUT = Code.GET_IN_EMPTY_OBJECT, Code.DUPLICATE_KEY, Code.EOF_WHILE_PARSING

# Paths, a text, and by each rule the values, or the code of the error and its offset.
WORKED = (
    ([["a"]], '{"a":1,"a":2}', ["1"], ["2"], (TWICE, 7)),
    ([["a"]], '{"\\u0061":1,"a":2,"a":3}', ["1"], ["3"], (TWICE, 12)),
    ([["a"], ["a"], []], '{"a":1,"a":2}', ["1", "1", '{"a":1,"a":2}'], ["2", "2", '{"a":1,"a":2}'], (TWICE, 7)),
    ([["b"], ["a"]], '{"a":1,"b":2,"b":3,"a":4}', ["2", "1"], ["3", "4"], (TWICE, 13)),
    # Keys that no path names may repeat, and what follows the object may be anything.
    ([["b"]], '{"a":1,"a":2,"b":3}, and more', ["3"], ["3"], ["3"]),
    ([["b"]], '{"a":1,"a":2}', [None], [None], [None]),
    ([[]], '{"a":1,"a":2}', ['{"a":1,"a":2}'], ['{"a":1,"a":2}'], ['{"a":1,"a":2}']),
    # An object in which a key is looked for is read to its end, but by the first.
    ([["a"]], '{"a":1,"b":', ["1"], (CUT, 10), (CUT, 10)),
    # What is below a member that doesn't count plays no part.
    ([["a", "b"]], '{"a":{"b":1},"a":{"c":2}}', ["1"], [None], (TWICE, 13)),
    ([["a", "b"]], '{"a":{},"a":{"b":5}}', (EMPTY, 6), ["5"], (TWICE, 8)),
    ([["a", "b"]], '{"a":{"b":1,"b":2},"a":{}}', ["1"], (EMPTY, 24), (TWICE, 19)),
    ([["a", "b"]], '{"a":{"b":1,"b":2}}', ["1"], ["2"], (TWICE, 12)),
)


def told(call, *arguments):
    """What a call gives, or the error that it raises."""
    try:
        return call(*arguments)
    except DocumentError as error:
        return type(error), error.args


def broken(chance, text):
    """A text, whole, cut or with a byte that is another one."""
    place = chance.randrange(len(text))
    changed = text[:place] + chance.choice((b"", b'"', b"{", b"}", b"]", b",", b"\xff")) + text[place + 1 :]
    return chance.choice((text, text, text[:place], changed))


def by_threads(call):
    threads = [threading.Thread(target=call, args=(number,)) for number in range(8)]
    for it in threads:
        it.start()
    for it in threads:
        it.join()


class Answers(unittest.TestCase):
    def test_each_kind(self):
        finder = Finder(FIELDS)
        for text in kinds(BODY):
            with self.subTest(type(text).__name__):
                wanted = jihluka.get_many(text, FIELDS)
                for _ in range(2):
                    found = finder.get_many(text)
                    self.assertEqual((found, list(map(type, found))), (wanted, list(map(type, wanted))))
        self.assertEqual(finder.get_many(BODY), ['"editor"', None, '"Zoë"'])

    def test_each_kind_of_paths(self):
        for paths in (FIELDS, tuple(map(tuple, FIELDS)), iter(FIELDS), Paths(FIELDS)):
            finder = Finder(paths)
            self.assertEqual((len(finder), finder.get_many(BODY)), (3, ['"editor"', None, '"Zoë"']))

    def test_as_get_many(self):
        chance = random.Random(25)
        texts = [broken(chance, bytes(Writer(seed).text)) for seed in range(300)]
        texts += [b'{"":{"a":[{}]},"a":[0,[1]],"b":{"a":7}}', b"[[[]],{},2]", b"{}", b"[]", b""]
        seen = set()
        for paths in ([["a"]], [["b"], ["a"], [], ["b"]], [["a", 0], ["a", 1, 0], ["", "a"]], [[0], [2], [0, 0]], [[]]):
            finder = Finder(paths)
            for _ in range(600):
                text = chance.choice(texts)
                wanted = told(jihluka.get_many, text, paths)
                self.assertEqual(told(finder.get_many, chance.choice((bytes, bytearray, memoryview))(text)), wanted)
                if not told(jihluka.validate, text):
                    document = Document(text)
                    self.assertEqual(told(document.get_many_with, finder), told(document.get_many, paths))
                    self.assertEqual(told(document.get_many_with, finder), wanted)
                seen.add(wanted[0] if isinstance(wanted, tuple) else list)
        self.assertEqual(seen, {list, BrokenText, NotFound, jihluka.Mismatch})

    def test_worked(self):
        for paths, text, *answers in WORKED:
            for keys, wanted in zip(RULES, answers):
                with self.subTest(text=text, paths=paths, keys=keys):
                    finder, calls = Finder(paths, keys), []
                    calls.append(lambda: finder.get_many(text))
                    if not told(jihluka.validate, text):
                        calls.append(lambda: Document(text).get_many_with(finder))
                    for call in calls:
                        if isinstance(wanted, list):
                            self.assertEqual(call(), wanted)
                            continue
                        with self.assertRaises(NotFound if wanted[0] == EMPTY else BrokenText) as it:
                            call()
                        self.assertEqual((it.exception.code, it.exception.offset), wanted)

    def test_rules_as_written(self):
        repeated = 0
        keys = ("", "a", "b", "\\", "c")
        finders = {key: [Finder([[key]], it) for it in RULES] for key in keys}
        for seed in range(400):
            document = Writer(seed)
            text = bytes(document.text)
            if document.entries[0][5] != Type.OBJECT or len(document.entries) == 1:
                continue
            for key in keys:
                members = [it for it in document.entries if it[2] and it[3] == 0]
                members = [it for it in members if jihluka.as_str(text[slice(*it[2])]) == key]
                values = [text[start:end] for start, end, *_ in members] or [None]
                for finder, value in zip(finders[key], (values[0], values[-1], values[0])):
                    for call in (lambda: finder.get_many(text), lambda: Document(text).get_many_with(finder)):
                        if finder is not finders[key][2] or len(members) < 2:
                            self.assertEqual(call(), [value])
                            continue
                        with self.assertRaises(BrokenText) as it:
                            call()
                        self.assertEqual((it.exception.code, it.exception.offset), (TWICE, members[1][2][0]))
                        repeated += 1
        self.assertGreater(repeated, 100)

    def test_errors(self):
        finder = Finder([["a", "b"]], keys="refuse")
        for text, kind, words in (
            ('{"a":\n1}', WrongType, "invalid type: number, expected a JSON object: line 2 column 1 (byte 6), code 120"),
            ('{"a":1,\n     "a":2}', BrokenText, "Duplicate key in the object: line 2 column 6 (byte 13), code 32"),
            ('{"a":{"b":1}', BrokenText, "line 1 column 12 (byte 11), code 3"),
            ("{}", NotFound, "line 1 column 2 (byte 1), code 21"),
        ):
            with self.assertRaises(kind) as it:
                finder.get_many(text)
            self.assertIn(words, str(it.exception))
            again = pickle.loads(pickle.dumps(it.exception))
            self.assertEqual((type(again), str(again)), (type(it.exception), str(it.exception)))
            self.assertEqual(finder.get_many('{"a":{"b":1}}'), ["1"])

    def test_no_paths(self):
        for keys in RULES:
            finder = Finder([], keys)
            self.assertEqual((len(finder), finder.get_many(""), finder.get_many(b"[")), (0, [], []))
            self.assertEqual(Document("7").get_many_with(finder), [])

    def test_many_paths(self):
        paths = [[number, *[0] * 254] for number in range(300)]
        finder, item = Finder(paths), "[" * 254 + "7" + "]" * 254
        for count in (300, 1, 300):
            text = f"[{','.join([item] * count)}]"
            self.assertEqual(told(finder.get_many, text), told(jihluka.get_many, text, paths))
        self.assertEqual(finder.get_many(text), ["7"] * 300)


class Refused(unittest.TestCase):
    def test_paths(self):
        for path in ([-1], [1.5], [True], [None], [["a"]], [1 << 64], ["\ud800"], [0] * 256):
            for keys in RULES:
                with self.assertRaises(PathError) as it:
                    Finder([[0], path, []], keys)
                self.assertEqual((it.exception.path, it.exception.index), (path, 1))
        with self.assertRaises(PathError) as it:
            Finder([["a"], ["b", 1], ["b", "c"]])
        self.assertEqual((it.exception.path, it.exception.index), (["b", "c"], 2))
        for paths in (["a"], [b"a"], [1], [None], [{"a"}], 1, None):
            with self.assertRaises(TypeError):
                Finder(paths)

    def test_words(self):
        for keys in ("", "First", "first ", "none", b"first", None, 0):
            with self.assertRaises(ValueError) as it:
                Finder(FIELDS, keys)
            self.assertEqual(str(it.exception), f"keys are 'first', 'last' or 'refuse', and not {keys!r}")

    def test_no_text(self):
        finder = Finder([[0]])
        for text in (None, 1, ["a"], memoryview(b"[1, 2]")[::2]):
            with self.assertRaises(TypeError):
                finder.get_many(text)
        with self.assertRaises(UnicodeEncodeError):
            finder.get_many('"\ud800"')
        self.assertEqual(finder.get_many("[1]"), ["1"])

    def test_no_finder(self):
        document = jihluka.Document(b"{}")
        for other in (jihluka.Paths([["a"]]), [["a"]], None):
            with self.assertRaisesRegex(TypeError, "a Finder is asked for, and not "):
                document.get_many_with(other)

    def test_copies(self):
        finder = Finder(FIELDS)
        for call in (copy.copy, copy.deepcopy, pickle.dumps, lambda it: pickle.dumps(it, 0), lambda it: pickle.dumps(it, 2)):
            with self.assertRaises(TypeError) as it:
                call(finder)
            self.assertEqual(str(it.exception), "a Finder is neither copied nor pickled: make another one of the same paths")

    def test_no_memory(self):
        finder = Finder(FIELDS)
        with mock.patch.object(_native, "call", return_value=_native.NO_MEMORY):
            for call in (lambda: Finder(FIELDS), lambda: finder.get_many(BODY)):
                with self.assertRaises(MemoryError):
                    call()
        self.assertEqual(finder.get_many(BODY), ['"editor"', None, '"Zoë"'])


class Kept(unittest.TestCase):
    def test_words(self):
        self.assertEqual(repr(Finder([["a"], ("b", 1)])), "Finder([['a'], ('b', 1)], keys='first')")
        self.assertEqual(repr(Finder([], keys="last")), "Finder([], keys='last')")

    def test_closed(self):
        for paths in (FIELDS, []):
            with Finder(paths) as finder:
                self.assertIs(finder.__enter__(), finder)
                self.assertEqual(len(finder.get_many(BODY)), len(paths))
            for _ in range(2):
                for call in (finder.get_many, lambda it: Document(it).get_many_with(finder)):
                    with self.assertRaises(ValueError) as it:
                        call(BODY)
                    self.assertEqual(str(it.exception), "the finder is closed")
                finder.close()
            self.assertEqual((len(finder), repr(finder)), (len(paths), f"Finder({paths!r}, keys='first')"))
        with self.assertRaises(KeyError):
            with Finder(FIELDS) as finder:
                raise KeyError
        with self.assertRaises(ValueError):
            finder.get_many(BODY)

    def test_given_back(self):
        with mock.patch.object(_native, "free", side_effect=_native.free) as free:
            finder = Finder(FIELDS)
            for _ in range(2):
                finder.close()
            del finder
            self.assertEqual(free.call_count, 1)
            finder = Finder(FIELDS)
            del finder
            self.assertEqual(free.call_count, 2)
            finder = Finder(FIELDS)
            round_about = [finder]
            round_about.append(round_about)
            del finder, round_about
            gc.collect()
            self.assertEqual(free.call_count, 3)
            for arguments in (([["a"], [0]],), ([], "")):
                with self.assertRaises(ValueError):
                    Finder(*arguments)
            self.assertEqual(free.call_count, 3)
            for (kept,), _ in free.call_args_list:
                self.assertEqual((kept.kept, kept.held, kept.count), (None, 0, 0))

    def test_at_the_end(self):
        # The last handler asks, and other threads until the program is gone.
        program = """if True:
            import atexit, threading
            atexit.register(lambda: print(finder.get_many('{"a": 7}')))
            import jihluka
            finder = jihluka.Finder([["a"]])
            def ask():
                while True:
                    finder.get_many(b'{"a":1}')
            for _ in range(3):
                threading.Thread(target=ask, daemon=True).start()
        """
        printed = subprocess.run([sys.executable, "-B", "-c", program], stdout=subprocess.PIPE, check=True).stdout
        self.assertEqual(printed, b"['7']\n")

    def test_what_others_hold(self):
        finder, text = Finder(FIELDS), bytearray(BODY.encode())
        del finder.get_many(text)[:]
        text.append(32)  # nothing else holds the memory, which could not grow then
        value = finder.get_many(text)[2]
        finder.close()
        self.assertEqual(value, '"Zoë"'.encode())

    def test_one_call_at_a_time(self):
        finder, running, wrong, call = Finder(FIELDS), [], [], _native.call

        def call_slowly(*arguments):
            running.append(None)
            if len(running) > 1:
                wrong.append(arguments)
            time.sleep(0.001)
            running.pop()
            return call(*arguments)

        with mock.patch.object(_native, "call", call_slowly):
            by_threads(lambda number: [finder.get_many(BODY) for _ in range(5)])
        self.assertEqual(wrong, [])

    def test_asked_by_its_own_thread(self):
        finder, found, call = Finder(FIELDS), [], _native.call

        def ask_and_call(*arguments):  # as a signal handler does
            with mock.patch.object(_native, "call", call):
                found.append(told(finder.get_many, "{}"))
            return call(*arguments)

        with mock.patch.object(_native, "call", ask_and_call):
            self.assertEqual(finder.get_many(BODY), ['"editor"', None, '"Zoë"'])
        self.assertEqual(found, [(NotFound, (21, 1, 2, 1))])

    def test_by_threads(self):
        paths, wrong = Paths([["a"], ["b", 1]]), []
        shared = Finder(paths)

        def look(number):
            text, wanted = f'{{"b": [0, {number}], "a": "x"}}', ['"x"', str(number)]
            with Finder(paths, RULES[number % 3]) as own:
                for _ in range(300):
                    for finder in (own, shared):
                        found = finder.get_many(text), told(finder.get_many, b'{"b": [0]}')
                        if found != (wanted, (NotFound, (24, 1, 9, 8))):
                            wrong.append(number)

        by_threads(look)
        self.assertEqual(wrong, [])


if __name__ == "__main__":
    unittest.main()
