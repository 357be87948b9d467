"""What each path is told, whatever the others lead to."""
import random
import unittest

import jihluka

TEXT = '{"level": "info",\n "http": null, "tags": [], "user": {}}'
PATHS = [["level"], ["http", "status"], ["tags", 1], ["user", "id"], ["ms"], []]


def alone(text, path):
    """What a path is told by `get`."""
    try:
        return jihluka.get(text, path)
    except jihluka.NotFound as error:
        # A missing key is None here, in an empty object too.
        return None if error.code in (jihluka.Code.GET_IN_EMPTY_OBJECT, jihluka.Code.GET_UNKNOWN_KEY_IN_OBJECT) else repr(error)
    except jihluka.Mismatch as error:
        return repr(error)


def shown(told):
    return [repr(it) if isinstance(it, jihluka.DocumentError) else it for it in told]


class Each(unittest.TestCase):
    def test_tells_what_get_does(self):
        want = [alone(TEXT, path) for path in PATHS]
        self.assertEqual(shown(jihluka.get_each(TEXT, PATHS)), want)
        self.assertEqual(shown(jihluka.get_each(TEXT, jihluka.Paths(PATHS))), want)
        document = jihluka.Document(TEXT)
        self.assertEqual(shown(document.get_each(PATHS)), want)
        for keys in ("first", "last", "refuse"):
            with jihluka.Finder(PATHS, keys=keys) as finder:
                self.assertEqual(shown(finder.get_each(TEXT)), want)
                self.assertEqual(shown(document.get_each_with(finder)), want)

    def test_kinds_of_text(self):
        for text in (TEXT.encode(), bytearray(TEXT.encode()), memoryview(TEXT.encode())):
            told = jihluka.get_each(text, PATHS)
            self.assertEqual(bytes(told[0]), b'"info"')
            self.assertEqual((told[1].line, told[1].column, told[1].offset), (2, 13, 30))
            self.assertIsNone(told[4])

    def test_equal_keys(self):
        text = '{"a": 1, "a": {"b": 2}, "c": 3}'
        paths = [["a", "b"], ["c"]]
        told = {keys: jihluka.Finder(paths, keys=keys).get_each(text) for keys in ("first", "last", "refuse")}
        self.assertEqual(told["first"][0].found, jihluka.Type.NUMBER)
        self.assertEqual(told["last"][0], "2")
        self.assertEqual((told["refuse"][0].code, told["refuse"][0].offset), (jihluka.Code.DUPLICATE_KEY, 9))
        self.assertEqual([it[1] for it in told.values()], ["3"] * 3)

    def test_broken_texts(self):
        with self.assertRaises(jihluka.BrokenText) as raised:
            jihluka.get_each('{"a": 1, "b": tru', [["a", "x"], ["b"]])
        self.assertTrue(raised.exception.is_cut)
        # What follows the last byte that a path needs plays no part.
        told = jihluka.get_each('{"a": 1, "b": 2 and more', [["a", "x"], ["b"]])
        self.assertEqual(told[1], "2")
        with self.assertRaises(jihluka.PathError):
            jihluka.get_each("{}", [["a"], [0]])

    def test_no_paths(self):
        self.assertEqual(jihluka.get_each("[", []), [])
        self.assertEqual(jihluka.Finder([]).get_each("["), [])

    def test_random_documents(self):
        source = random.Random(7)

        def made(depth):
            kind = source.randrange(4, 6) if depth == 0 else source.randrange(6 if depth < 3 else 4)
            if kind < 4:
                return ["null", "true", str(source.randrange(100)), '"\\u00e9 "'][kind]
            if kind == 4:
                return "[" + ", ".join(made(depth + 1) for _ in range(source.randrange(4))) + "]"
            keys = [source.choice("abc") for _ in range(source.randrange(4))]
            return "{" + ",\n".join(f'"{key}": {made(depth + 1)}' for key in keys) + "}"

        trees = [[["a"], ["b", "a"], ["c", 1], ["a", "b"], []], [[0], [1, "a"], [2, 0, 1], [0, "b"]]]
        for _ in range(50000):
            text, paths = made(0), source.choice(trees)
            want = [alone(text, path) for path in paths]
            self.assertEqual(shown(jihluka.get_each(text, paths)), want, text)
            self.assertEqual(shown(jihluka.Document(text).get_each(paths)), want, text)


if __name__ == "__main__":
    unittest.main()
