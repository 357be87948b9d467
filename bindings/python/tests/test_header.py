"""That the package says what jihluka.h and its own page say."""
import ctypes
import doctest
import os
import re
import unittest

import jihluka
from jihluka import _native

HERE = os.path.dirname(os.path.abspath(__file__))


def read(*names):
    with open(os.path.join(HERE, *names), encoding="utf-8") as it:
        return it.read()


HEADER = read("..", "..", "..", "include", "jihluka.h")
PLAIN = re.sub(r"/\*.*?\*/", "", HEADER, flags=re.S)

PLAIN_TYPES = {
    "uint32_t": ctypes.c_uint32,
    "uint64_t": ctypes.c_uint64,
    "int64_t": ctypes.c_int64,
    "size_t": ctypes.c_size_t,
}
STRUCTS = {
    "jihluka_span": _native.Span,
    "jihluka_outcome": _native.Outcome,
    "jihluka_error": _native.Fault,
    "jihluka_paths": _native.Kept,
    "jihluka_items": _native.Items,
    "jihluka_item": _native.Item,
    "jihluka_entry": _native.Cell,
}
TYPES = {
    **PLAIN_TYPES,
    **STRUCTS,
    **{f"{name} *": ctypes.POINTER(kind) for name, kind in {**PLAIN_TYPES, **STRUCTS}.items()},
    "void": None,
    "void *": ctypes.c_void_p,
    "const uint8_t *": ctypes.c_void_p,
    "uint8_t *": ctypes.c_void_p,
}


def type_of(declared):
    return TYPES[re.sub(r"\w+$", "", declared.strip()).strip()]


class Header(unittest.TestCase):
    def test_calls(self):
        found = {}
        for result, name, arguments in re.findall(r"^(\w[\w *]*?)\b(jihluka_\w+)\(([^)]*)\);", PLAIN, re.M):
            found[name] = (TYPES[result.strip()], [type_of(it) for it in arguments.split(",")])
        self.assertEqual(found, _native.CALLS)

    def test_fields(self):
        found = {}
        for name, fields in re.findall(r"^typedef struct (\w+) \{(.*?)\}", PLAIN, re.M | re.S):
            found[name] = [(field, TYPES[of.strip()]) for of, field in re.findall(r"(\w+ \*?)(\w+);", fields)]
        self.assertEqual(found, {name: kind._fields_ for name, kind in STRUCTS.items()})

    def test_numbers(self):
        found = {name: int(number) for name, number in re.findall(r"JIHLUKA_(\w+) = (\d+)", PLAIN)}
        wanted = {f"CODE_{it.name}": int(it) for it in jihluka.Code}
        wanted.update({it.name: int(it) for it in jihluka.Type})
        wanted.update({name: number for name, number in vars(_native).items() if name.isupper() and type(number) is int})
        self.assertEqual(found, wanted)

    def test_version(self):
        version = re.search(r'JIHLUKA_VERSION "(.*)"', HEADER).group(1)
        self.assertEqual(jihluka.__version__, version)
        self.assertIn(f'\nversion = "{version}"\n', read("..", "pyproject.toml"))


class Page(unittest.TestCase):
    def test_examples(self):
        blocks = re.findall(r"^```python\n(.*?)^```$", read("..", "README.md"), re.M | re.S)
        self.assertGreater(len(blocks), 3)
        test = doctest.DocTestParser().get_doctest("\n".join(blocks), {}, "README.md", "README.md", 0)
        told = []
        doctest.DocTestRunner().run(test, out=told.append)
        self.assertEqual("".join(told), "")

    def test_examples_of_calls(self):
        calls = (jihluka.get_each, jihluka.index, jihluka.minify, jihluka.indent, jihluka.patch, jihluka.edit, jihluka.fill, jihluka.rows, jihluka.Rows, jihluka.Finder)
        for call in calls:
            test = doctest.DocTestParser().get_doctest(call.__doc__, {call.__name__: call}, call.__name__, None, 0)
            self.assertGreater(len(test.examples), 0)
            told = []
            doctest.DocTestRunner().run(test, out=told.append)
            self.assertEqual("".join(told), "")


if __name__ == "__main__":
    unittest.main()
