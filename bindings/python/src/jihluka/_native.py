"""The calls of libjihluka.so.0: a row for each, as jihluka.h has it."""
from __future__ import annotations

import ctypes
import os
import struct
from ctypes import POINTER, c_int, c_int64, c_size_t, c_ssize_t, c_uint32, c_uint64, c_void_p
from typing import Any, Callable, Dict, List, Tuple, Union

# What a call comes to, as jihluka.h says.
OK, DOCUMENT_ERROR, WRONG_COUNT, BAD_LINES, NO_MEMORY = 0, 1, 2, 3, 7
WRONG_TYPE, NO_INTEGER, END = 8, 9, 10
BAD_WIDTH, BAD_PATCH, BAD_OPERATION, MISSING, TEST_FAILED, INTO_CHILD = 11, 12, 13, 14, 15, 16
EDIT_REFUSED, BAD_SCHEMA, BAD_NUMBER, BAD_RULE = 17, 18, 19, 20

# Which of equal keys counts.
KEYS_FIRST, KEYS_LAST, KEYS_REFUSE = 0, 1, 2


class Span(ctypes.Structure):
    """jihluka_span."""

    _fields_ = [("start", c_size_t), ("end", c_size_t)]


class Outcome(ctypes.Structure):
    """jihluka_outcome."""

    _fields_ = [("status", c_uint32), ("code", c_uint32), ("span", Span), ("place", c_size_t)]


# What becomes of a path.
PATH_FOUND, PATH_MISSING, PATH_FAILS = 0, 1, 2


class Fault(ctypes.Structure):
    """jihluka_error."""

    _fields_ = [("code", c_uint32), ("line", c_size_t), ("column", c_size_t), ("offset", c_size_t)]


class Kept(ctypes.Structure):
    """jihluka_paths. A new one is JIHLUKA_NO_PATHS."""

    _fields_ = [("kept", c_void_p), ("held", c_size_t), ("count", c_size_t)]


class Items(ctypes.Structure):
    """jihluka_items."""

    _fields_ = [("place", c_size_t), ("state", c_uint32)]


class Item(ctypes.Structure):
    """jihluka_item."""

    _fields_ = [("key", Span), ("value", Span)]


class Cell(ctypes.Structure):
    """jihluka_entry."""

    _fields_ = [("value", Span), ("key", Span), ("parent", c_size_t), ("position", c_size_t), ("type", c_uint32)]


# What a span has, which is read so without an object for each of many.
_SPAN = struct.Struct("2N")

_TEXT = (c_void_p, c_size_t)
_ROOM = (c_void_p, c_size_t, POINTER(c_size_t), POINTER(Fault))

# What each call returns, and what it takes.
CALLS: Dict[str, Any] = {
    "jihluka_validate": (c_uint32, [*_TEXT, POINTER(Fault)]),
    "jihluka_get": (c_uint32, [*_TEXT, *_TEXT, POINTER(Span), POINTER(Fault)]),
    "jihluka_get_unchecked": (c_uint32, [*_TEXT, *_TEXT, POINTER(Span), POINTER(Fault)]),
    "jihluka_get_many": (c_uint32, [*_TEXT, *_TEXT, POINTER(Span), c_size_t, POINTER(Fault)]),
    "jihluka_get_many_unchecked": (c_uint32, [*_TEXT, *_TEXT, POINTER(Span), c_size_t, POINTER(Fault)]),
    "jihluka_get_each": (c_uint32, [*_TEXT, *_TEXT, POINTER(Outcome), c_size_t, POINTER(Fault)]),
    "jihluka_get_each_unchecked": (c_uint32, [*_TEXT, *_TEXT, POINTER(Outcome), c_size_t, POINTER(Fault)]),
    "jihluka_paths_new": (c_uint32, [*_TEXT, c_uint32, POINTER(Kept), POINTER(Fault)]),
    "jihluka_paths_free": (None, [POINTER(Kept)]),
    "jihluka_get_many_with": (c_uint32, [*_TEXT, POINTER(Kept), POINTER(Span), c_size_t, POINTER(Fault)]),
    "jihluka_get_many_with_unchecked": (c_uint32, [*_TEXT, POINTER(Kept), POINTER(Span), c_size_t, POINTER(Fault)]),
    "jihluka_get_each_with": (c_uint32, [*_TEXT, POINTER(Kept), POINTER(Outcome), c_size_t, POINTER(Fault)]),
    "jihluka_get_each_with_unchecked": (c_uint32, [*_TEXT, POINTER(Kept), POINTER(Outcome), c_size_t, POINTER(Fault)]),
    "jihluka_type": (c_uint32, [*_TEXT, POINTER(c_uint32), POINTER(Fault)]),
    "jihluka_u64": (c_uint32, [*_TEXT, POINTER(c_uint64), POINTER(Fault)]),
    "jihluka_i64": (c_uint32, [*_TEXT, POINTER(c_int64), POINTER(Fault)]),
    "jihluka_string_text": (c_uint32, [*_TEXT, *_ROOM]),
    "jihluka_count": (c_uint32, [*_TEXT, POINTER(c_size_t), POINTER(Fault)]),
    "jihluka_items_begin": (c_uint32, [*_TEXT, POINTER(Items), POINTER(Fault)]),
    "jihluka_items_next": (c_uint32, [*_TEXT, POINTER(Items), POINTER(Item), POINTER(Fault)]),
    "jihluka_index": (c_uint32, [*_TEXT, POINTER(Cell), c_size_t, POINTER(c_size_t), POINTER(Fault)]),
    "jihluka_minify": (c_uint32, [*_TEXT, *_ROOM]),
    "jihluka_indent": (c_uint32, [*_TEXT, c_size_t, *_ROOM]),
    "jihluka_patch": (c_uint32, [*_TEXT, *_TEXT, *_ROOM]),
    "jihluka_edit": (c_uint32, [*_TEXT, *_TEXT, *_ROOM]),
    "jihluka_fill": (c_uint32, [*_TEXT, *_TEXT, *_ROOM]),
    "jihluka_rows": (c_uint32, [*_TEXT, *_TEXT, c_uint64, *_ROOM]),
    "jihluka_code_text": (c_size_t, [c_uint32, c_void_p, c_size_t]),
}


def _file() -> str:
    """The shared object: what JIHLUKA_LIBRARY names, one in the package, or an installed one. Where there are
    two, for processors with AVX2 and without, the system's loader chooses, here as in a C program: the object
    that is named has no call, but asks the loader for libjihluka.so.0 beside it."""
    beside = os.path.join(os.path.dirname(os.path.abspath(__file__)), "libjihluka-beside.so")
    return os.environ.get("JIHLUKA_LIBRARY") or (beside if os.path.exists(beside) else "libjihluka.so.0")


def _load(kind: Any) -> Dict[str, Callable[..., int]]:
    try:
        library = kind(_file())
        calls = {}
        for name, (result, arguments) in CALLS.items():
            calls[name] = library[name]
            calls[name].restype, calls[name].argtypes = result, arguments
        return calls
    except (OSError, AttributeError) as error:
        raise ImportError(f"the library isn't there, or is of another version: {error}") from error


# The calls twice: while one of the first runs, other threads of Python may; while one of the second does,
# none may, so that nothing of Python writes to the text.
_FREE = _load(ctypes.CDLL)
_HELD = _load(ctypes.PyDLL)


class _Buffer(ctypes.Structure):
    """Py_buffer."""

    _fields_ = [
        ("buf", c_void_p),
        ("obj", c_void_p),
        ("len", c_ssize_t),
        ("itemsize", c_ssize_t),
        ("readonly", c_int),
        ("ndim", c_int),
        ("format", c_void_p),
        ("shape", c_void_p),
        ("strides", c_void_p),
        ("suboffsets", c_void_p),
        ("internal", c_void_p),
    ]


_python = ctypes.PyDLL(None)
_get_buffer = _python["PyObject_GetBuffer"]
_get_buffer.argtypes = [ctypes.py_object, POINTER(_Buffer), c_int]
_release_buffer = _python["PyBuffer_Release"]
_release_buffer.argtypes, _release_buffer.restype = [POINTER(_Buffer)], None

Source = Union[bytes, memoryview]

# Raises what a status says.
Judge = Callable[[int, Fault], None]


def source_of(text: Any) -> Source:
    """The bytes of a text, without a copy but of a str."""
    if type(text) is bytes:
        return text
    if isinstance(text, str):
        return str.encode(text)
    return memoryview(text).cast("B")


def _of_kind(text: Any, part: Source) -> Any:
    """A part of the bytes of a text, of the text's kind."""
    if isinstance(text, str):
        return str(part, "utf-8")
    return bytes(part) if isinstance(text, bytes) else part


def part_between(text: Any, source: Source, start: int, end: int) -> Any:
    """The part of a text from one place of its bytes to before another, of the text's kind."""
    return _of_kind(text, source[start:end])


def part_of(text: Any, source: Source, span: Span) -> Any:
    """The part of a text that the span of its bytes has, of the text's kind."""
    return part_between(text, source, span.start, span.end)


def parts_of(text: Any, source: Source, spans: ctypes.Array[Span]) -> List[Any]:
    """The parts that many spans have, and None for one that is twice 0, as no value is empty."""
    return [_of_kind(text, source[start:end]) if end else None for start, end in _SPAN.iter_unpack(spans)]


def is_fixed(source: Source) -> bool:
    """Whether nobody can write to it."""
    return type(source) is bytes or (source.readonly and type(source.obj) is bytes)


def call(name: str, source: Source, *arguments: Any) -> int:
    """Makes the call for the text, with the arguments that follow it, and gives the status."""
    calls = _FREE if is_fixed(source) else _HELD
    if type(source) is bytes:
        return calls[name](source, len(source), *arguments)
    held = _Buffer()
    _get_buffer(source, held, 0)
    try:
        return calls[name](held.buf, held.len, *arguments)
    finally:
        _release_buffer(held)


def free(kept: Kept) -> None:
    """Gives back what is kept, which nobody else uses."""
    _HELD["jihluka_paths_free"](ctypes.byref(kept))


def unsigned(number: int) -> int:
    """The number; or, where it isn't of 64 bits, the largest that is, which the calls refuse: ctypes cuts an int to them."""
    return number if 0 <= number < 1 << 64 else (1 << 64) - 1


def cells_of(name: str, source: Source, arguments: Tuple[Any, ...], kind: Any, guess: int, judge: Judge) -> memoryview:
    """The bytes of the cells that a call writes to a room: one for as many as are guessed, and another where there are
    more."""
    size, wanted, fault = ctypes.sizeof(kind), ctypes.c_size_t(), Fault()
    room = bytearray(size * (guess or 1))
    while True:
        start = ctypes.byref(kind.from_buffer(room))
        cells = start, len(room) // size, ctypes.byref(wanted), ctypes.byref(fault)
        judge(call(name, source, *arguments, *cells), fault)
        if size * wanted.value <= len(room):
            return memoryview(room)[: size * wanted.value]
        room = bytearray(size * wanted.value)


def text_of(name: str, source: Source, arguments: Tuple[Any, ...], guess: int, judge: Judge) -> memoryview:
    """The text that a call writes to a room: one of as many bytes as are guessed, and another where it is longer."""
    return cells_of(name, source, arguments, ctypes.c_char, guess, judge)


def code_text(code: int) -> str:
    """The words of a code, or none where no code has the number."""
    room = bytearray(128)
    length = _FREE["jihluka_code_text"](code, (ctypes.c_char * len(room)).from_buffer(room), len(room))
    return room[:length].decode()
