"""Why there is no answer."""
from __future__ import annotations

import enum
from typing import Any, Optional, Sequence

from . import _native
from ._native import Fault, code_text


class Code(enum.IntEnum):
    """The codes of errors, as jihluka.h has them. A value of another type than the path asks for is
    MISMATCH + 10 * found + wanted, which no name has."""

    EOF_WHILE_PARSING = 3
    EXPECTED_COLON = 4
    EXPECTED_ARRAY_COMMA_OR_END = 5
    EXPECTED_OBJECT_COMMA_OR_END = 6
    INVALID_LITERAL = 7
    INVALID_JSON_VALUE = 8
    INVALID_ESCAPE = 11
    INVALID_NUMBER = 12
    INVALID_UNICODE_CODE_POINT = 14
    INVALID_UTF8 = 15
    CONTROL_CHARACTER_WHILE_PARSING_STRING = 16
    EXPECT_OBJECT_KEY_OR_END = 17
    TRAILING_CHARACTERS = 19
    RECURSION_LIMIT_EXCEEDED = 20
    GET_IN_EMPTY_OBJECT = 21
    GET_UNKNOWN_KEY_IN_OBJECT = 22
    GET_IN_EMPTY_ARRAY = 23
    GET_INDEX_OUT_OF_ARRAY = 24
    INVALID_SURROGATE_UNICODE_CODE_POINT = 26
    DUPLICATE_KEY = 32
    MISMATCH = 100


class Type(enum.IntEnum):
    """The types of values, as jihluka.h has them."""

    NULL = 0
    BOOLEAN = 1
    NUMBER = 2
    STRING = 3
    OBJECT = 4
    ARRAY = 5


class Cause(enum.IntEnum):
    """Why a document isn't changed: the statuses of jihluka.h that say so."""

    BAD_LINES = _native.BAD_LINES
    BAD_PATCH = _native.BAD_PATCH
    BAD_OPERATION = _native.BAD_OPERATION
    MISSING = _native.MISSING
    TEST_FAILED = _native.TEST_FAILED
    INTO_CHILD = _native.INTO_CHILD
    EDIT_REFUSED = _native.EDIT_REFUSED


class JihlukaError(ValueError):
    """Why there is no answer: a DocumentError, WrongType, NotInteger, PatchError, EditError or SchemaError."""


class DocumentError(JihlukaError):
    """The text is broken, or a path leads nowhere in it: the code, the line and the column from 1, and the
    offset from 0, all in bytes of UTF-8. It is BrokenText, NotFound or Mismatch."""

    def __init__(self, code: int, line: int, column: int, offset: int) -> None:
        ValueError.__init__(self, code, line, column, offset)
        self.code, self.line, self.column, self.offset = code, line, column, offset

    @property
    def words(self) -> str:
        """The words of the code."""
        return code_text(self.code)

    def __str__(self) -> str:
        return f"{self.words}: line {self.line} column {self.column} (byte {self.offset}), code {int(self.code)}"


class BrokenText(DocumentError):
    """The text isn't JSON in UTF-8, as far as it was needed; or it is deeper than `fill` reads, or has a key twice that a
    Finder refuses."""

    @property
    def is_cut(self) -> bool:
        """Whether the text ends inside a value, or before one that is expected."""
        return self.code == Code.EOF_WHILE_PARSING


class NotFound(DocumentError, LookupError):
    """The object or the array on the way of the path has no such key or index."""


class WrongType(JihlukaError, TypeError):
    """A value is of another type than is asked for: `found` is its type."""

    def __init__(self, found: Type) -> None:
        ValueError.__init__(self, found)
        self.found = found

    def __str__(self) -> str:
        return f"the value is of the type {self.found.name.lower()}, which wasn't asked for"


class Mismatch(DocumentError, WrongType):
    """The value on the way of the path is neither the object nor the array that the path asks for."""

    def __init__(self, code: int, line: int, column: int, offset: int) -> None:
        DocumentError.__init__(self, code, line, column, offset)
        self.found = Type((code - Code.MISMATCH) // 10)


class NotInteger(JihlukaError):
    """The number is no integer, or none in the range of the call."""

    def __str__(self) -> str:
        return "the number is no integer from -2**63 to 2**64 - 1"


_WHY = {
    Cause.BAD_LINES: "says no edit, or is blank",
    Cause.BAD_OPERATION: "is no operation",
    Cause.MISSING: "isn't made, as a pointer of it leads to nothing",
    Cause.TEST_FAILED: "isn't made, as the value is another one than it tests for",
    Cause.INTO_CHILD: "isn't made, as it would move a value into itself",
    Cause.EDIT_REFUSED: "isn't made, as its path leads to nothing or to a value of another type than it needs",
}


class PatchError(JihlukaError):
    """A patch isn't made: the cause, and the index of the operation, from 0. Where the patch as a whole is invalid, the
    cause is BAD_PATCH, there is no index, and `broken` says what isn't JSON in it, or is None where it is no array."""

    def __init__(self, cause: Cause, index: Optional[int], broken: Optional[BrokenText] = None) -> None:
        ValueError.__init__(self, cause, index, broken)
        self.cause, self.index, self.broken = cause, index, broken

    def __str__(self) -> str:
        if self.cause != Cause.BAD_PATCH:
            return f"the element of index {self.index} of the patch {_WHY[self.cause]}"
        return f"the patch is no JSON text: {self.broken}" if self.broken else "the patch is no array"


class EditError(JihlukaError):
    """Edits aren't made: the cause, BAD_LINES or EDIT_REFUSED, and the line of the edit, from 1."""

    def __init__(self, cause: Cause, line: int) -> None:
        ValueError.__init__(self, cause, line)
        self.cause, self.line = cause, line

    def __str__(self) -> str:
        return f"line {self.line} of the edits {_WHY[self.cause]}"


class SchemaError(JihlukaError):
    """A schema isn't read: `broken` says why not, or is None where it is no object."""

    def __init__(self, broken: Optional[BrokenText] = None) -> None:
        ValueError.__init__(self, broken)
        self.broken = broken

    def __str__(self) -> str:
        return f"the schema isn't read: {self.broken}" if self.broken else "the schema is no object"


class WidthError(ValueError):
    """The width of an indent isn't from 0 to 8: `width`."""

    def __init__(self, width: int) -> None:
        super().__init__(width)
        self.width = width

    def __str__(self) -> str:
        return f"the width is {self.width}, and isn't from 0 to 8"


class NumberError(ValueError):
    """So many lines can't come before others: `before` is below 0, or with the bytes of those above 2**64 - 2."""

    def __init__(self, before: int) -> None:
        super().__init__(before)
        self.before = before

    def __str__(self) -> str:
        return f"the number of lines before is {self.before}, and isn't from 0 to 2**64 - 2 less the bytes of the lines"


class PathError(ValueError):
    """A path is invalid, or doesn't go with those before it: the path, and its index among those given."""

    def __init__(self, path: Any, index: int) -> None:
        super().__init__(path, index)
        self.path, self.index = path, index

    def __str__(self) -> str:
        return f"this is no path, or doesn't go with those before it: {self.path!r} (index {self.index})"


_NOT_FOUND = range(Code.GET_IN_EMPTY_OBJECT, Code.GET_INDEX_OUT_OF_ARRAY + 1)


def error_of(fault: Fault) -> DocumentError:
    """The error that the numbers say."""
    kind = Mismatch if fault.code >= Code.MISMATCH else NotFound if fault.code in _NOT_FOUND else BrokenText
    return kind(fault.code, fault.line, fault.column, fault.offset)


def judge(status: int, fault: Fault, paths: Sequence[Any] = (), index: int = 0) -> None:
    """Raises what the status says."""
    if status == _native.OK:
        return
    if status == _native.DOCUMENT_ERROR:
        raise error_of(fault)
    if status == _native.BAD_LINES:
        raise PathError(paths[index], index)
    if status == _native.NO_MEMORY:
        raise MemoryError
    raise AssertionError(f"status {status}")
