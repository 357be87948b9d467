"""Look-ups in a JSON text that is in memory, by a proved library: where paths of keys and indexes lead,
without building the document, also in each line of a log; where all its values are; and texts that are
made of one, small, over lines, or changed.

A text is a str, bytes, or whatever has a buffer, as a bytearray, a memoryview or an mmap. A value is the
exact JSON text of it, and of the text's kind: of a str a str, of bytes bytes, and of any other a memoryview
of the same memory. A path is a list or tuple of keys and indexes, as ["tags", 1]; [] is that of the whole
value. json.loads makes an object of a value."""
from __future__ import annotations

from ctypes import byref
from typing import TYPE_CHECKING, Any, Generic, Iterable, List, Optional, TypeVar, Union, overload

from . import _native
from ._errors import BrokenText, Cause, Code, DocumentError, EditError, JihlukaError, Mismatch, NotFound, NotInteger
from ._errors import NumberError, PatchError, PathError, SchemaError, Type, WidthError, WrongType
from ._errors import judge as _judge
from ._finder import Finder
from ._index import Entry, Index, index
from ._made import edit, fill, indent, minify, patch
from ._native import Fault, Span, code_text
from ._outcomes import told_of as _told_of
from ._paths import Path as Path
from ._paths import Paths
from ._paths import line_of as _line
from ._paths import ready as _ready
from ._rows import Rows, rows
from ._values import as_int, as_str, count, elements, members, type_of

if TYPE_CHECKING:
    from typing_extensions import Buffer

__version__ = "0.1.0"
__all__ = [
    "BrokenText", "Cause", "Code", "Document", "DocumentError", "EditError", "Entry", "Finder", "Index", "JihlukaError",
    "Mismatch", "NotFound", "NotInteger", "NumberError", "PatchError", "PathError", "Paths", "Rows", "SchemaError", "Type",
    "WidthError", "WrongType", "as_int", "as_str", "code_text", "count", "edit", "elements", "fill", "get", "get_each",
    "get_many", "indent", "index", "members", "minify", "patch", "rows", "type_of", "validate",
]  # fmt: skip

for _kind in (
    BrokenText, Cause, Code, DocumentError, EditError, Finder, Index, JihlukaError, Mismatch, NotFound,
    NotInteger, NumberError, PatchError, PathError, Paths, Rows, SchemaError, Type, WidthError, WrongType,
):  # fmt: skip
    _kind.__module__ = __name__  # where they are called for, as a traceback tells

T = TypeVar("T", str, bytes, memoryview)


def _get(name: str, text: Any, source: _native.Source, path: Path) -> Any:
    line, span, fault = _line(path), Span(), Fault()
    status = _native.call(name, source, line, len(line), byref(span), byref(fault))
    _judge(status, fault, [path])
    return _native.part_of(text, source, span)


def _get_many(name: str, text: Any, source: _native.Source, paths: Union[Paths, Iterable[Path]]) -> List[Any]:
    return _native.parts_of(text, source, _ready(paths)._spans(name, source))


def validate(text: Union[str, Buffer]) -> None:
    """Raises BrokenText where the text isn't one value in UTF-8 with nothing but white space round it."""
    fault = Fault()
    _judge(_native.call("jihluka_validate", _native.source_of(text), byref(fault)), fault, [])


@overload
def get(text: str, path: Path) -> str: ...
@overload
def get(text: bytes, path: Path) -> bytes: ...  # type: ignore[overload-overlap]
@overload
def get(text: Buffer, path: Path) -> memoryview: ...
def get(text: Any, path: Path) -> Any:
    """The text of the value at the path. What follows it in the text may be anything.

    Raises NotFound or WrongType where the path doesn't resolve, BrokenText where the text is invalid before
    the value ends, and PathError where the path is invalid, or has more than 255 keys and indexes."""
    return _get("jihluka_get", text, _native.source_of(text), path)


@overload
def get_many(text: str, paths: Union[Paths, Iterable[Path]]) -> List[Optional[str]]: ...
@overload
def get_many(text: bytes, paths: Union[Paths, Iterable[Path]]) -> List[Optional[bytes]]: ...  # type: ignore[overload-overlap]
@overload
def get_many(text: Buffer, paths: Union[Paths, Iterable[Path]]) -> List[Optional[memoryview]]: ...
def get_many(text: Any, paths: Union[Paths, Iterable[Path]]) -> Any:
    """The texts of the values at the paths, in their order, and None for a key that is missing in an object
    with members.

    Raises as `get` does where any of them doesn't resolve for another reason. Of paths that are alike so far, all
    go on with a key or all with an index: ["a"] and [0] don't go together, which is a PathError."""
    return _get_many("jihluka_get_many", text, _native.source_of(text), paths)


@overload
def get_each(text: str, paths: Union[Paths, Iterable[Path]]) -> List[Union[str, DocumentError, None]]: ...
@overload
def get_each(text: bytes, paths: Union[Paths, Iterable[Path]]) -> List[Union[bytes, DocumentError, None]]: ...  # type: ignore[overload-overlap]
@overload
def get_each(text: Buffer, paths: Union[Paths, Iterable[Path]]) -> List[Union[memoryview, DocumentError, None]]: ...
def get_each(text: Any, paths: Union[Paths, Iterable[Path]]) -> Any:
    """For each path, in their order, the text of the value, None where an object lacks its key, or the NotFound or Mismatch
    with which the path fails, whatever the others lead to.

    Raises BrokenText where the text is broken before all paths are settled: if a key is missing, to its end.

    >>> get_each('{"level": "info", "http": null}', [["level"], ["user"], ["http", "status"]])
    ['"info"', None, Mismatch(100, 1, 30, 29)]
    """
    source = _native.source_of(text)
    return _told_of(text, source, _ready(paths)._outcomes("jihluka_get_each", source))


class Document(Generic[T]):
    """A text that is one value in UTF-8, which is validated once, so that look-ups in it validate nothing again.
    It is a str, bytes or a memoryview of bytes, as nothing may write to it."""

    __slots__ = ("_text", "_source")

    def __init__(self, text: T) -> None:
        """Raises BrokenText as `validate` does."""
        source = _native.source_of(text)
        if not _native.is_fixed(source):
            raise TypeError("a document is a str, bytes or a memoryview of bytes, as nothing may write to it")
        validate(source)
        self._text, self._source = text, source

    @property
    def text(self) -> T:
        """The text that was given."""
        return self._text

    def get(self, path: Path) -> T:
        """As `get`, of a text that is validated already."""
        return _get("jihluka_get_unchecked", self._text, self._source, path)

    def get_many(self, paths: Union[Paths, Iterable[Path]]) -> List[Optional[T]]:
        """As `get_many`, of a text that is validated already: each path is followed by itself."""
        return _get_many("jihluka_get_many_unchecked", self._text, self._source, paths)

    def get_each(self, paths: Union[Paths, Iterable[Path]]) -> List[Union[T, DocumentError, None]]:
        """As `get_each`, of a text that is validated already: each path is followed by itself."""
        return _told_of(self._text, self._source, _ready(paths)._outcomes("jihluka_get_each_unchecked", self._source))

    def get_many_with(self, finder: Finder) -> List[Optional[T]]:
        """As the finder's `get_many`, of a text that is validated already. By the "first" of equal keys each path is
        followed by itself; by another rule they are followed together, as there."""
        if not isinstance(finder, Finder):
            raise TypeError(f"a Finder is asked for, and not {type(finder).__name__}")
        return finder._find("jihluka_get_many_with_unchecked", self._text, self._source)

    def get_each_with(self, finder: Finder) -> List[Union[T, DocumentError, None]]:
        """As the finder's `get_each`, of a text that is validated already."""
        if not isinstance(finder, Finder):
            raise TypeError(f"a Finder is asked for, and not {type(finder).__name__}")
        return finder._tell("jihluka_get_each_with_unchecked", self._text, self._source)
