"""What one value is, by its text."""
from __future__ import annotations

from ctypes import byref, c_int64, c_size_t, c_uint32, c_uint64
from typing import TYPE_CHECKING, Any, Iterator, Tuple, TypeVar, Union, overload

from . import _native
from ._errors import NotInteger, Type, WrongType, judge
from ._native import Fault, Item, Items, Source, Span

if TYPE_CHECKING:
    from typing_extensions import Buffer

V = TypeVar("V", c_int64, c_size_t, c_uint32, c_uint64, Items)


def _judge(status: int, fault: Fault, source: Source) -> None:
    """Raises what the status says of a value."""
    if status == _native.WRONG_TYPE:
        raise WrongType(_type_of(source))
    if status == _native.NO_INTEGER:
        raise NotInteger
    judge(status, fault)


def _tell(name: str, source: Source, told: V) -> V:
    """Makes a call that tells one thing of a value."""
    fault = Fault()
    _judge(_native.call(name, source, byref(told), byref(fault)), fault, source)
    return told


def _type_of(source: Source) -> Type:
    return Type(_tell("jihluka_type", source, c_uint32()).value)


def type_of(text: Union[str, Buffer]) -> Type:
    """The type of the value that begins the text. Its first byte says it, and nothing after that is looked at.

    Raises BrokenText where no value begins the text."""
    return _type_of(_native.source_of(text))


def as_int(text: Union[str, Buffer]) -> int:
    """The integer that a number is, from -2**63 to 2**64 - 1; -0 is 0.

    Raises NotInteger where the number has a fraction or an exponent, whatever its value is, as 1.0 and 1e3 have,
    or is out of that range: json.loads reads those. Raises WrongType where the value is no number, and BrokenText
    where the text isn't one value in UTF-8 with nothing but white space round it."""
    source = _native.source_of(text)
    try:
        return _tell("jihluka_i64", source, c_int64()).value
    except NotInteger:
        pass
    return _tell("jihluka_u64", source, c_uint64()).value


def as_str(text: Union[str, Buffer]) -> str:
    """The text of a string, with its escapes undone.

    Raises WrongType where the value is no string, and BrokenText where the text isn't one value in UTF-8 with
    nothing but white space round it."""
    source = _native.source_of(text)
    found = _native.text_of("jihluka_string_text", source, (), 1024, lambda status, fault: _judge(status, fault, source))
    return str(found, "utf-8")


def count(text: Union[str, Buffer]) -> int:
    """How many elements an array has, or members an object, repeated keys counted each time.

    Raises WrongType where the value is neither, and BrokenText where the text isn't one value in UTF-8 with
    nothing but white space round it."""
    return _tell("jihluka_count", _native.source_of(text), c_size_t()).value


def _begin(text: Any, wanted: Type) -> Tuple[Source, Items]:
    source = _native.source_of(text)
    found = _type_of(source)
    if found != wanted:
        raise WrongType(found)
    return source, _tell("jihluka_items_begin", source, Items())


def _items(source: Source, items: Items) -> Iterator[Item]:
    """The items that come, each in the same cell."""
    item, fault = Item(), Fault()
    cells = byref(items), byref(item), byref(fault)
    while True:
        status = _native.call("jihluka_items_next", source, *cells)
        if status == _native.END:
            return
        judge(status, fault)
        yield item


def _key(source: Source, span: Span) -> str:
    key = bytes(source[span.start : span.end])
    return as_str(key) if b"\\" in key else str(key[1:-1], "utf-8")


@overload
def elements(text: str) -> Iterator[str]: ...
@overload
def elements(text: bytes) -> Iterator[bytes]: ...  # type: ignore[overload-overlap]
@overload
def elements(text: Buffer) -> Iterator[memoryview]: ...
def elements(text: Any) -> Iterator[Any]:
    """The texts of the elements of an array, in their order, one after the other.

    Raises WrongType at once where the value is no array, and BrokenText where the text isn't UTF-8. Each element
    is looked at when its turn comes, and all together once: where the text is broken after those that came, or
    something follows the array, BrokenText is raised then, which ends the iterator."""
    source, items = _begin(text, Type.ARRAY)
    return (_native.part_of(text, source, item.value) for item in _items(source, items))


@overload
def members(text: str) -> Iterator[Tuple[str, str]]: ...
@overload
def members(text: bytes) -> Iterator[Tuple[str, bytes]]: ...  # type: ignore[overload-overlap]
@overload
def members(text: Buffer) -> Iterator[Tuple[str, memoryview]]: ...
def members(text: Any) -> Iterator[Tuple[str, Any]]:
    """The members of an object, in their order, one after the other: of each its key, as a str with its escapes
    undone, and the text of its value. A key may come twice.

    Raises WrongType at once where the value is no object, and else as `elements` does."""
    source, items = _begin(text, Type.OBJECT)
    return ((_key(source, item.key), _native.part_of(text, source, item.value)) for item in _items(source, items))
