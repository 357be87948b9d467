"""Where all values of a document are."""
from __future__ import annotations

import ctypes
import struct
from itertools import count
from typing import TYPE_CHECKING, Any, Iterator, List, NamedTuple, Optional, Sequence, Tuple, Union, overload

from . import _native
from ._errors import Type, judge
from ._native import Cell, Source

if TYPE_CHECKING:
    from typing_extensions import Buffer

# What a cell has: where the value starts and ends, where the key does, the parent, the position and the type.
_CELL = struct.Struct("6NI0N")
_TYPES = tuple(Type)

# For so many values there is room at once.
_FEW = 256


class Entry(NamedTuple):
    """A value of a document: where it starts and ends, in bytes of UTF-8, and of which type it is. `parent` is the number
    of the value that it is a part of, and 0 of the root. A member has a `key`, which is where that starts and ends, with
    its quotes; an element a `position`, which is how many come before it in its array. What hasn't one has None there, so
    the root has None twice."""

    start: int
    end: int
    key: Optional[Tuple[int, int]]
    parent: int
    position: Optional[int]
    type: Type


def _entry(number: int, cell: Tuple[int, ...]) -> Entry:
    start, end, key_start, key_end, parent, position, kind = cell
    if key_end:  # a key has quotes, so that none ends at 0
        return Entry(start, end, (key_start, key_end), parent, None, _TYPES[kind])
    return Entry(start, end, None, parent, position if number else None, _TYPES[kind])


class Index(Sequence[Entry]):
    """All values of a document, as `index` gives them: a sequence, which makes an Entry when it is asked for, and keeps 56
    bytes of each. Any number of threads may use it at once."""

    __slots__ = ("_cells",)

    def __init__(self, cells: Source) -> None:
        self._cells = cells

    def __len__(self) -> int:
        return len(self._cells) // _CELL.size

    @overload
    def __getitem__(self, number: int) -> Entry: ...
    @overload
    def __getitem__(self, number: slice) -> List[Entry]: ...
    def __getitem__(self, number: Any) -> Any:
        found = range(len(self))[number]
        if isinstance(found, range):
            return [self[it] for it in found]
        return _entry(found, _CELL.unpack_from(self._cells, found * _CELL.size))

    def __iter__(self) -> Iterator[Entry]:
        return map(_entry, count(), _CELL.iter_unpack(self._cells))

    def __repr__(self) -> str:
        return f"<Index of {len(self)} values>"

    def __reduce__(self) -> Tuple[Any, ...]:
        return Index, (bytes(self._cells),)


def index(text: Union[str, Buffer]) -> Index:
    """All values of a document, numbered from 0 in the order of the places where they start: the root first, and each
    container before its items. Places count bytes of UTF-8, so those of a str are places in text.encode().

    Raises BrokenText where the text isn't one value in UTF-8 with nothing but white space round it, and MemoryError where
    it has 4 GiB or more.

    >>> text = b'{"a": [1, {}]}'
    >>> for entry in index(text):
    ...     print(entry.parent, entry.type.name, entry.position, text[entry.start : entry.end])
    0 OBJECT None b'{"a": [1, {}]}'
    0 ARRAY None b'[1, {}]'
    1 NUMBER 0 b'1'
    1 OBJECT 1 b'{}'
    >>> index(text)[1]
    Entry(start=6, end=13, key=(1, 4), parent=0, position=None, type=<Type.ARRAY: 5>)
    """
    source = _native.source_of(text)
    # A value has two bytes at least, with what parts it from the next. Where there are more than a few, they are counted
    # first, and of few the room that was guessed is given back.
    cells = _native.cells_of("jihluka_index", source, (), Cell, min((len(source) + 1) // 2, _FEW), judge)
    return Index(cells if len(cells) > _FEW * ctypes.sizeof(Cell) else bytes(cells))
