"""Paths of keys and indexes, as lines of JSON."""
from __future__ import annotations

import json
from ctypes import Array, byref
from typing import Any, Iterable, Iterator, Sequence, Union

from . import _native
from ._errors import judge
from ._native import Fault, Outcome, Span

Path = Sequence[Union[str, int]]


def line_of(path: Path) -> bytes:
    """The path as JSON, on one line."""
    if isinstance(path, (str, bytes, bytearray, memoryview)) or not isinstance(path, Sequence):
        raise TypeError(f"a path is a list or tuple of keys and indexes, and no {type(path).__name__}")
    return json.dumps(list(path)).encode()


class Paths:
    """Paths that are looked up again and again, made ready and judged once. Any number of threads may use
    them at once."""

    __slots__ = ("_paths", "_lines", "_room", "_outcome_room")

    def __init__(self, paths: Iterable[Path]) -> None:
        self._fill(paths)
        self._spans("jihluka_get_many", b"0", is_judged=False)

    def _fill(self, paths: Iterable[Path]) -> Paths:
        self._paths = list(paths)
        self._lines = b"".join(line_of(path) + b"\n" for path in self._paths)
        self._room, self._outcome_room = Span * len(self._paths), Outcome * len(self._paths)
        return self

    def __len__(self) -> int:
        return len(self._paths)

    def __iter__(self) -> Iterator[Path]:
        return iter(self._paths)

    def __repr__(self) -> str:
        return f"Paths({self._paths!r})"

    def _judge(self, status: int, fault: Fault) -> None:
        """Raises what the status of a call for the paths says."""
        judge(status, fault, self._paths, fault.line - 1)

    def _spans(self, name: str, source: _native.Source, is_judged: bool = True) -> Array[Span]:
        return self._ask(name, source, self._room(), is_judged)

    def _outcomes(self, name: str, source: _native.Source) -> Array[Outcome]:
        return self._ask(name, source, self._outcome_room(), is_judged=True)

    def _ask(self, name: str, source: _native.Source, cells: Any, is_judged: bool) -> Any:
        """The cells of the paths, one for each, which a call for their lines has filled."""
        fault = Fault()
        status = _native.call(name, source, self._lines, len(self._lines), cells, len(cells), byref(fault))
        if is_judged or status != _native.DOCUMENT_ERROR:
            self._judge(status, fault)
        return cells


def ready(paths: Union[Paths, Iterable[Path]]) -> Paths:
    """The paths, made ready, and judged when they are used first."""
    return paths if isinstance(paths, Paths) else Paths.__new__(Paths)._fill(paths)
