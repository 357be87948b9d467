"""What each path is told of where it leads."""
from __future__ import annotations

import ctypes
import struct
from typing import Any, Dict, Iterable, List, Tuple

from . import _native
from ._errors import DocumentError, error_of
from ._native import Fault, Outcome, Source

# What an outcome has: the status, the code, where the value is, and the place of a fail.
_OUTCOME = struct.Struct("2I3N")


def _positions(source: Source, places: Iterable[int]) -> Dict[int, Tuple[int, int]]:
    """The line and the column, from 1, of each place. The text is read once."""
    positions, line, begin, at = {}, 1, 0, 0
    for place in sorted(set(places)):
        piece = bytes(source[at:place])
        line += piece.count(b"\n")
        begin = at + piece.rfind(b"\n") + 1 if b"\n" in piece else begin
        positions[place] = line, place - begin + 1
        at = place
    return positions


def told_of(text: Any, source: Source, outcomes: ctypes.Array[Outcome]) -> List[Any]:
    """For each path the part of the text, None where its key is missing, or the error with which it fails."""
    rows = list(_OUTCOME.iter_unpack(outcomes))
    positions = _positions(source, (place for status, _, _, _, place in rows if status == _native.PATH_FAILS))

    def error(code: int, place: int) -> DocumentError:
        return error_of(Fault(code, *positions[place], place))

    return [
        _native.part_between(text, source, start, end) if status == _native.PATH_FOUND
        else error(code, place) if status == _native.PATH_FAILS
        else None
        for status, code, start, end, place in rows
    ]  # fmt: skip
