"""Rows of lines, as a log has a JSON text in each."""
from __future__ import annotations

import operator
from typing import TYPE_CHECKING, Iterable, Union

from . import _native
from ._errors import NumberError
from ._native import Fault
from ._paths import Path, Paths, ready

if TYPE_CHECKING:
    from typing_extensions import Buffer


def rows(lines: Union[str, Buffer], paths: Union[Paths, Iterable[Path]], before: int = 0) -> bytes:
    r"""The rows of lines, each of which is read by itself, as a log has a JSON text in each: what the paths lead to in it.
    A line ends with a line feed, and the last one also with the text. So many lines come `before` the first. Each is read
    no further than its paths need: what is broken behind that isn't seen, so `validate` each line that is to be whole.

    A line of white space alone has no row. Else it has one, which ends with a line feed: for each path the length of the
    value's text in bytes, a blank and that text, or - where an object with members lacks the path's key, with a tab between
    two of them. The row of a line that is broken, or in which a path leads nowhere otherwise, is ! NUMBER WORD CODE OFFSET:
    the number of the line, from 1, two words for what is wrong, and where in the line that is, from 0.

    Raises PathError as `get_many` does, and NumberError where so many lines can't come before. No error of a line is raised.

    >>> rows('{"id": 7}\n\n{"ms": [1, 2]}\n{"id": nil}', [["id"], ["ms"]])
    b'1 7\t-\n-\t6 [1, 2]\n! 4 syntax InvalidLiteral 8\n'
    """
    source, asked, before = _native.source_of(lines), ready(paths), operator.index(before)

    def judge(status: int, fault: Fault) -> None:
        if status == _native.BAD_NUMBER:
            raise NumberError(before)
        asked._judge(status, fault)

    given = asked._lines, len(asked._lines), _native.unsigned(before)
    return bytes(_native.text_of("jihluka_rows", source, given, len(source), judge))


class Rows:
    r"""The rows of a stream of lines that comes in pieces, as a log that is still written: what `rows` makes of the whole,
    however it is cut, also inside a character. What follows the last line feed is held.

    >>> reader = Rows([["id"]])
    >>> reader.feed(b'{"id": 7}\n{"i'), reader.feed(b'd": 80}\n'), reader.feed(b'{"id"')
    (b'1 7\n', b'2 80\n', b'')
    >>> reader.lines, reader.finish()
    (2, b'! 3 eof EofWhileParsing 4\n')
    """

    __slots__ = ("_paths", "_held", "_lines")

    def __init__(self, paths: Union[Paths, Iterable[Path]]) -> None:
        """Raises PathError as `Paths` does."""
        self._paths = paths if isinstance(paths, Paths) else Paths(paths)
        self._held = bytearray()
        self._lines = 0

    @property
    def lines(self) -> int:
        """How many lines have ended, each with a line feed."""
        return self._lines

    def feed(self, piece: Union[str, Buffer]) -> bytes:
        """The rows of the lines that end in a piece. Where it raises, the piece may be fed again."""
        source = bytes(_native.source_of(piece))
        end = source.rfind(b"\n") + 1
        if not end:
            self._held += source
            return b""
        made = rows(b"".join((self._held, memoryview(source)[:end])), self._paths, self._lines)
        self._held = bytearray(memoryview(source)[end:])
        self._lines += source.count(b"\n")
        return made

    def finish(self) -> bytes:
        """The row of the last line, where no line feed ended it. A new stream begins then, with the line 1."""
        made = rows(bytes(self._held), self._paths, self._lines)
        self._held = bytearray()
        self._lines = 0
        return made
