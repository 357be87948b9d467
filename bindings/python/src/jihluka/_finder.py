"""Paths that are kept from call to call."""
from __future__ import annotations

import threading
import weakref
from ctypes import byref
from typing import TYPE_CHECKING, Any, Iterable, List, Literal, NoReturn, Optional, Union, overload

from . import _native
from ._errors import DocumentError
from ._native import Fault, Kept
from ._outcomes import told_of
from ._paths import Path, Paths, ready

if TYPE_CHECKING:
    from typing_extensions import Buffer

Keys = Literal["first", "last", "refuse"]

_RULES = {"first": _native.KEYS_FIRST, "last": _native.KEYS_LAST, "refuse": _native.KEYS_REFUSE}


class Finder:
    """Paths that are kept from call to call, so that they are read once, with the room that a walk along them takes, which
    the next walk uses again. `keys` says which member counts where several of one object have a key of a path: the
    "first", as for `get_many`; the "last"; or by "refuse" none, so that a second one is a BrokenText of the code
    DUPLICATE_KEY. Under the last two an object in which a key is looked for is read to its end.

    Any number of threads may use it, but what is kept changes while it is asked, so a lock lets one call in at a time:
    threads that ask much have one each. What it takes it gives back when nothing refers to it, or by `close`, which the
    end of a `with` calls.

    >>> finder = Finder([["level"], ["ms"]])
    >>> finder.get_many('{"ms": 3, "level": "info", "ms": 4}')
    ['"info"', '3']
    >>> with Finder([["ms"]], keys="last") as last:
    ...     last.get_many(b'{"ms": 3, "ms": 4}')
    [b'4']
    """

    __slots__ = ("_paths", "_keys", "_kept", "_lock", "_free", "__weakref__")

    def __init__(self, paths: Union[Paths, Iterable[Path]], keys: Keys = "first") -> None:
        """Raises PathError as `Paths` does, and ValueError where `keys` is another word."""
        if keys not in _RULES:
            raise ValueError(f"keys are 'first', 'last' or 'refuse', and not {keys!r}")
        self._paths, self._keys, self._kept, fault = ready(paths), keys, Kept(), Fault()
        lines = self._paths._lines
        self._paths._judge(_native.call("jihluka_paths_new", lines, _RULES[keys], byref(self._kept), byref(fault)), fault)
        # A signal handler, or what is called when an object ends, may ask while its own thread holds the lock.
        self._lock = threading.RLock()
        self._free = weakref.finalize(self, _native.free, self._kept)
        self._free.atexit = False  # as other threads may still ask then

    def __len__(self) -> int:
        return len(self._paths)

    def __repr__(self) -> str:
        return f"Finder({list(self._paths)!r}, keys={self._keys!r})"

    def __reduce__(self) -> NoReturn:
        raise TypeError("a Finder is neither copied nor pickled: make another one of the same paths")

    @overload
    def get_many(self, text: str) -> List[Optional[str]]: ...
    @overload
    def get_many(self, text: bytes) -> List[Optional[bytes]]: ...  # type: ignore[overload-overlap]
    @overload
    def get_many(self, text: Buffer) -> List[Optional[memoryview]]: ...
    def get_many(self, text: Any) -> Any:
        """As `get_many` for the paths, but that `keys` says which of equal keys counts.

        Raises as `get_many` does, BrokenText by "refuse" where a key comes twice, and ValueError after `close`. After an
        error it may be asked on."""
        return self._find("jihluka_get_many_with", text, _native.source_of(text))

    @overload
    def get_each(self, text: str) -> List[Union[str, DocumentError, None]]: ...
    @overload
    def get_each(self, text: bytes) -> List[Union[bytes, DocumentError, None]]: ...  # type: ignore[overload-overlap]
    @overload
    def get_each(self, text: Buffer) -> List[Union[memoryview, DocumentError, None]]: ...
    def get_each(self, text: Any) -> Any:
        """As `get_each` for the paths, but that `keys` says which of equal keys counts: by "refuse" a path fails that has
        a key twice.

        Raises BrokenText where the text is broken before all paths are settled, and ValueError after `close`."""
        return self._tell("jihluka_get_each_with", text, _native.source_of(text))

    def _find(self, name: str, text: Any, source: _native.Source) -> List[Any]:
        return _native.parts_of(text, source, self._ask(name, source, self._paths._room()))

    def _tell(self, name: str, text: Any, source: _native.Source) -> List[Any]:
        return told_of(text, source, self._ask(name, source, self._paths._outcome_room()))

    def _ask(self, name: str, source: _native.Source, cells: Any) -> Any:
        """The cells of the paths, one for each, which a call for what is kept has filled."""
        fault = Fault()
        with self._lock:
            if not self._free.alive:
                raise ValueError("the finder is closed")
            status = _native.call(name, source, byref(self._kept), cells, len(cells), byref(fault))
        self._paths._judge(status, fault)
        return cells

    def close(self) -> None:
        """Gives back what it took. It isn't asked any more, but may be closed again."""
        with self._lock:
            self._free()

    def __enter__(self) -> Finder:
        return self

    def __exit__(self, *_: object) -> None:
        self.close()
