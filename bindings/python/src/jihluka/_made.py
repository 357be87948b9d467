"""Texts that are made of a document. Each is bytes in UTF-8."""
from __future__ import annotations

import operator
from typing import TYPE_CHECKING, Any, Optional, Union

from . import _native
from ._errors import BrokenText, Cause, EditError, PatchError, SchemaError, WidthError, judge
from ._native import Fault

if TYPE_CHECKING:
    from typing_extensions import Buffer


def _broken(fault: Fault) -> Optional[BrokenText]:
    return BrokenText(fault.code, fault.line, fault.column, fault.offset) if fault.code else None


def _judge(status: int, fault: Fault) -> None:
    """Raises what the status says of a text that isn't made."""
    if status == _native.BAD_PATCH:
        raise PatchError(Cause.BAD_PATCH, None, _broken(fault))
    if status in (_native.BAD_OPERATION, _native.MISSING, _native.TEST_FAILED, _native.INTO_CHILD):
        raise PatchError(Cause(status), fault.line)
    if status in (_native.BAD_LINES, _native.EDIT_REFUSED):
        raise EditError(Cause(status), fault.line)
    if status == _native.BAD_SCHEMA:
        raise SchemaError(_broken(fault))
    judge(status, fault)


def _made(name: str, document: Any, change: Any) -> bytes:
    """The text that a call makes of the document and a text of what is to be changed, which is copied but from bytes,
    so that nobody writes to it."""
    source, other = _native.source_of(document), bytes(_native.source_of(change))
    return bytes(_native.text_of(name, source, (other, len(other)), len(source) + len(other), _judge))


def minify(document: Union[str, Buffer]) -> bytes:
    """The document without white space outside strings. All else keeps its bytes and its order.

    Raises BrokenText where the document isn't one value in UTF-8 with nothing but white space round it.

    >>> minify('[ 1.0, {"a b" : null} ]')
    b'[1.0,{"a b":null}]'
    """
    source = _native.source_of(document)
    return bytes(_native.text_of("jihluka_minify", source, (), len(source), _judge))


def indent(document: Union[str, Buffer], width: int) -> bytes:
    """The document over lines, with `width` blanks for each level of depth, from 0 to 8, and no line feed at its end.
    It may be much longer than the document: of n arrays in each other about `width` times the square of n.

    Raises WidthError where the width isn't from 0 to 8, and BrokenText as `minify` does.

    >>> print(indent('{"a":[1,[]]}', 2).decode())
    {
      "a": [
        1,
        []
      ]
    }
    """
    source, width = _native.source_of(document), operator.index(width)

    def judge_width(status: int, fault: Fault) -> None:
        if status == _native.BAD_WIDTH:
            raise WidthError(width)
        _judge(status, fault)

    return bytes(_native.text_of("jihluka_indent", source, (_native.unsigned(width),), 2 * len(source), judge_width))


def patch(document: Union[str, Buffer], patch: Union[str, Buffer]) -> bytes:
    """The document with a JSON Patch (RFC 6902), of which all operations are made or none. What no operation changes
    keeps its text; the arrays and objects on the way to a change are written without white space, and their keys with
    as few escapes as may be. A test compares numbers by their digits, so that 1 and 1.0 differ; to remove the whole document
    leaves null; a pointer has at most 255 tokens.

    Raises PatchError where the patch is invalid, or an operation isn't made, and BrokenText as `minify` does.

    >>> patch('{"a": [1, 2]}', '[{"op": "add", "path": "/a/-", "value": 3}]')
    b'{"a":[1,2,3]}'
    >>> patch('{"a": 1}', '[{"op": "remove", "path": "/b"}]')
    Traceback (most recent call last):
    jihluka.PatchError: the element of index 0 of the patch isn't made, as a pointer of it leads to nothing
    """
    return _made("jihluka_patch", document, patch)


def edit(document: Union[str, Buffer], edits: Union[str, Buffer]) -> bytes:
    r"""The document with edits, all of them or none. There is one on each line, as JSON: ["set", PATH, VALUE] puts a
    value where a path leads, ["push", PATH, VALUE] after the last element of the array there, ["pair", PATH, KEY, VALUE]
    after the last member of the object there, also where it has the key already, and ["take", PATH] puts null. What no
    edit changes keeps its text; the arrays and objects on the way to a change are written without white space, and
    their keys with as few escapes as may be.

    Raises EditError where a line says no edit, or an edit isn't made, and BrokenText as `minify` does.

    >>> edit('{"id": 7, "tags": ["a"]}', '["push", ["tags"], "b"]\n["take", ["id"]]')
    b'{"id":null,"tags":["a","b"]}'
    >>> edit('[1]', '["push", [0], 2]')
    Traceback (most recent call last):
    jihluka.EditError: line 1 of the edits isn't made, as its path leads to nothing or to a value of another type than it needs
    """
    return _made("jihluka_edit", document, edits)


def fill(schema: Union[str, Buffer], document: Union[str, Buffer]) -> bytes:
    """The schema, an object, filled from the value that begins the document, whatever follows it. Where the values of both
    are objects, and that of the schema has members, each of these is filled in the same way from the member of its key, and
    kept where there is none; else the document's value takes the place. Of equal keys of the schema the last counts. The
    schema, and each value that takes a place, has at most 255 containers open at once.

    Raises SchemaError where the schema isn't read, or is no object, and BrokenText where the document is broken before its
    value ends, or too deep.

    >>> fill('{"id": 0, "currency": "EUR"}', '{"id": 7, "note": null}')
    b'{"id":7,"currency":"EUR"}'
    """
    return _made("jihluka_fill", document, schema)
