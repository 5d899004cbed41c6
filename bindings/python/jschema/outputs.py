"""The validator's outputs, parsed."""
from __future__ import annotations

import json
from typing import Any

from .errors import EngineError
from .outside import BRACKET, outside_of_strings

# How many levels of a text that nests deep are read at once.
_LEVELS = 100


def parse(text: bytes) -> Any:
    """The value of an output. `verbose` may nest deeper than Python's own reader goes.

    Raises `EngineError` if it is no object in JSON.
    """
    try:
        value = _value(text)
    except ValueError as error:
        raise malformed(text) from error
    if not isinstance(value, dict):
        raise malformed(text)
    return value


def malformed(text: bytes) -> EngineError:
    """What to raise where an engine wrote something else than an output."""
    return EngineError(f"the output isn't as it should be: {text[:60].decode(errors='replace')!r}")


def _value(text: bytes) -> Any:
    try:
        return json.loads(text)
    except RecursionError:
        return without_recursion(text)


class _Piece:
    """A value whose inner values of a certain level have been read before it: their values, and the text around
    them."""

    def __init__(self) -> None:
        self.values: list[Any] = []
        self.around: list[bytes] = []

    def read(self, last: bytes) -> Any:
        """The value, whose text ends with this. What stands for a value that was read is NaN, which JSON hasn't."""
        rest = self.values[::-1]

        def known(name: str) -> Any:
            if not rest:
                raise ValueError(f"{name} in an output")
            return rest.pop()

        return json.loads(b"NaN".join([*self.around, last]), parse_constant=known)


def without_recursion(text: bytes) -> Any:
    """The value of a JSON text, however deep it nests: read in pieces of some levels, the innermost first. Raises
    `ValueError` for what isn't JSON."""
    pieces = [_Piece()]
    at = level = 0
    for bracket in BRACKET.finditer(outside_of_strings(text)):
        begins = bracket[0] in b"[{"
        level -= not begins
        if level > 0 and level % _LEVELS == 0:
            if begins:
                pieces[-1].around.append(text[at:bracket.start()])
                pieces.append(_Piece())
                at = bracket.start()
            else:
                value = pieces.pop().read(text[at:bracket.end()])
                pieces[-1].values.append(value)
                at = bracket.end()
        level += begins
    return pieces[0].read(text[at:])
