"""Where a text stops being JSON, as the validator reads it.

Python's own reader says where it stops. What that reads and the validator doesn't is looked for beside it: bytes that
aren't UTF-8, half a surrogate pair, arrays and objects that are nested too deep, NaN and Infinity, and numbers beyond a
double's range.
"""
from __future__ import annotations

import json
import math
import re
from collections.abc import Iterable
from itertools import accumulate, islice
from operator import indexOf, itemgetter
from typing import Optional

from .limits import DEEPEST
from .outside import BRACKET, outside_of_strings, without_escapes

# Makes steps of brackets, to a deeper level and back: signed bytes.
_STEPS = bytes.maketrans(b"[]{}", b"\x01\xff\x01\xff")
_OTHERS = bytes(set(range(256)).difference(b'[]{}"'))
# A number, as Python's reader takes it, with the digits, signs and points that follow it in a text that isn't JSON.
_NUMBER = re.compile(rb"-?(?:[0-9][-+.0-9eE]*|NaN|Infinity)")
# Half a surrogate pair, without the other half behind it or before it.
_LONE_SURROGATE = re.compile(
    rb"\\u[dD](?:[89abAB]..(?!\\u[dD][c-fC-F])|[c-fC-F](?<!\\u[dD][89abAB]..\\u[dD].))", re.DOTALL)


class NotJson(ValueError):
    """The bytes are no JSON text; `offset` is where this shows, as `first_fault` says it."""

    def __init__(self, offset: int) -> None:
        super().__init__(offset)
        self.offset = offset


def first_fault(text: bytes, deepest: int = DEEPEST, any_number: bool = False) -> Optional[int]:
    """Where a text stops being JSON, as a byte from 0: where the first token begins that can't stand there or is none
    (a string, a number, a word, a sign), the end of a text that breaks off, or a byte that isn't UTF-8. What is before
    it can be completed to a JSON text. None for a text that is JSON.

    `deepest` says how many arrays and objects may be in one another. With `any_number` a number may be beyond a
    double's range.

        first_fault(b'{"a": 01}')   # 7
    """
    plain = without_escapes(text)
    too_deep = _too_deep(plain, deepest)
    # (Python's reader calls itself for each level, so it gets no more of them.)
    faults = _not_unicode(text), too_deep, _lone_surrogate(plain), _not_read(text[:too_deep], plain, any_number)
    return min((it for it in faults if it is not None), default=None)


def place_of(error: json.JSONDecodeError) -> int:
    """The character that an error of Python's own reader is about: the same with each version of Python."""
    if "trailing comma" not in error.msg:
        return error.pos
    # (From 3.13 on the place is that of the comma, and not of the bracket that can't follow it.)
    return len(error.doc) - len(error.doc[error.pos + 1:].lstrip(" \t\n\r"))


def _not_unicode(text: bytes) -> Optional[int]:
    """The first byte that isn't UTF-8."""
    try:
        text.decode()
    except UnicodeDecodeError as error:
        return error.start
    return None


def _too_deep(plain: bytes, deepest: int) -> Optional[int]:
    """Where the first array or object begins that is in too many others."""
    brackets = b"".join(plain.translate(None, _OTHERS).split(b'"')[::2])
    levels = accumulate(memoryview(brackets.translate(_STEPS)).cast("b"))
    return _first(BRACKET, plain, levels, deepest + 1)


def _lone_surrogate(plain: bytes) -> Optional[int]:
    """Where the first string begins that has half a surrogate pair."""
    found = _LONE_SURROGATE.search(plain)
    return None if found is None else _begin(plain, found.start())


def _not_read(text: bytes, plain: bytes, any_number: bool) -> Optional[int]:
    """Where Python's reader stops, or reads a number that the validator doesn't."""
    characters = text.decode(errors="replace")
    numbers: list[str] = []
    fault = None
    try:
        json.loads(characters, parse_int=numbers.append, parse_float=numbers.append, parse_constant=numbers.append)
    except json.JSONDecodeError as error:
        fault = _begin(plain, len(characters[:place_of(error)].encode()))
    # (NaN and Infinity end with a letter.)
    are_read = map(str.isdigit, map(itemgetter(-1), numbers)) if any_number else map(math.isfinite, map(float, numbers))
    number = _first(_NUMBER, plain, are_read, False)
    return fault if number is None else number


def _begin(plain: bytes, at: int) -> int:
    """Where the string begins that has a byte in it; of a byte outside of strings itself."""
    return plain.rfind(b'"', 0, at) if plain.count(b'"', 0, at) % 2 else at


def _first(pattern: re.Pattern[bytes], plain: bytes, values: Iterable[int], value: int) -> Optional[int]:
    """Where the first match of a pattern begins that has a value, among the values of those outside of strings."""
    try:
        number = indexOf(values, value)
    except ValueError:
        return None
    return next(islice(pattern.finditer(outside_of_strings(plain)), number, None)).start()
