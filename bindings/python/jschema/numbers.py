"""Numbers with fractions and exponents, by exact arithmetic: what they are among the integers from -2^63 to 2^64 - 1,
and what bounds by them say of those.

No instance has another number, so each number of a schema has an equivalent: `minimum: 0.5` is `minimum: 1`. That this
is so is tested, and not proved.
"""
from __future__ import annotations

import re
from typing import Any, NamedTuple, Union

from .values import GREATEST, LEAST

#: A number is itself, or where it is no integer in the range a `Number`.
Read = Union[int, "Number"]

_NUMBER = re.compile(r"(-?)([0-9]+)(?:\.([0-9]+))?(?:[eE]([+-]?[0-9]+))?")
# The most digits that are computed with, and the most of an exponent that is read.
_MOST_DIGITS, _MOST_OF_EXPONENT = 1000, 18
# What may be a number that isn't written as the validator takes it.
_CANDIDATE = re.compile(rb"[0-9][.eE]|-0")
_MINUS_ZERO = re.compile(rb"-0(?![0-9.eE])")
# Strings, and numbers with what a malformed text may have around them.
_PART = re.compile(rb'"[^"\\]*(?:\\.[^"\\]*)*"|(?<![0-9.eE+-])-?(?:0|[1-9][0-9]*)(?:\.[0-9]+)?(?:[eE][+-]?[0-9]+)?'
                   rb'(?![0-9.eE+-])', re.DOTALL)


class Number(NamedTuple):
    """A number that is no integer in the range: `digits` times a power of ten, and its text."""

    digits: int
    exponent: int
    text: str

    @property
    def is_whole(self) -> bool:
        """Whether it is an integer, which then is out of range."""
        return self.exponent >= 0

    @property
    def is_positive(self) -> bool:
        """Whether it is above zero. (Zero itself is in the range.)"""
        return self.digits > 0

    def floor(self) -> int:
        """The greatest integer that isn't above it; one that is out of range stands for all that are on that side."""
        return _in_reach(self._below())

    def ceiling(self) -> int:
        """The least integer that isn't below it, or one out of range."""
        return _in_reach(self._below() + (not self.is_whole))

    def _below(self) -> int:
        """The greatest integer that isn't above it, or one far out of range."""
        length = len(str(abs(self.digits))) + self.exponent
        if length > 20:
            return 10**21 if self.is_positive else -10**21
        if length <= 0:
            return 0 if self.is_positive else -1
        return int(self.digits * 10**self.exponent if self.is_whole else self.digits // 10**-self.exponent)

    def numerator(self) -> int:
        """The numerator in lowest terms: an integer is a multiple of the number if it is one of that."""
        if self.exponent >= 0:
            return GREATEST + 1
        found, count = self.digits, -self.exponent
        for factor in (2, 5):
            for _ in range(count):
                if found % factor:
                    break
                found //= factor
        return found


def _in_reach(value: int) -> int:
    return min(max(value, LEAST - 1), GREATEST + 1)


def is_taken(digits: str) -> bool:
    """Whether the validator takes a number as it is written."""
    return digits.lstrip("-").isdigit() and digits != "-0" and len(digits) < 21 and LEAST <= int(digits) <= GREATEST


def number(text: str) -> Read:
    """The number that a text of JSON is. Raises `ValueError` for more digits than are computed with."""
    found = _NUMBER.fullmatch(text)
    if found is None:
        raise ValueError(f"{text!r} is no number")
    sign, whole, fraction, power = found.groups("")
    digits = (whole + fraction).lstrip("0")
    kept = digits.rstrip("0")
    if not kept:
        return 0
    exponent = _exponent(power) - len(fraction) + len(digits) - len(kept)
    if len(kept) > _MOST_DIGITS:
        raise ValueError(f"a number of {len(kept)} digits")
    value = int(sign + kept)
    if 0 <= exponent and len(kept) + exponent <= 20:
        value, exponent = value * 10 ** exponent, 0
        if LEAST <= value <= GREATEST:
            return value
    return Number(value, exponent, text)


def _exponent(power: str) -> int:
    digits = power.lstrip("+-").lstrip("0")
    if len(digits) > _MOST_OF_EXPONENT:
        digits = "9" * _MOST_OF_EXPONENT
    return int(digits or "0") * (-1 if power.startswith("-") else 1)


def exact_text(text: bytes, has_fractions: bool = True) -> bytes:
    """The JSON text of an instance, with the integers that are written as `1.0`, `1e2` or `-0` in digits alone. What is
    no integer in the range stays, and so does what is no JSON; without `has_fractions` also `1.0` and `1e2`."""
    candidate = _CANDIDATE if has_fractions else _MINUS_ZERO

    def in_digits(part: re.Match[bytes]) -> bytes:
        if part[0].startswith(b'"') or not candidate.search(part[0]):
            return part[0]
        return _in_digits(part[0])

    return _PART.sub(in_digits, text) if candidate.search(text) else text


def _in_digits(part: bytes) -> bytes:
    try:
        found = number(part.decode())
    except ValueError:
        return part
    return part if isinstance(found, Number) else str(found).encode()


def exact_value(value: Any) -> Any:
    """A value, with the floats in it that are integers in the range as these. What isn't JSON stays."""
    if isinstance(value, float):
        return int(value) if value.is_integer() and LEAST <= value <= GREATEST else value
    if isinstance(value, dict):
        return {name: exact_value(it) for name, it in value.items()}
    return [exact_value(it) for it in value] if isinstance(value, (list, tuple)) else value


def without_floats(value: Any) -> Any:
    """A value with zeros for the floats in it."""
    if isinstance(value, float):
        return 0
    if isinstance(value, dict):
        return {name: without_floats(it) for name, it in value.items()}
    return [without_floats(it) for it in value] if isinstance(value, (list, tuple)) else value


def has_number(value: Any) -> bool:
    """Whether a value has a number in it that is no integer in the range: then no instance is equal to it."""
    if isinstance(value, dict):
        return any(map(has_number, value.values()))
    return any(map(has_number, value)) if isinstance(value, list) else isinstance(value, Number)


def as_texts(value: Any) -> Any:
    """A value with the texts of such numbers."""
    if isinstance(value, Number):
        return value.text
    if isinstance(value, dict):
        return {name: as_texts(it) for name, it in value.items()}
    return [as_texts(it) for it in value] if isinstance(value, list) else value


def written(value: Any) -> Any:
    """What is written for a number that is left, which the validator refuses wherever it stands."""
    if isinstance(value, Number):
        return 0.5
    if isinstance(value, dict):
        return {name: written(it) for name, it in value.items()}
    return [written(it) for it in value] if isinstance(value, list) else value
