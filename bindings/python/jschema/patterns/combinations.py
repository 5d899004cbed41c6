"""Combinations of patterns without look-around."""
from __future__ import annotations

from dataclasses import dataclass
from typing import Union

from .characters import Characters
from .nodes import Alternatives


@dataclass(frozen=True)
class Plain:
    """A pattern without look-around."""

    body: Alternatives


@dataclass(frozen=True)
class Not:
    """What a combination doesn't match."""

    of: Combination


@dataclass(frozen=True)
class Several:
    """Several combinations."""

    of: tuple[Combination, ...]


class Every(Several):
    """What each of them matches."""


class Some(Several):
    """What one of them matches."""


Combination = Union[Plain, Not, Every, Some]

#: What matches nothing.
NEVER = Plain(((Characters(()),),))


def every(*parts: Combination) -> Combination:
    """What each of these matches."""
    found: list[Combination] = []
    for it in parts:
        found += it.of if isinstance(it, Every) else (it,)
    return Every(tuple(found))


def some(*parts: Combination) -> Combination:
    """What one of these matches: those without look-around are one pattern."""
    plain: Alternatives = ()
    others: list[Combination] = []
    for part in parts:
        for it in part.of if isinstance(part, Some) else (part,):
            if isinstance(it, Plain):
                plain += it.body
            else:
                others.append(it)
    found: list[Combination] = [Plain(plain)] if plain else []
    found += others
    return found[0] if len(found) == 1 else Some(tuple(found))
