"""Patterns as JSON Schema recommends them, in the syntax of ECMA-262, and what they are in that of the crate `regex`.

    patterns.read("^(?!aws:)[a-z]+$")    # a combination of patterns that `regex` reads

A pattern that can't be rewritten exactly is left as it is. That a rewritten one matches the same texts is tested, and
not proved.
"""
from __future__ import annotations

from functools import lru_cache
from typing import Any, Optional

from . import looking
from .combinations import Combination, Every, Not, Plain
from .nodes import Alternatives, has_look, looks, with_look
from .pushing import NotExact
from .syntax import NotRead, Read
from .writing import written

__all__ = ["Combination", "Every", "Not", "Plain", "left", "read", "read_single", "schema_of", "text_of", "texts_of"]


@lru_cache(maxsize=10_000)
def read(pattern: str) -> Optional[Combination]:
    """What a pattern is in the syntax of `regex`. None where it is the same there, or where it can't be rewritten."""
    return _read(pattern, looking.combination)


@lru_cache(maxsize=10_000)
def read_single(pattern: str) -> Optional[Combination]:
    """The same, if it is one pattern that isn't much larger."""
    return _read(pattern, looking.single)


def _read(pattern: str, rewrite: Any) -> Optional[Combination]:
    try:
        found = Read(pattern)
        if not found.differs:
            return None
        if not any(map(has_look, found.alternatives)):
            return Plain(found.alternatives)
        made: Optional[Combination] = rewrite(found.alternatives)
        return made
    except (NotRead, NotExact, RecursionError):
        return None


def text_of(plain: Plain) -> str:
    """The text of a pattern, as `regex` reads it."""
    return written(plain.body)


def texts_of(given: Combination) -> list[str]:
    """The texts of all patterns in a combination."""
    if isinstance(given, Plain):
        return [text_of(given)]
    return [text for it in ((given.of,) if isinstance(given, Not) else given.of) for text in texts_of(it)]


def schema_of(given: Combination) -> dict[str, Any]:
    """A schema that is valid for the strings that a combination matches, and for what is no string."""
    if isinstance(given, Plain):
        return {"pattern": text_of(given)}
    if isinstance(given, Not):
        # (A `pattern` says nothing of what is no string, and a `not` of it would.)
        return {"not": {"type": "string", **schema_of(given.of)}}
    return {"allOf" if isinstance(given, Every) else "anyOf": [schema_of(it) for it in given.of]}


def left(pattern: str) -> Optional[int]:
    """Where the first look-around stands in a pattern that can't be rewritten. None where there is none, and where the
    pattern isn't read."""
    try:
        body = Read(pattern).alternatives
    except (NotRead, RecursionError):
        return None
    places = looks(body)
    if not places or _is_exact(body):
        return None
    return next((at for at in places if not _is_exact(with_look(body, at))), places[0])


def _is_exact(body: Alternatives) -> bool:
    try:
        looking.combination(body)
    except (NotExact, RecursionError):
        return False
    return True
