"""The keywords of a schema that have numbers, with those that are no integers in the range as what says the same."""
from __future__ import annotations

from collections.abc import Iterator
from typing import Any

from .changes import Change
from .dialects import KEYWORDS
from .keyword_table import of_form
from .numbers import Number, as_texts, has_number
from .values import GREATEST, LEAST

_FOUR, _SIX = 1, 2
# (What another one becomes comes last.)
_BOUNDS = ("exclusiveMinimum", "exclusiveMaximum", "minimum", "maximum")
_COUNTS = sorted(of_form("count"))
_ANNOTATIONS = frozenset({"$comment", "default", "description", "examples", "title"})


def exact(schema: dict[str, Any], dialect: int) -> Iterator[Change]:
    """Rewrites the keywords that act in a dialect."""
    if dialect < _SIX:
        for keyword in ("minimum", "maximum"):
            if isinstance(schema.get(keyword), Number):
                yield _old_bound(schema, keyword)
    for keyword in _BOUNDS if dialect >= _SIX else ():
        if isinstance(schema.get(keyword), Number):
            yield _bound(schema, keyword)
    for keyword in filter(lambda it: acts(it, dialect), _COUNTS):
        value = schema.get(keyword)
        if isinstance(value, Number) and value.is_whole and value.is_positive:
            # (Nothing is as long as that.)
            schema[keyword] = GREATEST
    yield from _multiple(schema, dialect)
    if isinstance(schema.get("enum"), list):
        schema["enum"] = [it for it in schema["enum"] if not has_number(it)]
    if acts("const", dialect) and has_number(schema.get("const")):
        del schema["const"]
        schema["enum"] = []
        yield Change(("const",), ("enum",), "not the constant")


def texts(schema: dict[str, Any], dialect: int) -> None:
    """Makes texts of the numbers that are left in annotations."""
    for keyword, value in schema.items():
        if keyword in _ANNOTATIONS or not acts(keyword, dialect):
            schema[keyword] = as_texts(value)


def acts(keyword: str, dialect: int) -> bool:
    """Whether a keyword is one of a dialect."""
    first, last = KEYWORDS.get(keyword, (dialect + 1, dialect))
    return first <= dialect <= last


def _old_bound(schema: dict[str, Any], keyword: str) -> Change:
    """A bound of the first two drafts, which another keyword makes exclusive."""
    exclusive = f"exclusive{keyword[0].upper()}{keyword[1:]}"
    value, least = schema[keyword], keyword == "minimum"
    is_exclusive = schema.get(exclusive) is True
    message = _message(least, is_exclusive, value)
    found = value.ceiling() if least != is_exclusive else value.floor()
    if not LEAST <= found <= GREATEST:
        # It excludes everything, or nothing.
        schema[exclusive] = (found > GREATEST) == least
        found = LEAST if found < LEAST else GREATEST
    schema[keyword] = found
    return Change((keyword,), (keyword,), message)


def _bound(schema: dict[str, Any], keyword: str) -> Change:
    """A bound of the later drafts."""
    value, least, is_exclusive = schema[keyword], keyword.endswith("inimum"), keyword.startswith("exclusive")
    found = value.ceiling() if least != is_exclusive else value.floor()
    now = keyword
    if not LEAST <= found <= GREATEST:
        excludes_all = (found > GREATEST) == least
        found = LEAST if found < LEAST else GREATEST
        if excludes_all != is_exclusive:
            del schema[keyword]
            now = f"exclusive{keyword[0].upper()}{keyword[1:]}" if excludes_all else ""
    if now:
        schema[now] = found
    return Change((keyword,), (now or keyword,), _message(least, is_exclusive, value))


def _message(least: bool, is_exclusive: bool, value: Number) -> str:
    """What the validator says of a value that breaks such a bound."""
    if is_exclusive:
        return f"not {'greater' if least else 'less'} than {value.text}"
    return f"{'less' if least else 'greater'} than {value.text}"


def _multiple(schema: dict[str, Any], dialect: int) -> Iterator[Change]:
    keyword = "divisibleBy" if dialect < _FOUR else "multipleOf"
    value = schema.get(keyword)
    if not isinstance(value, Number) or not value.is_positive:
        return
    found = value.numerator()
    now: tuple[str, ...] = (keyword,)
    if found <= GREATEST:
        schema[keyword] = found
    elif dialect >= _FOUR and isinstance(schema.get("allOf", []), list):
        # (Of the numbers in the range zero alone is a multiple.)
        del schema[keyword]
        schema["allOf"] = [*schema.get("allOf", ()), {"minimum": 0, "maximum": 0}]
        now = "allOf", str(len(schema["allOf"]) - 1)
    yield Change((keyword,), now, f"not a multiple of {value.text}")
