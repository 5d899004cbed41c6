"""Keywords that no dialect knows, and keywords that can't act where they stand."""
from __future__ import annotations

from collections import Counter
from collections.abc import Iterator
from functools import lru_cache
from typing import Any, Optional

from ..dialects import KEYWORDS, stranger
from ..keyword_table import ROWS
from ..resources import Document
from .finding import NOTE, WARNING, Found

# Of those with this beginning everybody knows that they are somebody's own.
_OWN = "x-"

# The types that a keyword is about, if it isn't about all.
_TYPES = {name: row.about for name, row in ROWS.items() if row.about}
# Each keyword that needs another one beside it.
_NEEDS = {"then": "if", "else": "if", "minContains": "contains", "maxContains": "contains",
          "contentSchema": "contentMediaType"}
# Each keyword to which another one leaves nothing.
_LEAVES = {"unevaluatedItems": "items", "unevaluatedProperties": "additionalProperties"}


def unknown(document: Document) -> Iterator[Found]:
    """The keywords of no dialect, with the nearest that is one; of those that are near to none, the first of a name."""
    own: dict[str, Found] = {}
    count: Counter[str] = Counter()
    for schema in document.schemas:
        for keyword in schema.value:
            if keyword in KEYWORDS or keyword.startswith(_OWN):
                continue
            meant = nearest(keyword)
            found = Found("unknown-keyword", WARNING if meant else NOTE, (*schema.tokens, keyword), True,
                          f"no dialect knows the keyword `{keyword}`", meant)
            if meant:
                yield found._replace(message=f"{found.message}: is `{meant}` meant?")
            else:
                own.setdefault(keyword, found)
                count[keyword] += 1
    for keyword, found in own.items():
        more = f" (here and {count[keyword] - 1} times more)" if count[keyword] > 1 else ""
        yield found._replace(message=f"{found.message}, so it is an annotation{more}")


def inactive(document: Document) -> Iterator[Found]:
    """The keywords that can't act."""
    for schema in document.schemas:
        for keyword in schema.value:
            why = stranger(keyword, document.dialect) or _why(schema.value, keyword, document.dialect)
            if why is not None:
                yield Found("inactive-keyword", WARNING, (*schema.tokens, keyword), True, why)


def formats(document: Document) -> Iterator[Found]:
    """The formats, none of which is asserted."""
    for schema in document.schemas:
        if isinstance(schema.value.get("format"), str):
            yield Found("format", NOTE, (*schema.tokens, "format"), True,
                        "`format` is an annotation, and isn't asserted: `--formats` warns of values that break it")


@lru_cache(maxsize=1000)
def nearest(name: str) -> Optional[str]:
    """The keyword that is meant by a name that is none: at most two typing errors away, or one in a short name."""
    most = 1 if len(name) < 6 else 2
    distance, keyword = min((_distance(name.lower(), it.lower(), most), it) for it in KEYWORDS)
    return keyword if distance <= most and len(name) > 2 else None


def _why(schema: dict[str, Any], keyword: str, dialect: int) -> Optional[str]:
    """Why a keyword can't act beside the others of its schema."""
    if "$ref" in schema and dialect < 4 and keyword not in ("$ref", "$schema", "$id", "id", "definitions", "$comment",
                                                            "title", "description"):
        return f"`{keyword}` can't act beside `$ref`, which stands alone up to draft-07"
    if keyword in _NEEDS and _NEEDS[keyword] not in schema:
        return f"`{keyword}` can't act without `{_NEEDS[keyword]}`"
    if keyword in _LEAVES and _LEAVES[keyword] in schema:
        return f"`{keyword}` can't act: `{_LEAVES[keyword]}` beside it leaves nothing unevaluated"
    if keyword == "if" and "then" not in schema and "else" not in schema:
        return "`if` asserts nothing without `then` or `else`"
    if keyword == "additionalItems" and not isinstance(schema.get("items"), list):
        return "`additionalItems` can't act without a list in `items`"
    return _why_by_type(schema.get("type"), keyword)


def _why_by_type(given: Any, keyword: str) -> Optional[str]:
    types = [given] if isinstance(given, str) else given
    if keyword not in _TYPES or not isinstance(types, list) or not types:
        return None
    if any(type in _TYPES[keyword] for type in types if isinstance(type, str)):
        return None
    return f"`{keyword}` can't act on the type {' or '.join(map(str, types))}: it is about {_TYPES[keyword][-1]}s"


def _distance(one: str, other: str, most: int) -> int:
    """How many letters are to be put in, taken out, replaced or exchanged with the next to make one name of the other.
    More than `most` counts as `most + 1`."""
    if abs(len(one) - len(other)) > most:
        return most + 1
    before: list[int] = []
    row = list(range(len(other) + 1))
    for i, letter in enumerate(one, 1):
        two_before, before, row = before, row, [i]
        for j, wanted in enumerate(other, 1):
            cost = min(before[j] + 1, row[-1] + 1, before[j - 1] + (letter != wanted))
            if i > 1 and j > 1 and letter == other[j - 2] and one[i - 2] == wanted:
                cost = min(cost, two_before[j - 2] + 1)
            row.append(cost)
        if min(row) > most:
            return most + 1
    return min(row[-1], most + 1)

