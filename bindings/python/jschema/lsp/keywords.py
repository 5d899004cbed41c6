"""What can be written in a schema: the keywords, and the values that some of them take."""
from __future__ import annotations

from collections.abc import Sequence
from typing import Union

from ..dialects import KEYWORDS, LATEST
from ..locations import LISTS, OBJECTS
from ..resources import SCHEMAS

DIALECT = "https://json-schema.org/draft/2020-12/schema"
TYPES = ("array", "boolean", "integer", "null", "number", "object", "string")
_EITHER = (True, False)
_VALUES: dict[str, Sequence[Union[str, bool]]] = {
    "type": TYPES, "$schema": (DIALECT,), "uniqueItems": _EITHER, "deprecated": _EITHER, "readOnly": _EITHER,
    "writeOnly": _EITHER}


def is_schema(tokens: Sequence[str]) -> bool:
    """Whether a schema stands where tokens lead to from the root of a schema document."""
    index = 0
    while index < len(tokens):
        if tokens[index] in SCHEMAS:
            index += 1
        elif tokens[index] in LISTS or tokens[index] in OBJECTS:
            index += 2
        else:
            return False
    return index == len(tokens)


def names_of_keywords(tokens: Sequence[str]) -> list[str]:
    """The keywords that can be written in the object to which tokens lead."""
    if not is_schema(tokens):
        return []
    return sorted(name for name, (_, last) in KEYWORDS.items() if last == LATEST and name != "definitions")


def values_of_keyword(tokens: Sequence[str]) -> Sequence[str | bool]:
    """The values that can be written where tokens lead: of a keyword, or in its list."""
    if tokens and is_schema(tokens[:-1]):
        return _VALUES.get(tokens[-1], ())
    return TYPES if len(tokens) > 1 and tokens[-2] == "type" and is_schema(tokens[:-2]) else ()
