"""Schemas that accept nothing by their own bounds."""
from __future__ import annotations

import re
from collections.abc import Iterator
from typing import Any, Optional

from ..keyword_table import ROWS
from ..resources import Document, is_number, is_whole
from .finding import WARNING, Found

# The bounds of which the first may not be above the second, and what they are about.
_PAIRS = (*((low, "max" + low[3:], row.about[-1]) for low, row in ROWS.items() if low.startswith("min")),
          ("minContains", "maxItems", "array"))
# Those that must be below.
_STRICT = (("exclusiveMinimum", "maximum"), ("minimum", "exclusiveMaximum"), ("exclusiveMinimum", "exclusiveMaximum"))
_TYPES = {dict: "object", list: "array", str: "string", bool: "boolean", type(None): "null", int: "integer",
          float: "number"}


def nothing(document: Document) -> Iterator[Found]:
    """The keywords by which a schema accepts nothing, or nothing of a type."""
    for schema in document.schemas:
        for keyword, message in (*_by_bounds(schema.value), *_by_members(schema.value), *_by_values(schema.value)):
            yield Found("accepts-nothing", WARNING, (*schema.tokens, keyword), False, message)


def _by_bounds(schema: dict[str, Any]) -> Iterator[tuple[str, str]]:
    least: Any
    most: Any
    for low, high, about in _PAIRS:
        least, most = schema.get(low), schema.get(high)
        if low == "minContains" and "contains" not in schema:
            continue
        if is_number(least) and is_number(most) and least > most:
            yield low, f"accepts no {about}: `{low}` {least} is more than `{high}` {most}"
    for low, high in _STRICT:
        least, most = schema.get(low), schema.get(high)
        if is_number(least) and is_number(most) and least >= most:
            yield low, f"accepts no number: `{low}` {least} isn't below `{high}` {most}"
    least, most = schema.get("exclusiveMinimum"), schema.get("exclusiveMaximum")
    if schema.get("type") == "integer" and is_whole(least) and is_whole(most) and least + 1 == most:
        yield "exclusiveMinimum", f"accepts no integer: none is between {least} and {most}"
    least, listed = schema.get("minItems"), schema.get("prefixItems")
    if isinstance(listed, list) and schema.get("items") is False and is_whole(least) and least > len(listed):
        yield "minItems", f"accepts no array: `minItems` {least} is more than the {len(listed)} of `prefixItems`"


def _by_members(schema: dict[str, Any]) -> Iterator[tuple[str, str]]:
    required: Any = schema.get("required")
    most: Any = schema.get("maxProperties")
    if not isinstance(required, list):
        return
    names = {name for name in required if isinstance(name, str)}
    if is_whole(most) and len(names) > most:
        yield "required", f"accepts no object: `required` has {len(names)} names, and `maxProperties` is {most}"
    known = schema.get("properties", {})
    for name in sorted(names) if isinstance(known, dict) else ():
        if known.get(name) is False:
            yield "required", f"accepts no object: `{name}` is required, and its schema is false"
        elif name not in known and schema.get("additionalProperties") is False and not _is_matched(schema, name):
            yield "required", f"accepts no object: `{name}` is required, and `additionalProperties` is false"


def _is_matched(schema: dict[str, Any], name: str) -> bool:
    """Whether a member may be one of `patternProperties`."""
    patterns = schema.get("patternProperties", {})
    if not isinstance(patterns, dict):
        return True
    try:
        return any(re.search(pattern, name) for pattern in patterns)
    except re.error:
        return True


def _by_values(schema: dict[str, Any]) -> Iterator[tuple[str, str]]:
    listed = schema.get("enum")
    if listed == []:
        yield "enum", "accepts nothing: `enum` is empty"
    types = _types(schema.get("type"))
    if types is None:
        return
    if isinstance(listed, list) and listed and not any(_is_of(value, types) for value in listed):
        yield "enum", f"accepts nothing: no value of `enum` is of the type {' or '.join(types)}"
    if "const" in schema and not _is_of(schema["const"], types):
        yield "const", f"accepts nothing: the value of `const` isn't of the type {' or '.join(types)}"


def _types(given: Any) -> Optional[list[str]]:
    types = [given] if isinstance(given, str) else given
    return types if isinstance(types, list) and all(isinstance(it, str) for it in types) and types else None


def _is_of(value: Any, types: list[str]) -> bool:
    kind = _TYPES[type(value)]
    return kind in types or kind == "integer" and "number" in types or \
        kind == "number" and "integer" in types and float(value).is_integer()
