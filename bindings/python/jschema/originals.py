"""What a keyword of an upgraded schema comes from in the schema that it was (crates/js_upgrade/specs)."""
from __future__ import annotations

from collections.abc import Iterable, Sequence
from typing import Any, NamedTuple, Optional

from .dialects import LATEST, dialect_named
from .keyword_table import of_form
from .locations import LISTS, OBJECTS, steps

_FOUR, _SIX, _NINETEEN = 1, 2, 4
#: What a value is: a schema, a list or an object of schemas, or neither.
SCHEMA, SEVERAL, VALUE = range(3)
#: A keyword of the upgraded schema, the first dialect in which it is its own, and what it comes from before.
_ORIGINS = {
    "$anchor": (_NINETEEN, "$id"), "$dynamicRef": (LATEST, "$recursiveRef"),
    "$dynamicAnchor": (LATEST, "$recursiveAnchor"), "$defs": (_NINETEEN, "definitions"), "allOf": (_FOUR, "extends"),
    "anyOf": (_FOUR, "type"), "not": (_FOUR, "disallow"), "prefixItems": (LATEST, "items"),
    "dependentRequired": (_NINETEEN, "dependencies"), "dependentSchemas": (_NINETEEN, "dependencies"),
    "required": (_FOUR, "properties"), "multipleOf": (_FOUR, "divisibleBy"), "exclusiveMaximum": (_SIX, "maximum"),
    "exclusiveMinimum": (_SIX, "minimum"),
}
_SCHEMAS = of_form("schema")


class Original(NamedTuple):
    """What stands at a place of a document, and the dialect of the schema that it is in."""

    tokens: tuple[str, ...]
    value: Any
    dialect: int


def original(value: Any, tokens: Sequence[str], dialect: int) -> Optional[Original]:
    """What stands, in a document of a dialect, at the place that in the upgraded document has these tokens. None where
    nothing does."""
    found = _copied(value, tokens, dialect)
    left = [*tokens[2 if found else 0:]]
    holding = SCHEMA
    try:
        for token in found:
            value = value[int(token)] if isinstance(value, list) else value[token]
        while left:
            if holding == SCHEMA and isinstance(value, str):
                # (The name of a type, of which the upgrade made a schema.)
                break
            token = left.pop(0)
            if holding == SCHEMA and isinstance(value, dict):
                dialect = own_dialect(value, dialect)
                keyword = origin(value, token, dialect)
                if keyword == "contains" != token:
                    # (It stands with its limits in an item, behind two `not`s.)
                    del left[:3]
                    token = keyword = left.pop(0) if left else keyword
                holding, below = _held(value[keyword], token, keyword, left)
                way = [keyword, *below]
            else:
                holding = SCHEMA if holding == SEVERAL else VALUE
                way = [token]
            for step in way:
                value = value[int(step)] if isinstance(value, list) else value[step]
            found += way
    except (LookupError, ValueError, TypeError):
        return None
    return Original(tuple(found), value, dialect)


def _copied(root: Any, tokens: Sequence[str], dialect: int) -> list[str]:
    """The place of what is copied, if the first two tokens lead to a copy among the definitions of a document."""
    if dialect == LATEST or len(tokens) < 2 or tokens[0] != "$defs" or not isinstance(root, dict):
        return []
    name, kept = tokens[1], root.get("$defs")
    definitions = kept if dialect == _NINETEEN else root.get("definitions")
    if isinstance(definitions, dict) and name in definitions:
        return []
    if name.startswith("/"):
        return steps(name)
    return ["$defs", name] if isinstance(kept, dict) and name in kept else []


def own_dialect(schema: dict[str, Any], around: int) -> int:
    """The dialect of a schema: what it names beside an identifier of that dialect, or the one around it."""
    named = dialect_named(schema.get("$schema"))
    if named is None:
        return around
    uri = schema.get(identifier(named))
    is_one = isinstance(uri, str) and uri != "" and not uri.startswith("#")
    return named if is_one and not hides(schema, named) else around


def identifier(dialect: int) -> str:
    """The keyword that identifies a schema."""
    return "id" if dialect < _SIX else "$id"


def hides(schema: dict[str, Any], dialect: int) -> bool:
    """Whether a reference hides its siblings, as it does before 2019-09."""
    return dialect < _NINETEEN and "$ref" in schema


def origin(schema: dict[str, Any], keyword: str, dialect: int) -> str:
    """The keyword of a schema that a keyword of the upgraded one comes from."""
    if keyword == "items" and dialect < LATEST and isinstance(schema.get("items"), list):
        return "additionalItems"
    if keyword in ("$id", "$anchor") and dialect < _SIX:
        return "id"
    if dialect == _NINETEEN and "contains" in schema and keyword == _holder(schema):
        return "contains"
    first, older = _ORIGINS.get(keyword, (0, keyword))
    return older if dialect < first else keyword


def _holder(schema: dict[str, Any]) -> str:
    """The keyword that `contains` of 2019-09 goes into: the first of these that isn't there."""
    return next((it for it in ("allOf", "anyOf", "oneOf") if it not in schema), "contains")


def upgraded_value(schema: dict[str, Any], keyword: str, dialect: int) -> Any:
    """The value of a keyword of an upgraded schema, with schemas in it as they were. Raises `LookupError`."""
    older = origin(schema, keyword, dialect)
    value = schema[older]
    if keyword == "required" and older == "properties":
        return [name for name, it in value.items() if isinstance(it, dict) and it.get("required") is True]
    if older == "dependencies":
        schemas = {name: it for name, it in value.items() if not isinstance(it, (list, str))}
        if keyword == "dependentSchemas":
            return schemas
        return {name: [it] if isinstance(it, str) else [*dict.fromkeys(it)] for name, it in value.items()
                if name not in schemas}
    if older == "type" and keyword == "anyOf":
        return [{"type": it} if isinstance(it, str) else it for it in _several(value)]
    if older == "extends":
        return [*_several(value)]
    if older == "disallow":
        return {"type": value} if isinstance(value, str) else upgraded_value({"type": value}, "anyOf", dialect)
    return value


def _held(value: Any, token: str, keyword: str, left: list[str]) -> tuple[int, list[str]]:
    """How the value of a keyword, which becomes that of the token, holds schemas; and which tokens lead on in it, of
    those that are left."""
    if token == keyword:
        return SEVERAL if keyword in LISTS or keyword in OBJECTS else SCHEMA if keyword in _SCHEMAS else VALUE, []
    if keyword in ("definitions", "items") or token == "dependentSchemas":
        return SEVERAL, []
    if keyword == "additionalItems":
        return SCHEMA, []
    if keyword in ("disallow", "extends", "type"):
        # (In `not` stands `type` or `anyOf`. What was no list is its first item.)
        del left[:1 if keyword == "disallow" else 0]
        index = left[:1]
        del left[:1]
        return SCHEMA, index if isinstance(value, list) else []
    below = left[:1] if token == "dependentRequired" else []
    left.clear()
    return VALUE, below


def _several(value: Any) -> Iterable[Any]:
    return value if isinstance(value, list) else [value]
