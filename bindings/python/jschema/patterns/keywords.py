"""The keywords of a schema that have patterns, with these as `regex` reads them."""
from __future__ import annotations

from collections.abc import Callable, Iterator
from typing import Any, Optional

from ..changes import Change
from . import Combination, Every, Plain, read, read_single, schema_of, text_of
from .matching import matches
from .pushing import NotExact

_FOUR, _SIX = 1, 2
# What the validator says of them.
NO_MATCH, FALSE_SCHEMA = "no match", "false schema"


def of_pattern(schema: dict[str, Any], dialect: int) -> Optional[Combination]:
    """What `pattern` is rewritten to. None where it stays."""
    pattern = schema.get("pattern")
    found = read(pattern) if isinstance(pattern, str) else None
    return found if isinstance(found, Plain) or _has_conditions(schema, dialect) else None


def of_names(schema: dict[str, Any], dialect: int) -> dict[str, tuple[Plain, Optional[Every]]]:
    """What names in `patternProperties` are rewritten to: a pattern, and where that matches more than the name does,
    what `propertyNames` has to say. Others stay."""
    named = schema.get("patternProperties")
    made: dict[str, tuple[Plain, Optional[Every]]] = {}
    for name in named if isinstance(named, dict) else ():
        found = _read_name(name)
        if isinstance(found, Plain):
            made[name] = found, None
        elif isinstance(found, Every):
            weaker = found.of[-1]
            if isinstance(weaker, Plain) and _is_closed(schema, dialect, found, weaker):
                made[name] = weaker, found
    return made


def rewrite_pattern(schema: dict[str, Any], dialect: int) -> Iterator[Change]:
    """Rewrites `pattern`: into another, and where that isn't enough what stands beside it in `allOf`."""
    found = of_pattern(schema, dialect)
    if found is None:
        return
    *conditions, last = found.of if isinstance(found, Every) else (found,)
    if isinstance(last, Plain):
        schema["pattern"] = text_of(last)
        if not conditions:
            yield Change(("pattern",), ("pattern",))
    else:
        del schema["pattern"]
        conditions.append(last)
    for it in conditions:
        yield _with_condition(schema, schema_of(it), ("pattern",), NO_MATCH)


def rewrite_names(schema: dict[str, Any], dialect: int, free: Callable[[str, str], str]) -> Iterator[Change]:
    """Rewrites the names in `patternProperties`. `free` makes of a name and a pattern one unlike all other names."""
    named = schema.get("patternProperties")
    if not isinstance(named, dict):
        return
    rewritten = of_names(schema, dialect)
    for _, whole in rewritten.values():
        if whole is not None:
            # (Every other name is refused, so it is enough to refuse these.)
            yield _with_condition(schema, _names_allowed(schema, whole), ("additionalProperties",), FALSE_SCHEMA)
    schema["patternProperties"] = {}
    # (In their order, as the author has them.)
    for name, value in named.items():
        made = free(name, text_of(rewritten[name][0])) if name in rewritten else name
        schema["patternProperties"][made] = value
        if made != name:
            yield Change(("patternProperties", name), ("patternProperties", made))


def _read_name(name: str) -> Optional[Combination]:
    found = read(name)
    return found if found is None or isinstance(found, Plain) else read_single(name) or found


def _is_closed(schema: dict[str, Any], dialect: int, wanted: Every, weaker: Plain) -> bool:
    """Whether the one pattern's names, and those in `properties`, are all that there may be; and the weaker pattern
    matches none of the latter that the whole doesn't."""
    if dialect < _SIX or not _has_conditions(schema, dialect) or len(schema["patternProperties"]) != 1:
        return False
    if schema.get("additionalProperties") is not False or not isinstance(schema.get("properties", {}), dict):
        return False
    try:
        return not any(matches(weaker, name) and not matches(wanted, name) for name in schema.get("properties", ()))
    except NotExact:
        return False


def _names_allowed(schema: dict[str, Any], wanted: Combination) -> dict[str, Any]:
    listed = [*schema.get("properties", ())]
    allowed = schema_of(wanted)
    return {"propertyNames": {"anyOf": [{"enum": listed}, allowed]} if listed else allowed}


def _has_conditions(schema: dict[str, Any], dialect: int) -> bool:
    """Whether a schema can have conditions in `allOf`."""
    return dialect >= _FOUR and isinstance(schema.get("allOf", []), list)


def _with_condition(schema: dict[str, Any], condition: dict[str, Any], before: tuple[str, ...],
                    message: str) -> Change:
    """Adds a condition to `allOf`, for a keyword. (At its end, so that the others keep their places.)"""
    schema["allOf"] = [*schema.get("allOf", ()), condition]
    return Change(before, ("allOf", str(len(schema["allOf"]) - 1)), message)
