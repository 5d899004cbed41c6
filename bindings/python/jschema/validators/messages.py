"""The messages of pip's `jsonschema`, by the keyword, its value and the value that is wrong."""
from __future__ import annotations

from collections.abc import Iterable
from typing import Any, Callable

_MESSAGES: dict[str, Callable[[Any, Any], str]] = {
    "type": lambda wanted, it: f"{it!r} is not of type {', '.join(map(repr, _listed(wanted)))}",
    "enum": lambda wanted, it: f"{it!r} is not one of {wanted!r}",
    "const": lambda wanted, it: f"{wanted!r} was expected",
    "multipleOf": lambda wanted, it: f"{it!r} is not a multiple of {wanted}",
    "minimum": lambda wanted, it: f"{it!r} is less than the minimum of {wanted!r}",
    "maximum": lambda wanted, it: f"{it!r} is greater than the maximum of {wanted!r}",
    "exclusiveMinimum": lambda wanted, it: f"{it!r} is less than or equal to the minimum of {wanted!r}",
    "exclusiveMaximum": lambda wanted, it: f"{it!r} is greater than or equal to the maximum of {wanted!r}",
    "pattern": lambda wanted, it: f"{it!r} does not match {wanted!r}",
    "uniqueItems": lambda wanted, it: f"{it!r} has non-unique elements",
    "minLength": lambda wanted, it: f"{it!r} {_too_few(wanted, 'is too short')}",
    "minItems": lambda wanted, it: f"{it!r} {_too_few(wanted, 'is too short')}",
    "minProperties": lambda wanted, it: f"{it!r} {_too_few(wanted, 'does not have enough properties')}",
    "maxLength": lambda wanted, it: f"{it!r} {_too_many(wanted, 'is too long')}",
    "maxItems": lambda wanted, it: f"{it!r} {_too_many(wanted, 'is too long')}",
    "maxProperties": lambda wanted, it: f"{it!r} {_too_many(wanted, 'has too many properties')}",
    "not": lambda wanted, it: f"{it!r} should not be valid under {wanted!r}",
    "anyOf": lambda wanted, it: f"{it!r} is not valid under any of the given schemas",
    "oneOf": lambda wanted, it: f"{it!r} is not valid under any of the given schemas",
    "contains": lambda wanted, it: f"{it!r} does not contain items matching the given schema",
    "maxContains": lambda wanted, it: f"Too many items match the given schema (expected at most {wanted})",
}


def message(keyword: str, wanted: Any, instance: Any, said: str) -> str:
    """The message for a keyword with a value; for one that pip's has no words for, what the validator said."""
    if keyword == "minContains":
        matched = said.split(" ", 1)[0]
        return f"Too few items match the given schema (expected at least {wanted} but only {matched} matched)"
    return _MESSAGES[keyword](wanted, instance) if keyword in _MESSAGES else said


def required(name: str) -> str:
    """The message for a member that is missing."""
    return f"{name!r} is a required property"


def dependency(name: str, of: str) -> str:
    """The message for a member that another one needs."""
    return f"{name!r} is a dependency of {of!r}"


def false_schema(instance: Any) -> str:
    """The message for a value that nothing could be."""
    return f"False schema does not allow {instance!r}"


def unexpected(keyword: str, schema: dict[str, Any], extras: list[Any]) -> str:
    """The message for members or items that there may not be."""
    if keyword == "items" and isinstance(schema.get("items"), list):
        # (Up to 2019-09 this is `additionalItems`.)
        shown = ", ".join(map(repr, extras))
        return f"Additional items are not allowed ({shown} {'was' if len(extras) == 1 else 'were'} unexpected)"
    if keyword == "items":
        prefix = len(schema.get("prefixItems", ()))
        rest = extras[0] if len(extras) == 1 else extras
        return f"Expected at most {prefix} {'item' if prefix == 1 else 'items'} but found {len(extras)} extra: {rest!r}"
    if keyword == "additionalProperties" and "patternProperties" in schema:
        names = ", ".join(map(repr, sorted(extras)))
        patterns = ", ".join(map(repr, sorted(schema["patternProperties"])))
        return f"{names} {'does' if len(extras) == 1 else 'do'} not match any of the regexes: {patterns}"
    what = {"additionalProperties": "Additional properties", "unevaluatedProperties": "Unevaluated properties",
            "unevaluatedItems": "Unevaluated items"}[keyword]
    shown = ", ".join(map(repr, extras if keyword == "unevaluatedItems" else sorted(extras, key=str)))
    return f"{what} are not allowed ({shown} {'was' if len(extras) == 1 else 'were'} unexpected)"


def several(instance: Any, held: Iterable[Any]) -> str:
    """The message for a value for which more than one schema of `oneOf` holds."""
    return f"{instance!r} is valid under each of {', '.join(map(repr, held))}"


def _listed(wanted: Any) -> list[Any]:
    return [wanted] if isinstance(wanted, str) else list(wanted)


def _too_few(least: int, otherwise: str) -> str:
    return "should be non-empty" if least == 1 else otherwise


def _too_many(most: int, otherwise: str) -> str:
    return "is expected to be empty" if most == 0 else otherwise
