"""What is known of each keyword: a table, which `tools/interface` writes from `keywords.toml`."""
from __future__ import annotations

from typing import NamedTuple, Optional


class Row(NamedTuple):
    """A keyword: the numbers of the first and of the last dialect that has it, the form of its value, the types of
    instances that it is about (none: of all, or it says nothing of instances), and what 2020-12 has in its place."""

    first: int
    last: int
    form: str
    about: list[str]
    instead: Optional[str] = None


# interface: keywords
ROWS: dict[str, Row] = {
    "$ref": Row(0, 5, "string", []),
    "$schema": Row(0, 5, "string", []),
    "title": Row(0, 5, "anything", []),
    "description": Row(0, 5, "anything", []),
    "default": Row(0, 5, "anything", []),
    "format": Row(0, 5, "anything", []),
    "type": Row(0, 5, "type", []),
    "enum": Row(0, 5, "array", []),
    "properties": Row(0, 5, "named schemas", ["object"]),
    "patternProperties": Row(0, 5, "named schemas", ["object"]),
    "additionalProperties": Row(0, 5, "schema", ["object"]),
    "items": Row(0, 5, "schema", ["array"]),
    "minimum": Row(0, 5, "number", ["integer", "number"]),
    "maximum": Row(0, 5, "number", ["integer", "number"]),
    "minLength": Row(0, 5, "count", ["string"]),
    "maxLength": Row(0, 5, "count", ["string"]),
    "pattern": Row(0, 5, "string", ["string"]),
    "minItems": Row(0, 5, "count", ["array"]),
    "maxItems": Row(0, 5, "count", ["array"]),
    "uniqueItems": Row(0, 5, "boolean", ["array"]),
    "exclusiveMinimum": Row(0, 5, "number", ["integer", "number"]),
    "exclusiveMaximum": Row(0, 5, "number", ["integer", "number"]),
    "required": Row(0, 5, "names", ["object"]),
    "definitions": Row(0, 5, "named schemas", []),
    "extends": Row(0, 0, "anything", [], "`allOf`"),
    "disallow": Row(0, 0, "anything", [], "`not`"),
    "divisibleBy": Row(0, 0, "anything", [], "`multipleOf`"),
    "id": Row(0, 1, "anything", [], "`$id`"),
    "dependencies": Row(0, 3, "anything", [], "`dependentRequired` or `dependentSchemas`"),
    "additionalItems": Row(0, 4, "schema", [], "`items` beside `prefixItems`"),
    "allOf": Row(1, 5, "schemas", []),
    "anyOf": Row(1, 5, "schemas", []),
    "oneOf": Row(1, 5, "schemas", []),
    "not": Row(1, 5, "schema", []),
    "multipleOf": Row(1, 5, "positive number", ["integer", "number"]),
    "minProperties": Row(1, 5, "count", ["object"]),
    "maxProperties": Row(1, 5, "count", ["object"]),
    "$id": Row(2, 5, "string", []),
    "const": Row(2, 5, "anything", []),
    "contains": Row(2, 5, "schema", ["array"]),
    "propertyNames": Row(2, 5, "schema", ["object"]),
    "examples": Row(2, 5, "anything", []),
    "$comment": Row(3, 5, "anything", []),
    "if": Row(3, 5, "schema", []),
    "then": Row(3, 5, "schema", []),
    "else": Row(3, 5, "schema", []),
    "readOnly": Row(3, 5, "anything", []),
    "writeOnly": Row(3, 5, "anything", []),
    "contentEncoding": Row(3, 5, "anything", ["string"]),
    "contentMediaType": Row(3, 5, "anything", ["string"]),
    "$recursiveRef": Row(4, 4, "anything", [], "`$dynamicRef`"),
    "$recursiveAnchor": Row(4, 4, "anything", [], "`$dynamicAnchor`"),
    "$anchor": Row(4, 5, "string", []),
    "$defs": Row(4, 5, "named schemas", []),
    "$vocabulary": Row(4, 5, "anything", []),
    "dependentRequired": Row(4, 5, "lists of names", ["object"]),
    "dependentSchemas": Row(4, 5, "named schemas", ["object"]),
    "unevaluatedItems": Row(4, 5, "schema", ["array"]),
    "unevaluatedProperties": Row(4, 5, "schema", ["object"]),
    "minContains": Row(4, 5, "count", ["array"]),
    "maxContains": Row(4, 5, "count", ["array"]),
    "contentSchema": Row(4, 5, "anything", []),
    "deprecated": Row(4, 5, "anything", []),
    "$dynamicRef": Row(5, 5, "string", []),
    "$dynamicAnchor": Row(5, 5, "string", []),
    "prefixItems": Row(5, 5, "schemas", ["array"]),
}
# interface: end


def of_form(form: str) -> frozenset[str]:
    """The keywords with a form of value, in the last dialect that has them."""
    return frozenset(name for name, row in ROWS.items() if row.form == form)
