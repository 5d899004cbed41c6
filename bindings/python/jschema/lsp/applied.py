"""Which schemas apply at a value, by the `verbose` output: also where a document is invalid, or unfinished."""
from __future__ import annotations

import json
import math
from collections.abc import Iterator
from typing import Any, NamedTuple

from ..errors import Refused
from ..keyword_table import of_form
from ..locations import pointer, schema_steps
from ..outputs import parse
from .tree import Node
from .workspace import Choice

# Schemas below these keywords don't say what a value is like: they are conditions, or about names.
_CONDITIONS = frozenset({"if", "not", "propertyNames", "contains"})
_CHOICES = frozenset({"anyOf", "oneOf"})
# Errors that go away when something is added.
_ADDABLE = frozenset({"contains", *of_form("names"), *of_form("lists of names"),
                      *(it for it in of_form("count") if it.startswith("min"))})
# How many of the items before one are kept in a sketch.
_KEPT = 50


class Applied(NamedTuple):
    """A schema that applies at a value: its absolute location, and whether the value is valid against it."""

    location: str
    valid: bool


def applied(choice: Choice, text: str, node: Node, present: Any = ...) -> list[Applied]:
    """The schemas that apply at a value of a text. Of alternatives that what stands elsewhere rules out there are none.

    `present` is what there is of an object that is being written: then it rules alternatives out too.
    """
    schemas = choice.set.schemas
    if schemas is None:
        return []
    sketch, location = _sketch(text, node, present)
    try:
        answer = schemas.check(choice.entry, json.dumps(sketch).encode(), "verbose")
    except Refused:
        return []
    found = dict.fromkeys(_walk(parse(answer.text), location, present is ...))
    written = [(it, schemas.written_schema(it.location)) for it in found]
    # (What was made of a pattern is no schema of the author's.)
    return [it._replace(location=uri) for it, uri in written if uri is not None]


def _walk(root: dict[str, Any], location: str, is_open: bool) -> Iterator[Applied]:
    """The schemas that apply at a location, whose value is open if it may be another. In a result nodes of schemas and
    of keywords take turns."""
    waiting = [root]
    while waiting:
        schema = waiting.pop()
        if schema["instanceLocation"] == location:
            yield Applied(schema["absoluteKeywordLocation"], schema["valid"])
        for keyword in reversed(_nodes(schema)):
            name = _name(keyword)
            below = [it for it in _nodes(keyword) if _leads_to(it["instanceLocation"], location)]
            if name in _CHOICES:
                below = [it for it in below if not _is_ruled_out(it, location, is_open)] or below
            if name not in _CONDITIONS:
                waiting += reversed(below)


def _nodes(node: dict[str, Any]) -> list[dict[str, Any]]:
    return [*node.get("errors", ()), *node.get("annotations", ())]


def _name(node: dict[str, Any]) -> str:
    """The keyword of a node."""
    steps = schema_steps(node["keywordLocation"])
    return str(steps[-1].token) if steps and steps[-1].is_keyword else ""


def _leads_to(above: str, location: str) -> bool:
    return location == above or location.startswith(above + "/")


def _is_ruled_out(schema: dict[str, Any], location: str, is_open: bool) -> bool:
    """Whether a schema can't be met, whatever is added at a location, or stands there if that is open."""
    waiting = [schema]
    while waiting:
        node = waiting.pop()
        at = node["instanceLocation"]
        if "error" in node and not (is_open and _leads_to(location, at)) and _name(node) not in _ADDABLE:
            return True
        waiting += node.get("errors", ())
    return False


def _sketch(text: str, node: Node, value: Any) -> tuple[Any, str]:
    """The document in which a value stands, with empty arrays and objects in place of those that don't lead to it; and
    where it stands there."""
    made = shallow(text, node) if value is ... else value
    tokens: list[str] = []
    while node.parent is not None:
        holder = node.parent
        if holder.kind == "array":
            before = [it for it in holder.children if it.begin < node.begin][-_KEPT:]
            tokens.append(str(len(before)))
            made = [*(_value(text, it) for it in before), made]
        else:
            tokens.append(str(node.key))
            made = {**shallow(text, holder), str(node.key): made}
        node = holder
    return made, pointer(tokens[::-1])


def shallow(text: str, node: Node) -> Any:
    """The value of a node, in which arrays and objects are empty."""
    if node.kind == "object":
        return {str(it.key): _value(text, it) for it in node.children if it.kind != "missing"}
    return [_value(text, it) for it in node.children] if node.kind == "array" else scalar(text, node)


def whole(text: str, node: Node) -> Any:
    """The value of a node, as far as it is written."""
    if node.kind == "object":
        return {str(it.key): whole(text, it) for it in node.children if it.kind != "missing"}
    return [whole(text, it) for it in node.children] if node.kind == "array" else scalar(text, node)


def _value(text: str, node: Node) -> Any:
    return {"object": {}, "array": []}[node.kind] if node.is_holder else scalar(text, node)


def scalar(text: str, node: Node) -> Any:
    """The value of a scalar. One that the validator wouldn't take is a similar one."""
    try:
        value = json.loads(node.scalar if node.scalar is not None else text[node.begin:node.end])
    except ValueError:
        return text[node.begin:node.end].strip('"') if node.kind == "string" else None
    if isinstance(value, float):
        return int(value) if math.isfinite(value) else 0
    return value
