"""What can be written at a character: names of members and values that the schemas know; in schemas the targets of
references, and keywords."""
from __future__ import annotations

import json
import re
from collections.abc import Iterator
from typing import Any, NamedTuple

from ..resources import value_of
from .applied import applied, shallow
from .client import Client
from .context import Context, contexts
from .documents import Document
from .hover import shown
from .keywords import names_of_keywords, values_of_keyword
from .members import EMPTY, names_in, values_of, written
from .references import targets
from .workspace import Choice, Workspace

#: The most items that are sent.
MOST = 500
_PROPERTY, _VALUE, _REFERENCE = 10, 12, 18
_PLAIN, _SNIPPET = 1, 2
# The values of types that have few.
_OF_TYPES: dict[str, tuple[Any, ...]] = {"boolean": (True, False), "null": (None,)}
_DEPRECATED = 1
# The types whose values stand between two signs.
_ENCLOSED = ("string", "object", "array")


class Suggestion(NamedTuple):
    """A name or a value that can be written."""

    value: Any
    kind: int
    #: What is known of it: the schema of the member, or of the value.
    schema: Any = None
    is_required: bool = False
    detail: str = ""


def completion(workspace: Workspace, document: Document, offset: int, client: Client) -> dict[str, Any]:
    """The list of what can be written at a character."""
    items = []
    for context in contexts(document, offset):
        found = _of_schema(workspace, document, context) if workspace.is_schema(document) \
            else _of_instance(workspace, document, context)
        unique: dict[str, Suggestion] = {}
        for it in found:
            unique.setdefault(json.dumps(it.value, sort_keys=True), it)
        items += [_item(document, context, it, client) for it in unique.values()]
    return {"isIncomplete": len(items) > MOST, "items": items[:MOST]}


def _of_instance(workspace: Workspace, document: Document, context: Context) -> Iterator[Suggestion]:
    choice = workspace.known_choice_of(document)
    if choice is None:
        return
    present = _present(context) if context.is_name else ...
    for it in applied(choice, context.text, context.node, present):
        schema = choice.set.schema(it.location)
        if isinstance(schema, dict):
            yield from _names(choice, schema, it.location, present) if context.is_name else _values(schema)


def _present(context: Context) -> dict[str, Any]:
    """What there is of an object, without the member that is being named."""
    named = str(context.member.key) if context.member is not None else None
    return {name: value for name, value in shallow(context.text, context.node).items() if name != named}


def _names(choice: Choice, schema: dict[str, Any], location: str, present: Any) -> Iterator[Suggestion]:
    """The members that a schema knows, and the object doesn't have yet."""
    needed = names_in(schema.get("required"))
    properties = schema.get("properties")
    members = properties if isinstance(properties, dict) else {}
    names = schema.get("propertyNames")
    allowed = names_in(names.get("enum")) if isinstance(names, dict) else []
    for name in dict.fromkeys([*needed, *members, *allowed]):
        below = members.get(name, {})
        if name not in present and below is not False:
            yield Suggestion(name, _PROPERTY, _described(choice, below, location), name in needed)


def _described(choice: Choice, schema: Any, location: str) -> Any:
    """A schema; one that only refers to another with what that says."""
    if isinstance(schema, dict) and isinstance(schema.get("$ref"), str) and not {"title", "description"} & set(schema):
        target = choice.set.referred(location, schema["$ref"])
        referred = None if target is None else value_of(target)
        if isinstance(referred, dict):
            return {**referred, **schema}
    return schema


def _values(schema: dict[str, Any]) -> Iterator[Suggestion]:
    """The values that a schema knows."""
    if "const" in schema:
        yield Suggestion(schema["const"], _VALUE, schema)
    for word in ("enum", "examples"):
        values = schema.get(word)
        for value in values if isinstance(values, list) else ():
            yield Suggestion(value, _VALUE, schema, detail="" if word == "enum" else "example")
    if "default" in schema:
        yield Suggestion(schema["default"], _VALUE, schema, detail="default")
    if "const" not in schema and "enum" not in schema:
        types = schema.get("type")
        for kind in types if isinstance(types, list) else [types]:
            yield from (Suggestion(it, _VALUE, schema) for it in _OF_TYPES.get(str(kind), ()))


def _of_schema(workspace: Workspace, document: Document, context: Context) -> Iterator[Suggestion]:
    """What can be written in a schema."""
    tokens = context.node.tokens()
    if context.is_name:
        present = shallow(context.text, context.node)
        for name in names_of_keywords(tokens):
            if name not in present:
                yield Suggestion(name, _PROPERTY)
    elif tokens and tokens[-1] in ("$ref", "$dynamicRef"):
        for target in targets(workspace, document, context):
            yield Suggestion(target.written, _REFERENCE, target.schema, detail=target.uri)
    else:
        yield from (Suggestion(it, _VALUE) for it in values_of_keyword(tokens))


def _item(document: Document, context: Context, it: Suggestion, client: Client) -> dict[str, Any]:
    """A suggestion as the protocol has it."""
    is_yaml = document.kind == "yaml"
    label = it.value if isinstance(it.value, str) else json.dumps(it.value, ensure_ascii=False)
    text, is_snippet = written(it.value, is_yaml), False
    if context.is_name:
        text, is_snippet = _name_text(document, context, it, client)
    item: dict[str, Any] = {
        "label": label, "kind": it.kind, "filterText": written(it.value, is_yaml),
        "sortText": ("0" if it.is_required else "1") + label,
        "insertTextFormat": _SNIPPET if is_snippet else _PLAIN,
        "textEdit": {"range": document.lines.range(*context.span), "newText": text}}
    if it.detail or it.is_required:
        item["detail"] = it.detail or "required"
    if isinstance(it.schema, dict):
        if documentation := shown(it.schema, client.is_markdown):
            item["documentation"] = {"kind": "markdown" if client.is_markdown else "plaintext", "value": documentation}
        if it.schema.get("deprecated") is True:
            item["tags"] = [_DEPRECATED]
    return item


def _name_text(document: Document, context: Context, it: Suggestion, client: Client) -> tuple[str, bool]:
    """What is inserted for a name, and whether it is a snippet. Where a colon follows, nothing is added."""
    is_yaml = document.kind == "yaml"
    name = written(it.value, is_yaml)
    after = document.text[context.span.end:context.span.end + 200].lstrip()
    if after.startswith(":"):
        return name, False
    value, is_snippet = _first_value(it.schema, is_yaml, client.has_snippets)
    comma = "," if not is_yaml and after[:1] not in ("", ",", "}", "]") else ""
    if is_snippet:
        name = re.sub(r"([\\$}])", r"\\\1", name)
    return f"{name}: {value}{comma}" if not is_yaml or value else f"{name}: ", is_snippet


def _first_value(schema: Any, is_yaml: bool, has_snippets: bool) -> tuple[str, bool]:
    """What is inserted as the value of a new member, and whether it is a snippet."""
    about = schema if isinstance(schema, dict) else {}
    known = values_of(about)
    if known and ("const" in about or not isinstance(known[0], (dict, list))):
        return written(known[0], is_yaml), False
    if is_yaml or not has_snippets:
        return "", False
    kind = about.get("type")
    begin, end = json.dumps(EMPTY[kind]) if kind in _ENCLOSED and "enum" not in about else ("", "")
    return f"{begin}$1{end}", True
