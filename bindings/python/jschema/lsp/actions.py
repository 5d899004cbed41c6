"""Quick fixes: the keyword that is meant in place of one that no dialect knows, and members that are missing."""
from __future__ import annotations

from collections.abc import Iterable, Iterator
from typing import Any, NamedTuple, Optional

from ..locations import pointer, steps
from ..resources import value_of
from .client import Client
from .diagnostics import Diagnostic, Missing
from .documents import Document
from .members import EMPTY, names_in, values_of, written
from .ranges import Span
from .schemas import SchemaSet
from .tree import Node
from .workspace import Workspace

QUICK_FIX = "quickfix"
# How many references lead from one to the next at most.
_MOST_REFERENCES = 10


class Edit(NamedTuple):
    """A text in place of what stands somewhere."""

    title: str
    span: Span
    text: str


def actions(workspace: Workspace, document: Document, found: Iterable[Diagnostic], span: Span,
            client: Client) -> list[dict[str, Any]]:
    """The quick fixes of the diagnostics that touch a part of a document."""
    if document.reading().fault is not None:
        return []
    return [_written(document, it, edit, client) for it in found
            if it.span.begin <= span.end and span.begin <= it.span.end
            for edit in _edits(workspace, document, it)]


def is_asked(only: Any) -> bool:
    """Whether a client that asks for these kinds of actions alone asks for quick fixes."""
    return not isinstance(only, list) or any(it in ("", QUICK_FIX) for it in only)


def _written(document: Document, diagnostic: Diagnostic, edit: Edit, client: Client) -> dict[str, Any]:
    """A quick fix as the protocol has it."""
    edits = [{"range": document.lines.range(*edit.span), "newText": edit.text}]
    if client.has_versions:
        about = {"uri": document.uri, "version": document.version}
        changes: dict[str, Any] = {"documentChanges": [{"textDocument": about, "edits": edits}]}
    else:
        changes = {"changes": {document.uri: edits}}
    return {"title": edit.title, "kind": QUICK_FIX, "isPreferred": True, "edit": changes,
            "diagnostics": [diagnostic.written(document.lines, client.has_related)]}


def _edits(workspace: Workspace, document: Document, diagnostic: Diagnostic) -> Iterator[Edit]:
    if isinstance(diagnostic.remedy, str):
        yield _renamed(document, diagnostic.span, diagnostic.remedy)
    elif diagnostic.remedy is not None:
        choice = workspace.known_choice_of(document)
        edit = None if choice is None else _inserted(document, choice.set, diagnostic.remedy)
        if edit is not None:
            yield edit


def _renamed(document: Document, span: Span, name: str) -> Edit:
    """The keyword that is meant, in the quotes of the one that stands there."""
    first = document.text[span.begin:span.begin + 1]
    quote = first if first in ('"', "'") else ""
    return Edit(f"Replace by `{name}`", span, f"{quote}{name}{quote}")


def _inserted(document: Document, schemas: SchemaSet, missing: Missing) -> Optional[Edit]:
    """The members that an object lacks; None where nothing says which, or where it isn't known how they are written."""
    trees = document.trees()
    node = trees[missing.source].find(steps(missing.instance)) if missing.source < len(trees) else None
    required = schemas.find(missing.keyword)
    if node is None or node.kind != "object" or required is None:
        return None
    present = {str(child.key) for child in node.children}
    lacking = [it for it in names_in(value_of(required)) if it not in present]
    schema = missing.keyword.rpartition("/")[0]
    is_yaml = document.kind == "yaml"
    members = [f"{written(it, is_yaml)}: {written(_value(schemas, schema, it), is_yaml)}" for it in lacking]
    shown = ", ".join(f"`{it}`" for it in lacking)
    where = _place(document, node, members)
    return None if where is None or not members else Edit(f"Insert {shown}", *where)


def _place(document: Document, node: Node, members: list[str]) -> Optional[tuple[Span, str]]:
    """Where members are inserted into an object, and the text: at its end, in a block of YAML at its beginning."""
    text = document.text
    if text[node.begin:node.begin + 1] != "{":
        if document.kind != "yaml" or not node.children or node.children[0].first != node.begin:
            return None
        column = node.begin - document.lines.line_at(node.begin)[0]
        return Span(node.begin, node.begin), "".join(f"{it}\n{' ' * column}" for it in members)
    if not node.children:
        return Span(node.begin + 1, node.begin + 1), ", ".join(members)
    last = node.children[-1]
    begin, _ = document.lines.line_at(last.first)
    before = text[begin:last.first]
    separator = f",\n{before}" if not before.strip() and begin > node.begin else ", "
    return Span(last.end, last.end), "".join(separator + it for it in members)


def _value(schemas: SchemaSet, schema: str, name: str) -> Any:
    """A value for a member of a schema: the one that it names, or an empty one of its type."""
    base, _, fragment = schema.partition("#")
    location = f"{base}#{fragment}/properties{pointer([name])}"
    for _ in range(_MOST_REFERENCES):
        about = schemas.schema(location)
        if not isinstance(about, dict):
            return None
        listed = about.get("enum")
        known = [*values_of(about), *(listed if isinstance(listed, list) else ())]
        if known:
            return known[0]
        kind = about.get("type")
        if isinstance(kind, (str, list)) and kind:
            return EMPTY.get(kind if isinstance(kind, str) else str(kind[0]))
        target = schemas.referred(location, about["$ref"]) if isinstance(about.get("$ref"), str) else None
        if target is None:
            return None
        location = f"{target.document.uri.partition('#')[0]}#{pointer([*target.tokens])}"
    return None
