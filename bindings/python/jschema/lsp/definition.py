"""Where a name leads: from a reference to its schema, from a value to the schemas that judged it."""
from __future__ import annotations

from typing import Any

from .applied import applied
from .documents import Document
from .tree import Node
from .workspace import Workspace


def definition(workspace: Workspace, document: Document, offset: int) -> list[dict[str, Any]]:
    """The places that the character at an offset leads to."""
    for root in document.trees():
        if root.first <= offset <= root.end:
            node = root.at(offset)
            if workspace.is_schema(document):
                return _of_reference(workspace, document, node)
            return _of_value(workspace, document, node)
    return []


def _of_reference(workspace: Workspace, document: Document, node: Node) -> list[dict[str, Any]]:
    found = workspace.set_of_schema(document)
    target = None if found is None else found.target(node.pointer())
    at = None if found is None or target is None else found.location(target)
    return [] if at is None else [at]


def _of_value(workspace: Workspace, document: Document, node: Node) -> list[dict[str, Any]]:
    choice = workspace.known_choice_of(document)
    if choice is None:
        return []
    found = choice.set
    if node.pointer() == "/$schema":
        locations = [choice.entry]
    else:
        locations = [it.location for it in applied(choice, document.text, node)]
    targets = [found.find(it) for it in dict.fromkeys(locations)]
    shown = [found.location(it) for it in targets if it is not None]
    return [it for it in shown if it is not None]
