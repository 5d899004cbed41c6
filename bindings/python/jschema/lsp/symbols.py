"""The outline of a document."""
from __future__ import annotations

from typing import Any, Callable

from ..limits import DEEPEST
from .documents import Document
from .tree import Node

#: The protocol's numbers for kinds of symbols, by the kinds of values.
_KINDS = {"object": 19, "array": 18, "string": 15, "number": 16, "boolean": 17, "null": 21, "missing": 21}
_LONGEST = 60


def symbols(document: Document, check: Callable[[], None]) -> list[dict[str, Any]]:
    """The members and items of a document, each with those below it. `check` raises if nobody waits for them."""
    roots = document.trees()
    if len(roots) == 1:
        return _below(document, roots[0], check)
    return [_symbol(document, root, f"document {number}", check) for number, root in enumerate(roots, 1)]


def _below(document: Document, node: Node, check: Callable[[], None]) -> list[dict[str, Any]]:
    check()
    if len(node.tokens()) > DEEPEST:
        return []
    return [_symbol(document, child, str(child.key), check) for child in node.children]


def _symbol(document: Document, node: Node, name: str, check: Callable[[], None]) -> dict[str, Any]:
    lines = document.lines
    first = node.first
    made = {"name": name or '""', "kind": _KINDS[node.kind], "range": lines.range(first, max(first, node.end)),
            "selectionRange": lines.range(*(node.name or (node.begin, node.end)))}
    if node.children:
        made["children"] = _below(document, node, check)
    elif node.kind not in ("object", "array"):
        made["detail"] = document.text[node.begin:node.end][:_LONGEST]
    return made
