"""What the schemas say about a value: their title, description, default and examples."""
from __future__ import annotations

import json
from typing import Any, Optional

from ..errors import Refused
from ..locations import schema_steps
from ..outputs import parse
from ..resources import value_of
from .applied import applied
from .documents import Document
from .tree import Node
from .workspace import Workspace

_WORDS = ("title", "description", "default", "examples", "deprecated")
_LONGEST = 200


def hover(workspace: Workspace, document: Document, offset: int, is_markdown: bool) -> Optional[dict[str, Any]]:
    """What is shown for a character; None where the schemas say nothing."""
    for index, root in enumerate(document.trees()):
        if not root.first <= offset <= root.end:
            continue
        node = root.at(offset)
        parts = [shown(it, is_markdown) for it in _notes(workspace, document, index, node)]
        if parts := list(dict.fromkeys(it for it in parts if it)):
            kind, separator = ("markdown", "\n\n---\n\n") if is_markdown else ("plaintext", "\n\n")
            return {"contents": {"kind": kind, "value": separator.join(parts)},
                    "range": document.lines.range(node.first, max(node.end, node.first))}
    return None


def _notes(workspace: Workspace, document: Document, index: int, node: Node) -> list[dict[str, Any]]:
    """What each schema that applies at a value says."""
    if workspace.is_schema(document):
        return _of_reference(workspace, document, node)
    choice = workspace.known_choice_of(document)
    if choice is None:
        return []
    sources = document.reading().sources
    if index < len(sources) and choice.set.schemas is not None:
        try:
            answer = choice.set.schemas.check(choice.entry, sources[index].json, "basic")
        except Refused:
            answer = None
        if answer is not None and answer.valid:
            return _annotations(parse(answer.text), node.pointer())
    schemas = [choice.set.schema(it.location) for it in applied(choice, document.text, node)]
    return [it for it in schemas if isinstance(it, dict)]


def _annotations(output: dict[str, Any], location: str) -> list[dict[str, Any]]:
    """The annotations at a location, of each schema together."""
    found: dict[str, dict[str, Any]] = {}
    for unit in output.get("annotations", ()):
        schema, _, name = unit["keywordLocation"].rpartition("/")
        if unit["instanceLocation"] == location and name in _WORDS:
            names = [step.token for step in schema_steps(unit["keywordLocation"]) if step.is_keyword]
            if names[-1:] == [name] and "propertyNames" not in names:
                found.setdefault(schema, {})[name] = unit["annotation"]
    return list(found.values())


def _of_reference(workspace: Workspace, document: Document, node: Node) -> list[dict[str, Any]]:
    """What the target of a reference says about itself."""
    found = workspace.set_of_schema(document)
    if found is None:
        return []
    target = found.target(node.pointer())
    value = None if target is None else value_of(target)
    return [value] if isinstance(value, dict) else []


def shown(notes: dict[str, Any], is_markdown: bool) -> str:
    """The text of what a schema says."""
    title, description = notes.get("title"), notes.get("description")
    lines = []
    if isinstance(title, str):
        lines.append(f"**{title}**" if is_markdown else title)
    if notes.get("deprecated") is True:
        lines.append("deprecated")
    if isinstance(description, str):
        lines.append(description)
    if "default" in notes:
        lines.append(f"default: {code(notes['default'], is_markdown)}")
    if isinstance(notes.get("examples"), list) and notes["examples"]:
        lines.append("examples: " + ", ".join(code(it, is_markdown) for it in notes["examples"]))
    return "\n\n".join(lines)


def code(value: Any, is_markdown: bool) -> str:
    """A value as it is shown."""
    text = json.dumps(value, ensure_ascii=False)
    if len(text) > _LONGEST:
        text = text[:_LONGEST] + "…"
    if not is_markdown:
        return text
    return f"`` {text} ``" if "`" in text else f"`{text}`"
