"""What is being written at a character: the name of a member, or a value; also in a text that isn't finished."""
from __future__ import annotations

import re
from typing import NamedTuple, Optional

from .documents import Document
from .ranges import Span
from .reading import Reading
from .tree import Node, trees_of

# What stands for what is being written in YAML.
_STAND_IN = "jschema\ufdd0"
_NAME = re.compile(r"[ \t]*(?:-[ \t]+)*(?P<word>[^\s:#\-{}\[\],&*!|>%@`'\"][^:#]*|[\"'][^\"']*[\"']?)?")
_VALUE = re.compile(r"[ \t]*(?:-[ \t]+)*(?:[^\s:#'\"{\[][^:#]*|\"[^\"]*\"|'[^']*'):[ \t]+(?P<word>[^#{\[]*)")
_ITEM = re.compile(r"[ \t]*(?:-[ \t]+)+(?P<word>[^:#{\[]*)")
_REST_OF_NAME = re.compile(r"[^:#\n\r]*?(?=[ \t]*(?::|#|$))", re.MULTILINE)
_REST_OF_VALUE = re.compile(r"[^#\n\r]*?(?=[ \t]*(?:#|$))", re.MULTILINE)


class Context(NamedTuple):
    """What is being written."""

    #: The object whose member is named, or the value.
    node: Node
    is_name: bool
    #: What is written of it, which a completion replaces.
    span: Span
    #: The text that the node is of.
    text: str
    #: The member that is being named.
    member: Optional[Node] = None


def contexts(document: Document, offset: int) -> list[Context]:
    """What may be written at a character."""
    if document.kind in ("json", "jsonc"):
        found = _in_json(document.text, document.trees()[0], offset)
        return [] if found is None else [found]
    return _in_yaml(document, offset) if document.kind == "yaml" else []


def _in_json(text: str, root: Node, offset: int) -> Optional[Context]:
    node = root
    if not node.is_holder:
        within = node.kind == "missing" or node.begin <= offset <= node.end
        return Context(node, False, Span(node.begin, node.end), text) if within else None
    if not _is_inside(node, offset):
        return None
    while (below := next((it for it in node.children if it.is_holder and _is_inside(it, offset)), None)) is not None:
        node = below
    return _in_object(text, node, offset) if node.kind == "object" else _in_array(text, node, offset)


def _is_inside(node: Node, offset: int) -> bool:
    return node.begin < offset and (offset <= node.end if node.is_open else offset < node.end)


def _in_object(text: str, node: Node, offset: int) -> Optional[Context]:
    before = [it for it in node.children if it.first <= offset]
    member = before[-1] if before else None
    if member is None:
        return Context(node, True, Span(offset, offset), text)
    assert member.name is not None
    if offset <= member.name.end:
        return Context(node, True, member.name, text, member)
    if "," in text[member.end:offset]:
        return Context(node, True, Span(offset, offset), text)
    if member.kind == "missing":
        has_colon = member.begin > member.name.end
        return Context(member, False, Span(offset, offset), text) if has_colon else None
    if offset > member.end:
        return Context(node, True, Span(offset, offset), text)
    if member.is_holder:
        return None
    # (Between the colon and the value nothing is written.)
    span = Span(member.begin, member.end) if offset >= member.begin else Span(offset, offset)
    return Context(member, False, span, text)


def _in_array(text: str, node: Node, offset: int) -> Optional[Context]:
    for item in node.children:
        if item.begin <= offset <= item.end and not item.is_holder:
            return Context(item, False, Span(item.begin, item.end), text)
    item = Node("missing", offset, offset, sum(it.end <= offset for it in node.children))
    item.parent = node
    return Context(item, False, Span(offset, offset), text)


def _in_yaml(document: Document, offset: int) -> list[Context]:
    """What may be written, each tried with a stand-in in its place."""
    begin, _ = document.lines.line_at(offset)
    before = document.text[begin:offset]
    found = []
    if named := _NAME.fullmatch(before):
        found.append(_named(document, offset, offset - len(named["word"] or "")))
    if valued := _VALUE.fullmatch(before) or _ITEM.fullmatch(before):
        found.append(_valued(document, offset, offset - len(valued["word"])))
    return [it for it in found if it is not None]


def _named(document: Document, offset: int, begin: int) -> Optional[Context]:
    text = document.text
    rest = _REST_OF_NAME.match(text, offset)
    end = rest.end() if rest else offset
    _, line_end = document.lines.line_at(offset)
    after = text[end:] if text[end:line_end].lstrip(" \t").startswith(":") else ":" + text[end:]
    tried = text[:begin] + _STAND_IN + after
    member = _stand_in(tried)
    if member is None or member.name is None or member.parent is None:
        return None
    return Context(member.parent, True, Span(begin, end), tried, member)


def _valued(document: Document, offset: int, begin: int) -> Optional[Context]:
    text = document.text
    rest = _REST_OF_VALUE.match(text, offset)
    end = rest.end() if rest else offset
    tried = text[:begin] + _STAND_IN + text[end:]
    node = _stand_in(tried)
    return None if node is None or node.key == _STAND_IN else Context(node, False, Span(begin, end), tried)


def _stand_in(text: str) -> Optional[Node]:
    """The member or the value of the stand-in in a YAML text; None if the text can't be read."""
    reading = Reading(text, "yaml")
    if reading.fault is not None:
        return None
    waiting = trees_of(text, "yaml", reading)
    while waiting:
        node = waiting.pop()
        if node.key == _STAND_IN or node.scalar == f'"{_STAND_IN}"':
            return node
        waiting += node.children
    return None
