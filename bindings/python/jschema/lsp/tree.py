"""The values of a text with where they stand, also of one that isn't finished: while one types, it seldom is."""
from __future__ import annotations

import json
import re
from bisect import bisect_right
from typing import Optional, Union

from .. import sources
from ..locations import pointer
from .ranges import Span
from .reading import Characters, Reading

Key = Union[str, int, None]

_TOKEN = re.compile(
    r'(?P<mark>[{}\[\],:])'
    r'|(?P<string>"(?:[^"\\\n\r]|\\[^\n\r]?)*(?P<close>"?))'
    r'|(?P<comment>//[^\n\r]*|/\*.*?(?:\*/|\Z))'
    r'|(?P<word>[^\s{}\[\],:"]+)', re.DOTALL)
_OPENINGS = {"{": "object", "[": "array"}
_CLOSINGS = {"}": "object", "]": "array"}
_WORDS = {"true": "boolean", "false": "boolean", "null": "null"}
# The kinds of scalars by how their JSON text begins.
_SCALARS = {'"': "string", "t": "boolean", "f": "boolean", "n": "null"}


class Node:
    """A value. One of kind `missing` isn't written yet: it stands where it should begin."""

    __slots__ = ("kind", "begin", "end", "key", "name", "parent", "children", "is_open", "scalar")

    def __init__(self, kind: str, begin: int, end: int, key: Key = None, name: Optional[Span] = None) -> None:
        self.kind, self.begin, self.end = kind, begin, end
        #: The name of the member, or the index of the item; None for the root.
        self.key: Key = key
        #: Where the name of the member stands.
        self.name = name
        self.parent: Optional[Node] = None
        self.children: list[Node] = []
        #: Whether it is an array or an object without its closing bracket, or a string without its last quote.
        self.is_open = False
        #: The JSON text of a scalar, where it isn't what stands there.
        self.scalar: Optional[str] = None

    @property
    def is_holder(self) -> bool:
        """Whether it is an array or an object."""
        return self.kind in ("array", "object")

    @property
    def first(self) -> int:
        """Where its name begins; without one, where it begins itself."""
        return self.begin if self.name is None else self.name.begin

    def add(self, child: Node) -> Node:
        """Takes a value as its last child."""
        child.parent = self
        self.children.append(child)
        return child

    def tokens(self) -> list[str]:
        """The names and indices that lead to it from the root."""
        found: list[str] = []
        node = self
        while node.parent is not None:
            found.append(str(node.key))
            node = node.parent
        return found[::-1]

    def pointer(self) -> str:
        """The JSON Pointer to it."""
        return pointer(self.tokens())

    def find(self, tokens: list[str]) -> Optional[Node]:
        """The value that tokens lead to from here. Of members with the same name the last counts."""
        node = self
        for token in tokens:
            found = [child for child in node.children if str(child.key) == token]
            if not found:
                return None
            node = found[-1]
        return node

    def at(self, offset: int) -> Node:
        """The innermost value that has a character, with its name."""
        node = self
        while node.children:
            index = bisect_right([child.first for child in node.children], offset) - 1
            if index < 0 or offset > max(node.children[index].end, node.children[index].first):
                break
            node = node.children[index]
        return node


def read(text: str) -> Node:
    """The values of a JSON text, as far as they can be told."""
    return _Reader(text).run()


def trees_of(text: str, kind: str, reading: Reading) -> list[Node]:
    """The values of a text: of JSON as far as they can be told; else of each document in it, if it could be read."""
    if kind in ("json", "jsonc"):
        return [read(text)]
    return [_converted(source.tree(), reading.characters) for source in reading.sources]


def _converted(root: sources.Node, characters: Characters) -> Node:
    """The tree of a text that isn't JSON."""
    made = _begun(root, characters, None, None)
    waiting = [(root, made)]
    while waiting:
        source, node = waiting.pop()
        if isinstance(source.content, dict):
            for name, member in source.content.items():
                span = characters.span(member.begin, member.end)
                waiting.append((member.value, node.add(_begun(member.value, characters, name, span))))
        elif isinstance(source.content, list):
            for index, item in enumerate(source.content):
                waiting.append((item, node.add(_begun(item, characters, index, None))))
    return made


def _begun(source: sources.Node, characters: Characters, key: Key, name: Optional[Span]) -> Node:
    content = source.content
    begin, end = characters.at(source.begin), characters.at(source.end)
    if not isinstance(content, str):
        return Node("object" if isinstance(content, dict) else "array", begin, end, key, name)
    node = Node(_SCALARS.get(content[:1], "number"), begin, end, key, name)
    node.scalar = content
    return node


class _Reader:
    """A pass over a text: `open` are the arrays and objects that aren't closed yet."""

    def __init__(self, text: str) -> None:
        self.text = text
        self.open: list[Node] = []
        self.root: Optional[Node] = None
        # The member whose name was read, and whether its colon was.
        self.member: Optional[Node] = None
        self.has_colon = False

    def run(self) -> Node:
        for found in _TOKEN.finditer(self.text):
            kind = found.lastgroup
            if kind == "mark":
                self._mark(found[0], found.start())
            elif kind == "word":
                self._value(_WORDS.get(found[0], "number"), found.start(), found.end())
            elif kind != "comment":
                self._string(found)
        for node in self.open:
            node.is_open, node.end = True, len(self.text)
        return self.root or Node("missing", len(self.text), len(self.text))

    def _mark(self, mark: str, begin: int) -> None:
        if mark in _OPENINGS:
            kind = _OPENINGS[mark]
            # (One that stands where no value is expected is read too, so that its closing bracket closes it alone.)
            self.open.append(self._value(kind, begin, begin + 1) or Node(kind, begin, begin + 1))
        elif mark in _CLOSINGS:
            self._close(_CLOSINGS[mark], begin)
        elif mark == ":" and self.member is not None:
            self.has_colon = True
            self.member.begin = self.member.end = begin + 1
        elif mark == ",":
            self.member = None

    def _close(self, kind: str, begin: int) -> None:
        if not any(node.kind == kind for node in self.open):
            return
        self.member = None
        while True:
            node = self.open.pop()
            node.end = begin + 1 if node.kind == kind else begin
            if node.kind == kind:
                return
            node.is_open = True

    def _string(self, found: re.Match[str]) -> None:
        holder = self.open[-1] if self.open else None
        if holder is None or holder.kind == "array" or self.member is not None and self.has_colon:
            node = self._value("string", found.start(), found.end())
            if node is not None:
                node.is_open = not found["close"]
        else:
            self._name(holder, string_value(found[0]), found.start(), found.end())

    def _name(self, holder: Node, name: str, begin: int, end: int) -> None:
        self.member = holder.add(Node("missing", end, end, name, Span(begin, end)))
        self.has_colon = False

    def _value(self, kind: str, begin: int, end: int) -> Optional[Node]:
        """A value that begins here; None where none is expected."""
        holder = self.open[-1] if self.open else None
        if holder is None:
            if self.root is None:
                self.root = Node(kind, begin, end)
                return self.root
            return None
        if holder.kind == "array":
            return holder.add(Node(kind, begin, end, len(holder.children)))
        member = self.member
        if member is None or not self.has_colon:
            if kind not in ("object", "array"):
                self._name(holder, self.text[begin:end], begin, end)
            return None
        self.member = None
        member.kind, member.begin, member.end = kind, begin, end
        return member


def string_value(token: str) -> str:
    """The string of a token, which may lack its last quote, or have escapes that JSON doesn't."""
    if "\\" not in token:
        return token.strip('"')
    whole = token if len(token) > 1 and token.endswith('"') else token + '"'
    try:
        value = json.loads(whole, strict=False)
    except ValueError:
        value = token.strip('"')
    return str(value)
