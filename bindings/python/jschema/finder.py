"""Where a value of a JSON text stands, without a pass over the whole text: for the engine of the program, which says
no positions, and for what Python reads as JSON and the library refuses.

The text must be JSON: what stands beside the value is passed over, and not looked at.
"""
from __future__ import annotations

import json
import re
from typing import Optional, Union

_SPACE = re.compile(rb"[ \t\n\r]*")
_GAP = re.compile(rb"[ \t\n\r,]*")
_COLON = re.compile(rb"[ \t\n\r]*:[ \t\n\r]*")
_WORD = re.compile(rb"[^ \t\n\r,\]}]+")
# Up to the next bracket. (The engine of regular expressions keeps a note of each repetition, so there are few.)
_PLAIN = re.compile(rb'[^"\[\]{}]*(?:"[^"\\]*"[^"\[\]{}]*){0,256}')
_QUOTE, _BACKSLASH, _ARRAY, _OBJECT = b'"\\[{'
_OPENINGS, _CLOSINGS = b"[{", b"]}"


class Value:
    """A value: its first byte, and that of its member's name. What it holds is read as far as it is asked for."""

    def __init__(self, text: bytes, offset: int, name: Optional[int] = None) -> None:
        self.offset, self.name = offset, name
        self._text = text
        self._children: dict[Union[str, int], Value] = {}
        # Where each item begins, as far as they were read; and where each member and its name do.
        self._items: list[int] = []
        self._members: Optional[dict[str, tuple[int, int]]] = None

    def child(self, token: str) -> Optional[Value]:
        """The item or the member that a token of a JSON Pointer names."""
        first = self._text[self.offset]
        key: Union[str, int] = token
        if first == _ARRAY and re.fullmatch("0|[1-9][0-9]{0,18}", token):
            key = int(token)
        elif first != _OBJECT:
            return None
        if key not in self._children:
            found = self._item(key) if isinstance(key, int) else self._member(key)
            if found is None:
                return None
            self._children[key] = found
        return self._children[key]

    def _item(self, index: int) -> Optional[Value]:
        text, items = self._text, self._items
        at = end_of_value(text, items[-1]) if items else self.offset + 1
        while index >= len(items):
            at = _end_of(_GAP, text, at)
            if text[at] in _CLOSINGS:
                return None
            items.append(at)
            if index >= len(items):
                at = end_of_value(text, at)
        return Value(text, items[index])

    def _member(self, name: str) -> Optional[Value]:
        if self._members is None:
            self._members = _members(self._text, self.offset + 1)
        found = self._members.get(name)
        return None if found is None else Value(self._text, *found)


def root(text: bytes) -> Value:
    """The value of a text."""
    return Value(text, _end_of(_SPACE, text, 0))


def _members(text: bytes, at: int) -> dict[str, tuple[int, int]]:
    """The members of an object from a byte on. Of those with the same name the last counts."""
    found = {}
    while text[(name := _end_of(_GAP, text, at))] not in _CLOSINGS:
        end = end_of_string(text, name)
        at = _end_of(_COLON, text, end)
        token = text[name:end]
        found[json.loads(token) if b"\\" in token else token[1:-1].decode()] = at, name
        at = end_of_value(text, at)
    return found


def end_of_value(text: bytes, at: int) -> int:
    """The byte after the value that begins at a byte."""
    if text[at] == _QUOTE:
        return end_of_string(text, at)
    return _end_of_holder(text, at) if text[at] in _OPENINGS else _end_of(_WORD, text, at)


def end_of_text(text: bytes) -> int:
    """The byte after the value of a text."""
    return len(text.rstrip(b" \t\n\r"))


def _end_of_holder(text: bytes, at: int) -> int:
    plain = _PLAIN.match
    depth = 0
    while True:
        at = plain(text, at).end()  # type: ignore[union-attr]
        first = text[at]
        if first == _QUOTE:
            at = end_of_string(text, at)
            continue
        depth += 1 if first in _OPENINGS else -1
        at += 1
        if depth == 0:
            return at


def end_of_string(text: bytes, at: int) -> int:
    """The byte after the string that begins at a byte."""
    while True:
        at = text.index(b'"', at + 1)
        before = at
        while text[before - 1] == _BACKSLASH:
            before -= 1
        if (at - before) % 2 == 0:
            return at + 1


def _end_of(pattern: re.Pattern[bytes], text: bytes, at: int) -> int:
    """The byte after what a pattern that matches everywhere matches."""
    return pattern.match(text, at).end()  # type: ignore[union-attr]
