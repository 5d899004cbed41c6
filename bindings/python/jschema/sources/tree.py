"""The values of a text, with where each stands."""
from __future__ import annotations

from collections.abc import Iterator
from typing import NamedTuple, Optional, Union

from ..locations import steps


class Node:
    """A value: its first byte, the byte after it, and what it is. Values that are written once, and referred to from
    elsewhere, share their content."""

    __slots__ = ("begin", "end", "text", "_content", "_moved")

    def __init__(self, begin: int, end: int, content: Content) -> None:
        self.begin, self.end = begin, end
        #: Its JSON text, if that is kept.
        self.text: Optional[str] = None
        self._content = content
        # How far it has moved, and what it holds has not.
        self._moved = 0

    @property
    def content(self) -> Content:
        """The JSON text of a scalar, the items of an array, or the members of an object by their names."""
        if self._moved:
            self._move_content()
        return self._content

    @content.setter
    def content(self, content: Content) -> None:
        self._content, self._moved, self.text = content, 0, None

    def move(self, more: int) -> None:
        """Moves it with all that it holds. (What it holds moves when it is looked at.)"""
        self.begin += more
        self.end += more
        if not isinstance(self._content, str):
            self._moved += more

    def _move_content(self) -> None:
        more, self._moved = self._moved, 0
        if isinstance(self._content, list):
            for item in self._content:
                item.move(more)
        elif isinstance(self._content, dict):
            for name, member in self._content.items():
                self._content[name] = member.moved(more)

    def child(self, token: str) -> Optional[Union[Node, Member]]:
        """The item or the member that a token of a JSON Pointer names."""
        content = self.content
        if isinstance(content, dict):
            return content.get(token)
        if isinstance(content, list) and token.isdecimal() and token.isascii():
            index = int(token) if len(token) < 10 and (token == "0" or token[0] != "0") else len(content)
            return content[index] if index < len(content) else None
        return None

    def children(self) -> Iterator[tuple[str, Node]]:
        """Each item and member, with its token."""
        content = self.content
        if isinstance(content, dict):
            for name, member in content.items():
                yield name, member.value
        elif isinstance(content, list):
            for index, item in enumerate(content):
                yield str(index), item


class Member(NamedTuple):
    """A member of an object: where its name stands, and its value."""

    begin: int
    end: int
    value: Node

    def moved(self, more: int) -> Member:
        """The member after a move, with its value."""
        self.value.move(more)
        return Member(self.begin + more, self.end + more, self.value)


#: What a value is.
Content = Union[str, "list[Node]", "dict[str, Member]"]


def found(root: Node, pointer: str) -> Union[Node, Member]:
    """What stands at a JSON Pointer: a member, or an item or the root. Raises `LookupError`."""
    at: Union[Node, Member] = root
    for token in steps(pointer):
        child = (at.value if isinstance(at, Member) else at).child(token)
        if child is None:
            raise LookupError(f"no value at {pointer}")
        at = child
    return at
