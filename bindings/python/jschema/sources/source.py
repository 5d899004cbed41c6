"""What all kinds of texts have in common, and the two that are JSON."""
from __future__ import annotations

from collections.abc import Iterable
from typing import NamedTuple, Optional

from ..errors import Refused
from ..faults import NotJson, first_fault
from ..positions import Position, Text
from .tree import Member, Node, found


class Range(NamedTuple):
    """A part of a text."""

    begin: Position
    end: Position


class Unreadable(Refused):
    """A text that isn't of its kind, or that has a value which JSON doesn't have; and where."""

    def __init__(self, kind: str, meaning: str, at: Range, place: Optional[str] = None) -> None:
        super().__init__("input", kind, place)
        self.meaning = meaning
        self.range = at
        #: The documents of YAML that stand before it.
        self.before: list[Source] = []

    def __reduce__(self) -> tuple[type[Unreadable], tuple[str, str, Range, Optional[str]]]:
        return Unreadable, (self.kind, self.meaning, self.range, self.place)


class Source:
    """A text, and the JSON text that the validator gets for it."""

    def __init__(self, kind: str, data: bytes, json: bytes) -> None:
        #: One of `KINDS`.
        self.kind = kind
        #: The text as it was written, in UTF-8.
        self.data = data
        self.json = json

    @property
    def first_line(self) -> int:
        """The line at which it begins: more than 1 for a later document of a YAML file."""
        return 1

    def trust(self, read: Optional[Text] = None) -> None:
        """Says that `json` has been read as JSON. `read` is its text with the validator's positions."""

    def expect(self, pointers: Iterable[str]) -> None:
        """Says which places will be asked for, so that they are found together."""

    def value(self, pointer: str) -> Range:
        """Where the value at a JSON Pointer stands. Raises `LookupError`, or `NotJson` for a text that isn't JSON."""
        raise NotImplementedError

    def name(self, pointer: str) -> Range:
        """Where the name of the member at a JSON Pointer stands; of an item, or the root, the value."""
        raise NotImplementedError

    def tree(self) -> Node:
        """All values, with the bytes at which they stand: of what isn't written in JSON."""
        raise NotImplementedError

    def at(self, offset: int) -> Position:
        """The line and the column of a byte."""
        raise NotImplementedError

    def refusal(self, refused: Refused) -> Range:
        """Where the text is refused: at the value that the refusal names, or where it ceases to be JSON. A place in an
        upgraded document has none."""
        if isinstance(refused, Unreadable):
            return refused.range
        start = Position(0, 1, 1)
        if refused.place is None or refused.is_upgraded:
            return Range(start, start)
        try:
            return self._place(refused)
        except NotJson as error:
            return Range(self.at(error.offset), self.at(error.offset))
        except LookupError:
            return Range(start, start)

    def _place(self, refused: Refused) -> Range:
        return self.value(refused.place or "")


class JsonSource(Source):
    """JSON, or JSON with comments: then `json` has blanks in their place, so each byte keeps its place."""

    _is_json = False
    # (Made when they are needed.)
    _read: Optional[Text] = None
    _lines: Optional[Text] = None

    def trust(self, read: Optional[Text] = None) -> None:
        self._is_json = True
        self._read = read

    def expect(self, pointers: Iterable[str]) -> None:
        self._text.expect(pointers)

    @property
    def _text(self) -> Text:
        if self._read is None:
            self._read = Text(self.json, self._is_json)
        return self._read

    def value(self, pointer: str) -> Range:
        begin, end = self._text.span(pointer)
        return Range(self.at(begin), self.at(end))

    def name(self, pointer: str) -> Range:
        begin, end = self._text.name_span(pointer)
        return Range(self.at(begin), self.at(end))

    def at(self, offset: int) -> Position:
        if self._lines is None:
            # (Not that of `json`: it has a blank for each byte of a comment, whose characters may be fewer.)
            self._lines = Text(self.data)
        return self._lines.at(offset)

    def _place(self, refused: Refused) -> Range:
        if refused.kind == "NotJson":
            # (The library doesn't say where it stops being JSON.)
            fault = first_fault(self.json)
            if fault is not None:
                raise NotJson(fault)
        self.trust()
        if refused.place:
            return super()._place(refused)
        # (Of a document that is refused for its URI nobody has read more.)
        start = self.at(self._text.value("").offset)
        return Range(start, start)


class MarkedSource(Source):
    """A text whose reader has made a tree of it."""

    def __init__(self, kind: str, data: bytes, json: bytes, root: Node, lines: Text) -> None:
        super().__init__(kind, data, json)
        self._root, self._lines = root, lines

    @property
    def first_line(self) -> int:
        return self._lines.at(self._root.begin).line

    def value(self, pointer: str) -> Range:
        at = found(self._root, pointer)
        node = at.value if isinstance(at, Member) else at
        return Range(self.at(node.begin), self.at(node.end))

    def name(self, pointer: str) -> Range:
        at = found(self._root, pointer)
        return Range(self.at(at.begin), self.at(at.end))

    def tree(self) -> Node:
        return self._root

    def at(self, offset: int) -> Position:
        return self._lines.at(offset)
