"""A document's text as it was read: the JSON texts in it and where their values stand, or why it can't be read."""
from __future__ import annotations

import json
from typing import Any, NamedTuple, NoReturn, Optional

from ..errors import Refused
from ..faults import first_fault, place_of
from ..positions import Text, starts_of
from ..sources import Member, Source, Unreadable
from ..sources import read as read_sources
from ..sources.source import JsonSource
from ..sources.tree import found
from .ranges import Span
from .rereading import reread


class Fault(NamedTuple):
    """Where and why a text can't be read."""

    span: Span
    message: str


class Characters:
    """A text and its bytes in UTF-8, as the validator reads them."""

    def __init__(self, text: str) -> None:
        self.text = text
        self.data = text.encode("utf-8", "surrogatepass")
        self._is_ascii = len(self.data) == len(text)
        self._positions = Text(self.data)
        self._line_starts: list[int] = []

    def at(self, offset: int) -> int:
        """The character at a byte."""
        if self._is_ascii:
            return offset
        self._line_starts = self._line_starts or starts_of(self.text.split("\n"))
        position = self._positions.at(offset)
        return self._line_starts[position.line - 1] + position.column - 1

    def span(self, begin: int, end: int) -> Span:
        """The characters from a byte to another. There is at least one, unless the text ends there."""
        first, last = self.at(begin), self.at(end)
        return Span(first, max(last, min(first + 1, len(self.text))))


class Reading:
    """The text of a document. In YAML each of its documents has a source. The reading of the text before it changed is
    used up where that is quicker."""

    def __init__(self, text: str, kind: str, before: Optional[Reading] = None) -> None:
        self.characters = Characters(text)
        self.sources: list[Source] = []
        self.fault: Optional[Fault] = None
        # The value of the first source, once it is known.
        self._value: Any = ...
        if not text.strip():
            return
        try:
            self.sources = self._again(before) or read_sources(self.characters.data, kind)
            if isinstance(self.sources[0], JsonSource):
                # (So it shows whether it is JSON.)
                self._value = _value(self.sources[0].json)
        except Unreadable as refused:
            self.fail(self.characters.span(*(it.offset for it in refused.range)), refused.meaning)
        except _Syntax as syntax:
            self.fail(self.characters.span(syntax.offset, syntax.offset), syntax.message)
        for source in self.sources:
            source.trust()

    @property
    def value(self) -> Any:
        """The value of the first source; None without any."""
        if self._value is ...:
            self._value = _value(self.sources[0].json) if self.sources else None
        return self._value

    def member(self, name: str) -> Any:
        """What a member of the first source is, if that is an object with such a scalar; else None."""
        if not self.sources or isinstance(self.sources[0], JsonSource):
            return self.value.get(name) if isinstance(self.value, dict) else None
        found = self.sources[0].tree().child(name)
        content = found.value.content if isinstance(found, Member) else None
        return _value(content.encode()) if isinstance(content, str) else None

    def _again(self, before: Optional[Reading]) -> list[Source]:
        if before is None or len(before.sources) != 1:
            return []
        found = reread(before.sources[0], self.characters.data)
        if found is not None:
            before.sources = []
        return [] if found is None else [found]

    def fail(self, span: Span, message: str) -> None:
        """Says where and why the text can't be read."""
        self.sources = []
        self.fault = Fault(span, message)

    def place(self, source: Source, pointer: str, is_name: bool = False) -> Span:
        """What to underline of the value at a pointer: a scalar; of an array or an object its name, or else where it
        begins. With `is_name` it is the name in any case."""
        begin, end = (it.offset for it in source.value(pointer))
        if is_name or _is_holder(source, pointer, begin):
            name = source.name(pointer)
            begin, end = (name.begin.offset, name.end.offset) if name.begin.offset != begin else (begin, begin + 1)
        return self.characters.span(begin, end)

    def refusal(self, source: Source, refused: Refused) -> Span:
        """Where a source is refused."""
        if refused.place:
            try:
                return self.place(source, refused.place)
            except LookupError:
                pass
        return self.characters.span(*(it.offset for it in source.refusal(refused)))


def _is_holder(source: Source, pointer: str, begin: int) -> bool:
    if isinstance(source, JsonSource):
        return source.json[begin:begin + 1] in (b"[", b"{")
    at = found(source.tree(), pointer)
    return not isinstance((at.value if isinstance(at, Member) else at).content, str)


class _Constant(Exception):
    """A text has NaN or Infinity."""


class _Syntax(Exception):
    """A text ceases to be JSON at a byte."""

    def __init__(self, offset: int, message: str) -> None:
        super().__init__(offset, message)
        self.offset, self.message = offset, message


def _no_constant(name: str) -> NoReturn:
    raise _Constant


def _value(text: bytes) -> Any:
    """The value of a JSON text, by Python's own reader. (It is quick. What it takes and the validator doesn't is found
    when the text is validated.) Raises `_Syntax`."""
    characters = text.decode("utf-8", "surrogatepass")
    try:
        return json.loads(characters, parse_constant=_no_constant)
    except json.JSONDecodeError as error:
        offset = len(characters[:place_of(error)].encode("utf-8", "surrogatepass"))
        raise _Syntax(offset, error.msg[0].lower() + error.msg[1:]) from None
    except _Constant:
        raise _Syntax(first_fault(text, any_number=True) or 0, "JSON has neither NaN nor Infinity") from None
    except (ValueError, RecursionError):
        # An integer of thousands of digits, or thousands of arrays in one another.
        return None
