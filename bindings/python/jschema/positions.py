"""Lines and columns of the values in a JSON text.

    text = Text(b'{"age": -1}')
    text.value("/age")   # Position(offset=8, line=1, column=9)
    text.name("/age")    # Position(offset=1, line=1, column=2)
"""
from __future__ import annotations

import itertools
import re
from bisect import bisect_right
from collections.abc import Iterable, Sequence
from operator import add
from typing import Callable, NamedTuple, Optional

from .faults import NotJson, first_fault
from .finder import Value, end_of_text, end_of_value, root
from .limits import DEEPEST
from .locations import steps

# The bytes of UTF-8 that begin no character, and how many bytes are counted at a time.
_CONTINUATION = bytes(range(0x80, 0xC0))
_BLOCK = 4096
# A token that names an item, where it is one of an array.
_INDEX = re.compile("0|[1-9][0-9]*")


class Position(NamedTuple):
    """A place in a text: bytes from 0; lines, and characters within the line, from 1."""

    offset: int
    line: int
    column: int


class Located(NamedTuple):
    """Where a value begins, the byte after it, and where the name of the member begins that it is the value of."""

    value: Position
    #: None where it wasn't looked for.
    end: Optional[int]
    name: Optional[Position]


#: Finds the values at JSON Pointers in a text: None for one that isn't there; None for all where the text isn't JSON,
#: or there is nothing to ask.
Locate = Callable[[bytes, Sequence[str]], Optional[Sequence[Optional[Located]]]]


class Text:
    """A JSON text, and where its values stand. The library finds them, or `locate`, an engine's call; where neither
    does, Python. With `is_json` an engine has read the text as JSON before, so that Python needn't look whether it
    is."""

    def __init__(self, data: bytes, is_json: bool = False, locate: Optional[Locate] = None) -> None:
        self.data = data
        self._is_json = is_json
        self._locate: Optional[Locate] = locate or _by_library
        # What was found, and what is to be found with the next pointer.
        self._located: dict[str, Optional[Located]] = {}
        self._expected: dict[str, None] = {}
        # (Made when they are needed. The lock of `functools.cached_property` would outlive a fork.)
        self._root: Optional[Value] = None
        self._ends: dict[int, int] = {}
        self._line_starts: Optional[list[int]] = None
        self._characters_before: Optional[list[int]] = None

    def __reduce__(self) -> tuple[type[Text], tuple[bytes, bool]]:
        return Text, (self.data, self._is_json)

    def value(self, pointer: str) -> Position:
        """Where the value at a JSON Pointer begins.

        Raises `NotJson`, `LookupError` where there is none, and `ValueError` for what is no JSON Pointer.
        """
        return self._find(pointer).value

    def name(self, pointer: str) -> Position:
        """Where the name of the member at a JSON Pointer begins; of an item, or the root, the value."""
        located = self._find(pointer)
        return located.value if located.name is None else located.name

    def expect(self, pointers: Iterable[str]) -> None:
        """Says which positions will be asked for, so that they are found together."""
        self._expected.update(dict.fromkeys(pointers))

    def span(self, pointer: str) -> tuple[int, int]:
        """The first byte of the value at a JSON Pointer, and the byte after it."""
        located = self._find(pointer)
        begin, end = located.value.offset, located.end
        if end is None:
            # (Many errors may be about one value.)
            end = self._ends.get(begin) or (end_of_value(self.data, begin) if pointer else end_of_text(self.data))
            self._ends[begin] = end
        return begin, end

    def name_span(self, pointer: str) -> tuple[int, int]:
        """The same of the member's name; of an item, or the root, of the value."""
        located = self._find(pointer)
        if located.name is None:
            return self.span(pointer)
        # (Between a name and its value there is no other quote.)
        return located.name.offset, self.data.rindex(b'"', located.name.offset, located.value.offset) + 1

    def path(self, pointer: str) -> list[str | int]:
        """A JSON Pointer as the names of members and the indices of items."""
        self._find(pointer)
        tokens = zip(steps(pointer), _prefixes(pointer))
        return [int(token) if _INDEX.fullmatch(token) and self._is_item(prefix) else token for token, prefix in tokens]

    def at(self, offset: int) -> Position:
        """The line and column of a byte."""
        if self._line_starts is None:
            self._line_starts = starts_of(self.data.split(b"\n"))
        line = bisect_right(self._line_starts, offset)
        start = self._line_starts[line - 1]
        return Position(offset, line, self._characters(offset) - self._characters(start) + 1)

    def _find(self, pointer: str) -> Located:
        """Where the value at a pointer stands. What is expected is found with it. Each pointer is looked for once."""
        _require_pointer(pointer)
        if pointer not in self._located:
            asked = [*dict.fromkeys([pointer, *(it for it in self._expected if it not in self._located)])]
            self._located.update(zip(asked, self._ask(asked)))
            self._expected = {}
        located = self._located[pointer]
        if located is None:
            raise LookupError(f"no value at {pointer}")
        return located

    def _ask(self, pointers: Sequence[str]) -> Iterable[Optional[Located]]:
        found = None if self._locate is None else self._locate(self.data, pointers)
        if found is not None:
            return found
        self._locate = None
        if self._root is None:
            if not self._is_json:
                # (As the library takes it: with any number, and a level more than a text that is validated.)
                fault = first_fault(self.data, DEEPEST + 1, any_number=True)
                if fault is not None:
                    raise NotJson(fault)
            self._root = root(self.data)
        return map(self._by_python, itertools.repeat(self._root), pointers)

    def _by_python(self, value: Value, pointer: str) -> Optional[Located]:
        for token in steps(pointer):
            child = value.child(token)
            if child is None:
                return None
            value = child
        return Located(self.at(value.offset), None, None if value.name is None else self.at(value.name))

    def _is_item(self, pointer: str) -> bool:
        """Whether the value at a pointer, which is there, is an item of an array: then it has no name."""
        if pointer not in self._located and self._locate is not None:
            # (What is asked for the paths of the other pointers is found with it.)
            self.expect(it for known in [*self._located, *self._expected] for it in _prefixes(known)
                        if _INDEX.fullmatch(it.rpartition("/")[2]))
        return self._find(pointer).name is None

    def _characters(self, offset: int) -> int:
        if self._characters_before is None:
            # How many characters begin before each block.
            blocks = (self.data[at:at + _BLOCK] for at in range(0, len(self.data), _BLOCK))
            self._characters_before = [0, *itertools.accumulate(map(_characters, blocks))]
        block = offset // _BLOCK
        return self._characters_before[block] + _characters(self.data[block * _BLOCK:offset])


def starts_of(lines: Sequence[bytes | str]) -> list[int]:
    """Where lines begin in the text of which they are, with a line feed between two."""
    return [0, *map(add, itertools.accumulate(map(len, lines[:-1])), itertools.count(1))]


def _by_library(data: bytes, pointers: Sequence[str]) -> Optional[Sequence[Optional[Located]]]:
    # (Imported where it is needed, since it needs this module.)
    from .library import locate
    return locate(data, pointers)


def _require_pointer(pointer: str) -> None:
    if pointer and not pointer.startswith("/") or re.search("~(?![01])", pointer):
        raise ValueError(f"{pointer!r} isn't a JSON Pointer: it is empty or begins with /, and has ~0 for ~")


def _prefixes(pointer: str) -> list[str]:
    """The pointers to what a pointer leads through, itself at the end: one for each token."""
    return [pointer[:found.start()] for found in re.finditer("/|\\Z", pointer)][1:]


def _characters(data: bytes) -> int:
    """How many characters begin in these bytes."""
    return len(data.translate(None, _CONTINUATION))
