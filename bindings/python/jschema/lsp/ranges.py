"""The positions of LSP in a text: lines, and UTF-16 units in them, from 0."""
from __future__ import annotations

import os
import re
from bisect import bisect_right
from typing import NamedTuple, Optional
from urllib.parse import unquote, urlsplit

from ..positions import starts_of

_LINE_END = re.compile("\r\n|\n|\r")


class Span(NamedTuple):
    """Characters of a text, from `begin` to `end`."""

    begin: int
    end: int


class Edit(NamedTuple):
    """A change of a text: the characters from `begin` to `end` were replaced by `length` others."""

    begin: int
    end: int
    length: int

    def moved(self, offset: int) -> int:
        """Where a character stands afterwards."""
        if offset >= self.end:
            return offset + self.length - (self.end - self.begin)
        return min(offset, self.begin + self.length) if offset > self.begin else offset


class Lines:
    """A text with its lines. Offsets count Python's characters."""

    def __init__(self, text: str) -> None:
        self.text = text
        self._starts: Optional[list[int]] = None
        self._is_ascii = text.isascii()

    def position(self, offset: int) -> dict[str, int]:
        """The position of an offset."""
        starts = self._starts or self._line_starts()
        line = bisect_right(starts, offset) - 1
        if self._is_ascii:
            return {"line": line, "character": offset - starts[line]}
        units = self.text[starts[line]:offset].encode("utf-16-le", "surrogatepass")
        return {"line": line, "character": len(units) // 2}

    def range(self, begin: int, end: int) -> dict[str, dict[str, int]]:
        """The range between two offsets."""
        return {"start": self.position(begin), "end": self.position(end)}

    def offset(self, position: dict[str, int]) -> int:
        """The offset of a position. One behind the end of its line, or of the text, counts as that end."""
        starts = self._line_starts()
        line = position["line"]
        if line >= len(starts):
            return len(self.text)
        start = starts[line]
        end = starts[line + 1] if line + 1 < len(starts) else len(self.text)
        content = self.text[start:end].rstrip("\r\n") if line + 1 < len(starts) else self.text[start:end]
        if self._is_ascii:
            return start + min(position["character"], len(content))
        units = content.encode("utf-16-le", "surrogatepass")[:2 * position["character"]]
        return start + len(units.decode("utf-16-le", "surrogatepass"))

    def line_at(self, offset: int) -> tuple[int, int]:
        """Where the line of an offset begins and ends, without its line end."""
        starts = self._line_starts()
        line = bisect_right(starts, offset) - 1
        end = starts[line + 1] if line + 1 < len(starts) else len(self.text)
        return starts[line], starts[line] + len(self.text[starts[line]:end].rstrip("\r\n"))

    def _line_starts(self) -> list[int]:
        if self._starts is None:
            if "\r" in self.text:
                self._starts = [0, *(found.end() for found in _LINE_END.finditer(self.text))]
            else:
                self._starts = starts_of(self.text.split("\n"))
        return self._starts


def path_of(uri: str) -> Optional[str]:
    """The path of a file URL; None for any other."""
    try:
        split = urlsplit(uri)
    except ValueError:
        return None
    return os.path.normpath(unquote(split.path)) if split.scheme == "file" and split.path else None
