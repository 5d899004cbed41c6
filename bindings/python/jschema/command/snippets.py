"""A line of a text, with a part of it underlined."""
from __future__ import annotations

import unicodedata
from typing import NamedTuple

from ..sources import Range

#: How many columns of a line are shown, and how many of them before the part that is meant.
WIDTH, BEFORE = 100, 40
_CUT = "…"


class Snippet(NamedTuple):
    """A line as it is shown: the part that is meant, and what is before and after it."""

    before: str
    meant: str
    after: str


def snippet(data: bytes, where: Range) -> Snippet:
    """The line on which a part of a text begins. Of a long one the surroundings are shown."""
    begin = where.begin.offset
    start = data.rfind(b"\n", 0, begin) + 1
    # (A line may be a whole file: what is shown is at most four bytes a column.)
    near = max(start, begin - 4 * BEFORE)
    stop = data.find(b"\n", begin, begin + 4 * WIDTH)
    end = stop if stop >= 0 else min(len(data), begin + 4 * WIDTH)
    before = data[near:begin].decode("utf-8", "replace").lstrip("\ufffd")
    meant = data[begin:max(begin, min(where.end.offset, end))].decode("utf-8", "replace").rstrip("\r\ufffd")
    after = data[begin:end].decode("utf-8", "replace").rstrip("\r\ufffd")[len(meant):]
    left, is_left_cut = _last(before, BEFORE)
    middle, is_middle_cut = _first(meant, WIDTH - BEFORE)
    right, is_right_cut = _first("" if is_middle_cut else after, WIDTH - BEFORE - width(middle))
    is_cut_after = is_middle_cut or is_right_cut or stop < 0 and end < len(data)
    return Snippet((_CUT if is_left_cut or near > start else "") + left, middle,
                   (right + (_CUT if is_cut_after else "")).rstrip())


def width(text: str) -> int:
    """How many columns of a terminal a text takes."""
    if text.isascii():
        return len(text)
    return sum(0 if unicodedata.combining(it) else 2 if unicodedata.east_asian_width(it) in "FW" else 1 for it in text)


def _shown(character: str) -> str:
    """A character as it is shown: a terminal would obey control characters."""
    if character == "\t":
        return "    "
    is_plain = unicodedata.category(character) not in ("Cc", "Cf", "Cs", "Zl", "Zp")
    return character if is_plain else f"\\u{ord(character):04x}"


def _first(text: str, most: int) -> tuple[str, bool]:
    """The beginning of a text in so many columns, and whether anything is cut off."""
    shown: list[str] = []
    taken = 0
    for character in text:
        it = _shown(character)
        taken += width(it)
        if taken > most:
            return "".join(shown), True
        shown.append(it)
    return "".join(shown), False


def _last(text: str, most: int) -> tuple[str, bool]:
    """The end of a text in so many columns, and whether anything is cut off."""
    shown: list[str] = []
    taken = 0
    for character in reversed(text):
        it = _shown(character)
        taken += width(it)
        if taken > most:
            return "".join(reversed(shown)), True
        shown.append(it)
    return "".join(reversed(shown)), False
