"""Where a part of a string stands in a text."""
from __future__ import annotations

import re
from itertools import islice

from ..sources import Range, Source

# A character of a string in JSON as it is written.
_CHARACTER = re.compile(rb"\\u[dD][89abAB]..\\u[dD][c-fC-F]..|\\u....|\\.|[^\\\x80-\xbf][\x80-\xbf]*", re.DOTALL)
_QUOTES = (b'"', b"'")


def part_of(source: Source, whole: Range, string: str, begin: int, end: int) -> Range:
    """Where some characters of a string stand, which itself stands in a range: in all of that where it isn't known how
    they are written."""
    text = source.data[whole.begin.offset:whole.end.offset]
    first = 1 if text[:1] in _QUOTES else 0
    if text[first:len(text) - first] == string.encode("utf-8", "surrogatepass"):
        offsets = [first + len(string[:it].encode("utf-8", "surrogatepass")) for it in (begin, end)]
    elif source.kind in ("json", "jsonc"):
        starts = [it.start() for it in islice(_CHARACTER.finditer(text, 1), end + 1)]
        offsets = [starts[begin], starts[end]]
    else:
        return whole
    return Range(*(source.at(whole.begin.offset + it) for it in offsets))
