"""JSON with comments, as editors' settings have it: `//` and `/* */`, and a comma before a closing bracket."""
from __future__ import annotations

import re

from .source import JsonSource, Source

# What may have the signs of a comment in it, and comments. (A string without its end is left to the validator.)
_PART = re.compile(rb'"(?:[^"\\]|\\.)*"|//[^\n\r]*|/\*.*?\*/', re.DOTALL)
_LAST_COMMA = re.compile(rb'"(?:[^"\\]|\\.)*"|,(?=[ \t\r\n]*[\]}])', re.DOTALL)
_NOT_SPACE = re.compile(rb"[^\n\r\t ]")
_MARK = b"\xef\xbb\xbf"


def read(data: bytes) -> list[Source]:
    """The one text, in which blanks stand for comments and last commas."""
    text = b"   " + data[3:] if data.startswith(_MARK) else data
    plain = _PART.sub(_without_comment, text)
    return [JsonSource("jsonc", data, _LAST_COMMA.sub(_without_comma, plain))]


def _without_comment(part: re.Match[bytes]) -> bytes:
    return part[0] if part[0].startswith(b'"') else _NOT_SPACE.sub(b" ", part[0])


def _without_comma(part: re.Match[bytes]) -> bytes:
    """A blank for a comma that follows a value; other commas are left to the validator."""
    if part[0].startswith(b'"'):
        return part[0]
    before = part.start() - 1
    while before >= 0 and part.string[before] in b" \t\r\n":
        before -= 1
    return b"," if before < 0 or part.string[before] in b"[{,:" else b" "
