"""Where the values of a TOML text stand. The text is known to be TOML, so each sign tells what comes next."""
from __future__ import annotations

import re

from ..limits import DEEPEST

Tokens = tuple[str, ...]
Span = tuple[int, int]

_BLANK = re.compile(rb"(?:[ \t\r\n]|#[^\n]*)*")
_SPACE = re.compile(rb"[ \t]*")
_BARE = re.compile(rb"[A-Za-z0-9_-]+")
_BASIC = re.compile(rb'"(?:[^"\\]|\\.)*"')
_LITERAL = re.compile(rb"'[^']*'")
# (Up to two quotes may stand before the three that end it.)
_LONG_BASIC = re.compile(rb'"""(?:[^"\\]|\\.|"{1,2}(?!"))*"{3,5}', re.DOTALL)
_LONG_LITERAL = re.compile(rb"'''.*?'{3,5}", re.DOTALL)
_PLAIN = re.compile(rb"\d{4}-\d\d-\d\d \d\d:[^\s,\]}#]*|[^\s,\]}#]+")
_ESCAPE = re.compile(r"\\(?:U([0-9A-Fa-f]{8})|u([0-9A-Fa-f]{4})|(.))")
_ESCAPED = {"b": "\b", "t": "\t", "n": "\n", "f": "\f", "r": "\r", "e": "\x1b"}


class TooDeep(ValueError):
    """What stands at this byte nests deeper than the validator takes."""

    def __init__(self, offset: int) -> None:
        super().__init__(offset)
        self.offset = offset


class Places:
    """Where each value stands, and the name of each member: by their tokens."""

    def __init__(self, text: bytes) -> None:
        self.values: dict[Tokens, Span] = {(): (0, len(text))}
        self.names: dict[Tokens, Span] = {}
        self._text = text
        # How many tables each array of tables has.
        self._tables: dict[Tokens, int] = {}
        table: Tokens = ()
        at = _end(_BLANK, text, 0)
        while at < len(text):
            if text[at:at + 1] == b"[":
                table, at = self._header(at)
            else:
                at = self._pair(at, table)
            at = _end(_BLANK, text, at)

    def _header(self, begin: int) -> tuple[Tokens, int]:
        """The table that a header names, and the byte after it."""
        brackets = 2 if self._text.startswith(b"[[", begin) else 1
        parts, at = self._key(begin + brackets)
        end = at + brackets
        tokens: Tokens = ()
        for number, (name, span) in enumerate(parts, 1):
            tokens = (*tokens, name)
            self.names.setdefault(tokens, span)
            self.values.setdefault(tokens, (begin, end))
            if brackets == 2 and number == len(parts):
                self._tables[tokens] = self._tables.get(tokens, 0) + 1
            if tokens in self._tables:
                tokens = (*tokens, str(self._tables[tokens] - 1))
                self.values.setdefault(tokens, (begin, end))
        return tokens, end

    def _pair(self, begin: int, table: Tokens) -> int:
        """A name and its value; the byte after them."""
        parts, at = self._key(begin)
        tokens = table
        for name, span in parts:
            tokens = (*tokens, name)
            self.names.setdefault(tokens, span)
        end = self._value(_end(_SPACE, self._text, at + 1), tokens)
        for count in range(len(table) + 1, len(tokens)):
            self.values.setdefault(tokens[:count], (begin, end))
        return end

    def _key(self, at: int) -> tuple[list[tuple[str, Span]], int]:
        """The parts of a name with dots, and the byte that follows."""
        parts: list[tuple[str, Span]] = []
        while True:
            begin = _end(_SPACE, self._text, at)
            first = self._text[begin:begin + 1]
            end = _end(_BASIC if first == b'"' else _LITERAL if first == b"'" else _BARE, self._text, begin)
            parts.append((_name(self._text[begin:end].decode()), (begin, end)))
            if len(parts) > DEEPEST:
                raise TooDeep(begin)
            at = _end(_SPACE, self._text, end)
            if self._text[at:at + 1] != b".":
                return parts, at
            at += 1

    def _value(self, begin: int, tokens: Tokens) -> int:
        """A value; the byte after it."""
        text = self._text
        first = text[begin:begin + 1]
        if len(tokens) >= DEEPEST and first in (b"[", b"{"):
            raise TooDeep(begin)
        if first == b"[":
            end = self._array(begin, tokens)
        elif first == b"{":
            end = self._inline_table(begin, tokens)
        elif first == b'"':
            end = _end(_LONG_BASIC if text.startswith(b'"""', begin) else _BASIC, text, begin)
        elif first == b"'":
            end = _end(_LONG_LITERAL if text.startswith(b"'''", begin) else _LITERAL, text, begin)
        else:
            end = _end(_PLAIN, text, begin)
        self.values[tokens] = begin, end
        return end

    def _array(self, begin: int, tokens: Tokens) -> int:
        at, index = _end(_BLANK, self._text, begin + 1), 0
        while self._text[at:at + 1] != b"]":
            at = self._next(self._value(at, (*tokens, str(index))))
            index += 1
        return at + 1

    def _inline_table(self, begin: int, tokens: Tokens) -> int:
        at = _end(_BLANK, self._text, begin + 1)
        while self._text[at:at + 1] != b"}":
            at = self._next(self._pair(at, tokens))
        return at + 1

    def _next(self, at: int) -> int:
        """The byte of the next item, after the comma, or of the closing bracket."""
        at = _end(_BLANK, self._text, at)
        return _end(_BLANK, self._text, at + 1) if self._text[at:at + 1] == b"," else at


def _name(token: str) -> str:
    """The name that a part of a key is."""
    if token.startswith("'"):
        return token[1:-1]
    return _ESCAPE.sub(_character, token[1:-1]) if token.startswith('"') else token


def _character(found: re.Match[str]) -> str:
    code = found[1] or found[2]
    return chr(int(code, 16)) if code else _ESCAPED.get(found[3], found[3])


def _end(pattern: re.Pattern[bytes], text: bytes, at: int) -> int:
    """The byte after what a pattern matches at a byte."""
    found = pattern.match(text, at)
    if found is None:
        raise AssertionError(f"not TOML at byte {at}")
    return found.end()
