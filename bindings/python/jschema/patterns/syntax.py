"""Patterns as ECMA-262 reads them with the flag `u`, and what else people write where all who read it agree:

an escaped character that is no letter or digit stands for itself, `]`, `}` and `{` may stand alone, `\\A` is `^`, `\\z`
and `\\Z` are `$`, `(?i)` holds up to the end of its group, `(?P<name>..)` is a group.
"""
from __future__ import annotations

import re
from collections.abc import Iterator
from typing import NamedTuple, Optional

from .characters import CLASSES, DOT, GREATEST, Characters, Ranges, complement, ranges
from .nodes import Alternatives, Assertion, Group, Look, Node, Repeat, Sequence

_QUANTIFIER = re.compile(r"(?:([*+?])|\{([0-9]+)(?:(,)([0-9]*))?\})\??")
_BRACED = re.compile(r"\{[0-9]*,?[0-9]*\}")
_LOOK = re.compile(r"\(\?(<?)([=!])")
_NAMED = re.compile(r"\(\?P?<([A-Za-z_$][A-Za-z0-9_$]*)>")
_PROPERTY = re.compile(r"\\[pP]\{[A-Za-z0-9_]+(?:=[A-Za-z0-9_]+)?\}")
_CODE = re.compile(r"\\(?:x(?P<two>[0-9A-Fa-f]{2})|u(?P<four>[0-9A-Fa-f]{4})|u\{(?P<braced>[0-9A-Fa-f]+)\}"
                   r"|c(?P<control>[A-Za-z])|(?P<zero>0)(?![0-9]))")
_SECOND = re.compile(r"\\u([dD][c-fC-F][0-9A-Fa-f]{2})")
_CONTROLS = {"t": 0x09, "n": 0x0A, "v": 0x0B, "f": 0x0C, "r": 0x0D}
_BOUNDS = {"*": (0, None), "+": (1, None), "?": (0, 1)}
_ANCHORS = {"A": "^", "z": "$", "Z": "$"}
_DEEPEST = 100


class NotRead(ValueError):
    """A pattern that isn't read here: it is malformed, has a back-reference, or is read in several ways."""

    #: Up to which character it was read.
    at = 0


class Read:
    """A pattern that was read, and whether `regex` reads the same text otherwise, or not at all."""

    def __init__(self, pattern: str) -> None:
        reader = _Reader(pattern)
        try:
            self.alternatives = reader.alternatives(0)
            if reader.at < len(pattern) or reader.has_single_bracket and reader.has_bracket_in_class:
                raise NotRead
        except NotRead as error:
            error.at = reader.at
            raise
        self.differs = reader.differs


class _Reader:
    """A pass over a pattern: `at` is the next character."""

    def __init__(self, pattern: str) -> None:
        self.pattern, self.at = pattern, 0
        self.differs = self.is_folded = self.has_single_bracket = self.has_bracket_in_class = False
        self._names: set[str] = set()

    def alternatives(self, depth: int) -> Alternatives:
        """Those up to the end of the group, or of the pattern."""
        if depth > _DEEPEST:
            raise NotRead
        folded = self.is_folded
        found = [self._sequence(depth)]
        while self._skip("|"):
            found.append(self._sequence(depth))
        self.is_folded = folded
        return tuple(found)

    def _sequence(self, depth: int) -> Sequence:
        return tuple(self._nodes(depth))

    def _nodes(self, depth: int) -> Iterator[Node]:
        while (sign := self._next()) not in ("", "|", ")"):
            if self._skip("(?i)"):
                self.is_folded = True
                continue
            node = self._group(depth) if sign == "(" else self._atom(sign)
            bounds = self._bounds()
            if bounds is None:
                yield node
            elif isinstance(node, Look) and node.is_ahead:
                # (So it was before the flag `u`.)
                self.differs = True
                yield from (node,) if bounds[0] else ()
            elif isinstance(node, (Characters, Group)):
                yield Repeat(node, *bounds)
            else:
                raise NotRead

    def _next(self) -> str:
        return self.pattern[self.at:self.at + 1]

    def _skip(self, text: str) -> bool:
        is_there = self.pattern.startswith(text, self.at)
        self.at += len(text) if is_there else 0
        return is_there

    def _take(self, expression: re.Pattern[str]) -> Optional[re.Match[str]]:
        found = expression.match(self.pattern, self.at)
        self.at = self.at if found is None else found.end()
        return found

    def _bounds(self) -> Optional[tuple[int, Optional[int]]]:
        """How often what was read may be there, if that is written behind it."""
        found = self._take(_QUANTIFIER)
        if found is None:
            if _BRACED.match(self.pattern, self.at):
                raise NotRead
            return None
        if found[1]:
            return _BOUNDS[found[1]]
        if len(found[2]) > 9 or len(found[4] or "") > 9:
            raise NotRead
        least = int(found[2])
        most = least if found[3] is None else int(found[4]) if found[4] else None
        if most is not None and most < least:
            raise NotRead
        return least, most

    def _group(self, depth: int) -> Node:
        folded, begin = self.is_folded, self.at
        look = self._take(_LOOK)
        if look is not None:
            self.differs = True
        elif named := self._take(_NAMED):
            if named[1] in self._names:
                raise NotRead
            self._names.add(named[1])
            self.differs |= "$" in named[1]
        elif self._skip("(?i:"):
            self.is_folded = True
        elif not self._skip("(?:") and (self._skip("(?") or not self._skip("(")):
            raise NotRead
        body = self.alternatives(depth + 1)
        self.is_folded = folded
        if not self._skip(")"):
            raise NotRead
        return Group(body) if look is None else Look(not look[1], look[2] == "!", body, begin)

    def _atom(self, sign: str) -> Node:
        if sign == "\\":
            return self._escape()
        if sign == "[":
            return self._class()
        if sign == "{" and _BRACED.match(self.pattern, self.at) or sign in "*+?":
            raise NotRead
        self.at += 1
        if sign in "^$":
            return Assertion(sign)
        if sign == ".":
            self.differs = True
            return self._characters(DOT.ranges)
        self.has_single_bracket |= sign == "]"
        self.differs |= sign == "{"
        return self._characters(ranges([(ord(sign), ord(sign))]))

    def _characters(self, given: Ranges, properties: tuple[str, ...] = (), is_negated: bool = False) -> Characters:
        is_plain = not properties and not self.is_folded
        if is_plain and is_negated:
            return Characters(complement(given))
        return Characters(given, properties, is_negated, self.is_folded)

    def _escape(self) -> Node:
        letter = self.pattern[self.at + 1:self.at + 2]
        if letter in ("b", "B"):
            self.differs = True
            self.at += 2
            if self._next() == "{":
                # (To `regex` it names a kind of boundary.)
                raise NotRead
            return Assertion(f"\\{letter}")
        if letter in _ANCHORS:
            self.differs |= letter == "Z"
            self.at += 2
            return Assertion(_ANCHORS[letter])
        found = self._escaped(letter)
        return self._characters(found.ranges, found.properties)

    def _escaped(self, letter: str) -> _Member:
        """What an escape names, in a class or outside."""
        if letter in CLASSES:
            self.differs = True
            self.at += 2
            return _Member(CLASSES[letter])
        if letter in ("p", "P"):
            found = self._take(_PROPERTY)
            if found is None:
                raise NotRead
            return _Member((), (found[0],))
        return _member(self._code(letter))

    def _code(self, letter: str) -> int:
        """The code point that an escape names."""
        found = self._take(_CODE)
        if found is not None:
            return self._code_of(found)
        if letter == "" or letter.isalnum() and letter not in _CONTROLS:
            raise NotRead
        self.at += 2
        # (To `regex` two of these are bounds of words.)
        self.differs |= letter in "<>" or not letter.isascii()
        return _CONTROLS.get(letter, ord(letter))

    def _code_of(self, found: re.Match[str]) -> int:
        if found["control"]:
            self.differs = True
            return ord(found["control"]) % 32
        code = int(found["two"] or found["four"] or found["braced"] or "0", 16)
        if found["four"] and 0xD800 <= code < 0xDC00 and (second := self._take(_SECOND)):
            code = 0x10000 + (code - 0xD800) * 0x400 + int(second[1], 16) - 0xDC00
        if code > GREATEST:
            raise NotRead
        self.differs |= bool(found["zero"] or found["four"] and code > 0xD7FF)
        return code

    def _class(self) -> Characters:
        begin = self.at
        self.at += 1
        is_negated = self._skip("^")
        given: list[tuple[int, int]] = []
        properties: tuple[str, ...] = ()
        self.differs |= self._next() == "]"
        while not self._skip("]"):
            low = high = self._class_member()
            if self._next() == "-" and self.pattern[self.at + 1:self.at + 2] != "]":
                self.at += 1
                high = self._class_member()
                given += self._range(low, high)
                properties += high.properties
            else:
                given += low.ranges
            properties += low.properties
        # (To `regex` these are operators.)
        self.differs |= any(it in self.pattern[begin:self.at] for it in ("&&", "--", "~~"))
        return self._characters(ranges(given), properties, is_negated)

    def _class_member(self) -> _Member:
        sign = self._next()
        if sign == "\\":
            letter = self.pattern[self.at + 1:self.at + 2]
            if letter != "b":
                return self._escaped(letter)
            self.differs = True
            self.at += 2
            return _member(0x08)
        if sign == "":
            raise NotRead
        self.at += 1
        if sign == "[":
            self.differs = self.has_bracket_in_class = True
        return _member(ord(sign))

    def _range(self, low: _Member, high: _Member) -> Ranges:
        """The characters from one to another. Beside a class the hyphen stands for itself, as before the flag `u`, and
        so it does beside a property for those who read that."""
        if low.code is not None and high.code is not None:
            if high.code < low.code:
                raise NotRead
            return ranges([(low.code, high.code)])
        self.differs = True
        return (*low.ranges, *high.ranges, (0x2D, 0x2D))


class _Member(NamedTuple):
    """A member of a class: a character, a class, or a property."""

    ranges: Ranges
    properties: tuple[str, ...] = ()
    #: The code point of a character. (It may be a surrogate, which is in no text.)
    code: Optional[int] = None


def _member(code: int) -> _Member:
    return _Member(ranges([(code, code)]), (), code)
