"""Sets of characters, and how `regex` writes them."""
from __future__ import annotations

from collections.abc import Iterable
from dataclasses import dataclass

#: Ranges of code points, in order, which don't touch one another.
Ranges = tuple[tuple[int, int], ...]

GREATEST = 0x10FFFF
_SURROGATES = (0xD800, 0xDFFF)
# What has a meaning in a class or outside of one.
_IN_CLASS = frozenset("\\[]^-&~")
_OUTSIDE = frozenset("\\.+*?()|[]{}^$")


def ranges(given: Iterable[tuple[int, int]]) -> Ranges:
    """Ranges in order, those that touch joined. Surrogates are in no text, so they are left out."""
    found: list[tuple[int, int]] = []
    for first, last in sorted(it for whole in given for it in _without_surrogates(*whole)):
        if found and first <= found[-1][1] + 1:
            found[-1] = found[-1][0], max(found[-1][1], last)
        else:
            found.append((first, last))
    return tuple(found)


def _without_surrogates(first: int, last: int) -> list[tuple[int, int]]:
    low, high = _SURROGATES
    parts = (first, min(last, low - 1)), (max(first, high + 1), last)
    return [it for it in parts if it[0] <= it[1]]


def complement(given: Ranges) -> Ranges:
    """All other characters."""
    found, begin = [], 0
    for first, last in given:
        found.append((begin, first - 1))
        begin = last + 1
    return ranges(it for it in (*found, (begin, GREATEST)) if it[0] <= it[1])


def common(one: Ranges, other: Ranges) -> Ranges:
    """The characters of both."""
    found = ((max(a, c), min(b, d)) for a, b in one for c, d in other)
    return ranges(it for it in found if it[0] <= it[1])


@dataclass(frozen=True)
class Characters:
    """One character of a set: of ranges, and of properties as they are written, as `\\p{L}`."""

    ranges: Ranges
    properties: tuple[str, ...] = ()
    is_negated: bool = False
    #: Whether upper and lower case are the same, as after `(?i)`.
    is_folded: bool = False
    #: Those that are taken away.
    without: tuple[Characters, ...] = ()

    @property
    def is_plain(self) -> bool:
        """Whether the ranges say it all."""
        return not (self.properties or self.is_negated or self.is_folded or self.without)

    @property
    def is_empty(self) -> bool:
        """Whether the set is known to have no character."""
        return self.is_plain and not self.ranges

    @property
    def size(self) -> int:
        """About how large the set is when `regex` has compiled it."""
        return 1 + len(self.ranges) + (500 if self.properties or self.is_folded else 0) + sum(
            it.size for it in self.without)

    def minus(self, other: Characters) -> Characters:
        """The characters of this set that aren't in the other."""
        if self.is_plain and other.is_plain:
            return Characters(common(self.ranges, complement(other.ranges)))
        return Characters(self.ranges, self.properties, self.is_negated, self.is_folded, (*self.without, other))

    def both(self, other: Characters) -> Characters:
        """The characters of both sets."""
        if self.is_plain and other.is_plain:
            return Characters(common(self.ranges, other.ranges))
        return self.minus(other.opposite())

    def opposite(self) -> Characters:
        """All other characters."""
        if self.is_plain:
            return Characters(complement(self.ranges))
        if self.without:
            return Characters(ANY.ranges, is_folded=self.is_folded, without=(self,))
        return Characters(self.ranges, self.properties, not self.is_negated, self.is_folded)

    def written(self) -> str:
        """The set as `regex` reads it, where the case counts as it does here."""
        if self.is_plain:
            if len(self.ranges) == 1 and self.ranges[0][0] == self.ranges[0][1]:
                return literal(self.ranges[0][0], _OUTSIDE)
            if self.ranges == ANY.ranges:
                return "(?s:.)"
        return self.in_brackets()

    def in_brackets(self) -> str:
        """The same as a class."""
        inside = self._inside()
        return f"[{inside}{''.join('--' + it.in_brackets() for it in self.without)}]" if self.without else inside

    def _inside(self) -> str:
        """The class without what is taken away."""
        members, is_negated = self.ranges, self.is_negated
        others = complement(members)
        if not self.properties and not self.is_folded and len(others) < len(members):
            members, is_negated = others, not is_negated
        if not members and not self.properties:
            # (No class is empty.)
            members, is_negated = ((0, GREATEST),), not is_negated
        return f"[{'^' if is_negated else ''}{''.join(map(_range, members))}{''.join(self.properties)}]"


def _range(given: tuple[int, int]) -> str:
    first, last = given
    one = literal(first, _IN_CLASS)
    if first == last:
        return one
    return one + ("-" if last > first + 1 else "") + literal(last, _IN_CLASS)


def literal(code: int, special: frozenset[str]) -> str:
    """A character as it stands for itself."""
    character = chr(code)
    if character in special:
        return "\\" + character
    return character if " " <= character <= "~" or character.isalpha() else f"\\x{{{code:X}}}"


def one(character: str) -> Characters:
    """The set of one character."""
    return Characters(ranges([(ord(character), ord(character))]))


ANY = Characters(ranges([(0, GREATEST)]))
DIGITS = ranges([(0x30, 0x39)])
WORDS = ranges([(0x30, 0x39), (0x41, 0x5A), (0x5F, 0x5F), (0x61, 0x7A)])
#: ECMA-262's white space and line ends: those of Unicode's category Zs, and these.
SPACES = ranges([(0x09, 0x0D), (0x20, 0x20), (0xA0, 0xA0), (0x1680, 0x1680), (0x2000, 0x200A), (0x2028, 0x2029),
                 (0x202F, 0x202F), (0x205F, 0x205F), (0x3000, 0x3000), (0xFEFF, 0xFEFF)])
LINE_ENDS = ranges([(0x0A, 0x0A), (0x0D, 0x0D), (0x2028, 0x2029)])
#: What `\d`, `\w`, `\s` and `.` are, and their opposites.
CLASSES = {"d": DIGITS, "w": WORDS, "s": SPACES, "D": complement(DIGITS), "W": complement(WORDS),
           "S": complement(SPACES)}
DOT = Characters(complement(LINE_ENDS))
