"""Patterns that the validator doesn't read, with the part that it doesn't."""
from __future__ import annotations

import re
from collections.abc import Iterator, Sequence
from typing import Callable, NamedTuple, Optional

from ..errors import Refused
from ..patterns import Combination, left, texts_of
from ..patterns.keywords import of_names, of_pattern
from ..patterns.nodes import looks
from ..patterns.syntax import NotRead, Read
from ..resources import Document, Tokens
from .finding import ERROR, Found

#: Whether the validator refuses a schema document; and where.
Judge = Callable[[object], Optional[Refused]]

# (In a class `(?=` is four characters, and `\b` a backspace.)
_PART = re.compile(r"(?P<escaped>\\(?:(?P<named>k<\w+>|g\{?\w+)|(?P<number>[1-9]\d*)|(?P<control>c[A-Za-z])|.))"
                   r"|(?P<class>\[\^?\]?(?:\\.|[^\]\\])*\])|(?P<look>\(\?<?[=!])|(?P<atomic>\(\?>)", re.DOTALL)
_PARTS = {"named": "a back-reference", "number": "a back-reference", "control": "a control character",
          "atomic": "an atomic group"}
_LOOK = re.compile(r"\(\?<?[=!]")
_LOOKS = {"(?=": "look-ahead", "(?!": "negative look-ahead", "(?<=": "look-behind", "(?<!": "negative look-behind"}
_PROPERTY = re.compile(r"\\[pP](?:\{[^}]*\}|[A-Za-z])")


class _Pattern(NamedTuple):
    """A pattern of a schema: its tokens, whether it is a name, its text, and what the validator gets for it."""

    tokens: Tokens
    is_name: bool
    text: str
    given: list[str]


class _Fault(NamedTuple):
    """Why a pattern isn't read, and from which of its characters to which one; None for the whole."""

    message: str
    part: Optional[tuple[int, int]] = None


_NONE = _Fault("it isn't a regular expression of `regex`")


def unread(document: Document, is_rewritten: bool, judge: Judge) -> Iterator[Found]:
    """The patterns that the validator refuses; where they are rewritten, those that it refuses then."""
    for pattern, refused in _refused(list(_patterns(document, is_rewritten)), judge):
        fault = _fault(pattern, refused, is_rewritten, judge)
        yield Found("pattern", ERROR, pattern.tokens, pattern.is_name,
                    f"the validator doesn't read this pattern: {fault.message}", part=fault.part)


def _patterns(document: Document, is_rewritten: bool) -> Iterator[_Pattern]:
    for schema in document.schemas:
        dialect = document.dialect_of(schema.tokens)
        pattern, names = schema.value.get("pattern"), schema.value.get("patternProperties")
        if isinstance(pattern, str):
            made = of_pattern(schema.value, dialect) if is_rewritten else None
            yield _Pattern((*schema.tokens, "pattern"), False, pattern, _given(pattern, made))
        of_name = of_names(schema.value, dialect) if is_rewritten else {}
        for name in names if isinstance(names, dict) else ():
            weaker, whole = of_name.get(name, (None, None))
            yield _Pattern((*schema.tokens, "patternProperties", name), True, name, _given(name, whole or weaker))


def _given(pattern: str, made: Optional[Combination]) -> list[str]:
    return [pattern] if made is None else texts_of(made)


def _refused(patterns: Sequence[_Pattern], judge: Judge) -> Iterator[tuple[_Pattern, Refused]]:
    """Those that the validator refuses. It names the first, so it is asked once more for each."""
    while patterns:
        texts = [(index, text) for index, it in enumerate(patterns) for text in it.given]
        refused = judge({"allOf": [{"pattern": text} for _, text in texts]})
        if refused is None or refused.place is None or not refused.place.startswith("/allOf/"):
            return
        index, _ = texts[int(refused.place.split("/")[2])]
        yield patterns[index], refused
        patterns = patterns[index + 1:]


def _fault(pattern: _Pattern, refused: Refused, is_rewritten: bool, judge: Judge) -> _Fault:
    """What the validator doesn't read in a pattern, or what can't be rewritten."""
    text = pattern.text
    if refused.kind != "BadPattern":
        return _Fault(refused.meaning)
    if not is_rewritten:
        return _part(text) or _NONE
    try:
        places = looks(Read(text).alternatives)
    except NotRead as error:
        return _part(text, False) or _Fault(f"it isn't a regular expression of ECMA-262 (see character {error.at + 1})",
                                            (error.at, error.at + 1) if error.at < len(text) else None)
    place = left(text)
    if place is not None:
        return _look(text, place, "can't be rewritten exactly")
    if places and pattern.given == [text]:
        return _look(text, places[0], "needs a name alone, with `additionalProperties: false`" if pattern.is_name
                     else "can't be rewritten in this schema")
    return _property(text, judge) or _NONE


def _part(pattern: str, has_look: bool = True) -> Optional[_Fault]:
    """The first part that `regex` doesn't have; a look-around may be one."""
    for found in _PART.finditer(pattern):
        if found["look"] and has_look:
            return _look(pattern, found.start(), "`regex` doesn't have")
        for name, what in _PARTS.items():
            if found[name]:
                return _at(found, f"{what}, which `regex` doesn't have")
    return None


def _look(pattern: str, at: int, why: str) -> _Fault:
    found = _LOOK.match(pattern, at)
    assert found is not None
    return _at(found, f"a {_LOOKS[found[0]]}, which {why}")


def _property(pattern: str, judge: Judge) -> Optional[_Fault]:
    """The first property of characters that `regex` doesn't know."""
    for found in _PROPERTY.finditer(pattern):
        if judge({"pattern": found[0]}) is not None:
            return _at(found, "a property of characters that `regex` doesn't have")
    return None


def _at(found: re.Match[str], what: str) -> _Fault:
    return _Fault(f"`{found[0]}` at {found.start() + 1} is {what}", found.span())
