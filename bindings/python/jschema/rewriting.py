"""Schema documents as people write them, rewritten before the validator gets them: patterns of ECMA-262 in the syntax
of the crate `regex`, numbers with fractions as integers. That they say the same then is tested, and not proved.

What can't be rewritten exactly is left as it is, and refused as it is without this.
"""
from __future__ import annotations

import json
import re
from collections.abc import Mapping, Sequence
from typing import Any, NamedTuple, Optional, Union

from .changes import Change
from .interface import REWRITING
from .limits import LARGEST_TEXT
from .numbers import Number, exact_text, exact_value, is_taken, number, without_floats, written
from .numbers_keywords import exact, texts
from .resources import Document, Targets, document, document_with
from .restoring import Place, Restoring
from .sources import JsonSource
from .uris import fragment_of, joined, with_pointer
from .values import text_of

# What a document has that may change.
_PATTERN = re.compile(rb"pattern|\\u00")
_NUMBER = re.compile(rb"[0-9][.eE]|-0|[0-9]{19}")
_NAMES = "patternProperties"
_TYPES, _INTEGERS = ("type", "disallow"), "integer"
# The first dialect in which `1.0` is an integer; what a document has that names an earlier one, or asks for integers.
_SIX = 2
_OLD = re.compile(rb"draft-0[34]|\\u00[2-7]")
_INTEGER = re.compile(rb"integer|\\u00[67]")
_Tokens = tuple[str, ...]


class Options(NamedTuple):
    """What is rewritten, as `Schemas` has it: `patterns` is `ecma` or None, `numbers` is `exact`, `texts` or None."""

    patterns: Optional[str] = None
    numbers: Optional[str] = None


def options_of(words: Mapping[str, Optional[str]]) -> Options:
    """What words of `REWRITING` ask for, by the names of the options. Each has its default where there is none."""
    return Options(_asked("patterns", words), _asked("numbers", words))


def _asked(name: str, words: Mapping[str, Optional[str]]) -> Optional[str]:
    default, *_, last = REWRITING[name][1]
    word = words.get(name) or default
    return None if word == last else word


class Rewritten(NamedTuple):
    """A document with its schemas, whose value is rewritten, and what became of keywords in each schema."""

    document: Document
    #: Whether it has a number that is written otherwise now.
    has_numbers: bool
    changes: list[tuple[_Tokens, Change]]
    #: What a name in `patternProperties` became, by the tokens that it had.
    names: dict[_Tokens, str]

    def now(self, tokens: _Tokens) -> _Tokens:
        """The tokens that something has now."""
        return tuple(self.names.get(tokens[:index + 1], it) for index, it in enumerate(tokens))

    def places(self) -> dict[_Tokens, Place]:
        """What became of other keywords and names, or has another message, by the tokens now."""
        return {self.now(schema) + it.now: Place((*schema, *it.before), it, it.before[:1] == (_NAMES,))
                for schema, it in self.changes if it.before != it.now or it.message is not None}


class Rewriting:
    """What is rewritten, and the documents that were. Raises `ValueError` for what isn't one of the options.

    `patterns` is `ecma` or None, `numbers` is `exact`, `texts` (where fractions in annotations become texts) or None.
    """

    def __init__(self, patterns: Optional[str], numbers: Optional[str]) -> None:
        for name, given in (("patterns", patterns), ("numbers", numbers)):
            known = [*REWRITING[name][1]][:-1]
            if given is not None and given not in known:
                raise ValueError(f"{name}={given!r}: it is {' or '.join(known)}, or None")
        self._patterns, self.numbers = patterns is not None, numbers is not None
        self._has_texts = numbers == "texts"
        # Whether `1.0` isn't the integer 1.
        self._is_strict = False
        # What names became, and all that are taken.
        self._names: dict[str, str] = {}
        self._taken: set[str] = set()
        # The entry that was looked up last.
        self._entries: dict[str, str] = {}
        #: The documents that may have changed, by their numbers.
        self.documents: dict[int, Rewritten] = {}
        #: What leads from what they are now to what they were.
        self.restoring = Restoring({}, {})

    def texts(self, given: Sequence[tuple[str, bytes]], assumed: int) -> list[tuple[str, bytes]]:
        """The documents, rewritten. One that names no dialect is of the one that is assumed."""
        self._is_strict = self.numbers and any(_has_old_integers(uri, text, assumed) for uri, text in given)
        self.documents = {index: it for index, (uri, text) in enumerate(given)
                          if (it := self._read(uri, text, assumed)) is not None}
        for it in self.documents.values():
            self._taken.update(*(schema.value[_NAMES] for schema in it.document.schemas
                                 if isinstance(schema.value.get(_NAMES), dict)))
        for it in self.documents.values():
            self._rewrite(it)
        self._refer()
        made = [(uri, self._text(index, text)) for index, (uri, text) in enumerate(given)]
        self.restoring = Restoring(self.documents, {now: name for name, now in self._names.items()})
        return made

    def instance(self, text: bytes) -> bytes:
        """The text of an instance, as the validator gets it."""
        return exact_text(text, not self._is_strict) if self.numbers else text

    def value(self, value: Any) -> Any:
        """An instance that is no text yet."""
        is_text = isinstance(value, (bytes, bytearray, memoryview, str))
        return value if is_text or not self.numbers or self._is_strict else exact_value(value)

    def document(self, value: Any) -> Any:
        """A document that is no text yet, as a text where it has fractions. Raises what `text_of` does."""
        if not self.numbers or not isinstance(value, dict):
            return value
        checked = without_floats(value)
        text_of(checked)
        try:
            return json.dumps(value, allow_nan=False)
        except ValueError:
            return value

    def entry(self, uri: str) -> str:
        """The URI that an entry has now."""
        if not self._names or _NAMES not in uri:
            return uri
        known = self._entries
        if uri not in known:
            self._entries = known = {uri: self.restoring.renamed(uri, self._names)}
        return known[uri]

    def _read(self, uri: str, text: bytes, assumed: int) -> Optional[Rewritten]:
        """A document that may change. None for one that can't be read: the validator says why."""
        if len(text) > LARGEST_TEXT or not (self._patterns and _PATTERN.search(text)
                                            or self.numbers and _NUMBER.search(text)):
            return None
        odd: list[str] = []

        def exactly(digits: str) -> Union[int, Number]:
            if not is_taken(digits):
                odd.append(digits)
            return number(digits)

        whole = exactly if self.numbers else _within
        try:
            value = json.loads(text.decode(), parse_int=whole, parse_float=whole, parse_constant=_no_constant)
            document = document_with(uri, JsonSource("json", text, text), value, assumed)
        except (ValueError, RecursionError):
            return None
        return Rewritten(document, bool(odd), [], {})

    def _rewrite(self, made: Rewritten) -> None:
        # (Imported where it is needed, so that a validation starts sooner.)
        from .patterns.keywords import rewrite_names, rewrite_pattern
        for schema in reversed(made.document.schemas):
            dialect = made.document.dialect_of(schema.tokens)
            if self.numbers:
                made.changes.extend((schema.tokens, it) for it in exact(schema.value, dialect))
                if self._has_texts:
                    texts(schema.value, dialect)
            if self._patterns:
                made.changes.extend((schema.tokens, it) for it in rewrite_pattern(schema.value, dialect))
                for it in rewrite_names(schema.value, dialect, self._free):
                    made.changes.append((schema.tokens, it))
                    if it.before[0] == _NAMES:
                        made.names[(*schema.tokens, *it.before)] = it.now[1]

    def _free(self, name: str, text: str) -> str:
        """The name that a name becomes: each one another, and none that was there."""
        if name == text:
            return name
        if name not in self._names:
            while text in self._taken:
                text += "(?:)"
            self._taken.add(text)
            self._names[name] = text
        return self._names[name]

    def _refer(self) -> None:
        """Rewrites the references that lead through names that are others now."""
        if not self._names:
            return
        made_of = {id(it.document): it for it in self.documents.values()}
        targets = Targets(it.document for it in self.documents.values())
        for made in self.documents.values():
            for schema in made.document.schemas:
                for keyword, reference in [*schema.references()]:
                    referred = _referred(reference, joined(schema.base, reference), targets, made_of)
                    if referred != reference:
                        schema.value[keyword] = referred
                        made.changes.append((schema.tokens, Change((keyword,), (keyword,))))

    def _text(self, index: int, text: bytes) -> bytes:
        made = self.documents.get(index)
        if made is None or not made.has_numbers and not made.changes:
            return text
        try:
            return json.dumps(written(made.document.value), ensure_ascii=False, separators=(",", ":")).encode()
        except UnicodeEncodeError:
            # (A lone surrogate is refused.)
            return text


def _referred(reference: str, uri: str, targets: Targets, made_of: dict[int, Rewritten]) -> str:
    """A reference to what has this URI."""
    fragment = fragment_of(uri)
    found = targets.target(uri) if _NAMES in fragment and fragment.startswith("/") else None
    if found is None:
        return reference
    made = made_of[id(found.document)].now(found.tokens)
    if made == found.tokens:
        return reference
    return with_pointer(reference, made[len(made) - fragment.count("/"):])


def _has_old_integers(uri: str, text: bytes, assumed: int) -> bool:
    """Whether a document, or a part of it, is of a draft in which `1.0` is no integer, and asks for integers. (It may
    say so of one where only a value looks like that.)"""
    if not (assumed < _SIX or _OLD.search(text)) or not _INTEGER.search(text) or len(text) > LARGEST_TEXT:
        return False
    try:
        found = document(uri, JsonSource("json", text, text), assumed)
    except (ValueError, RecursionError):
        # (The validator refuses it.)
        return False
    return min(found.roots.values()) < _SIX and _names_integer(found.value)


def _names_integer(value: Any) -> bool:
    """Whether a `type`, or a `disallow` of draft-03, somewhere in a value names integers."""
    waiting = [value]
    while waiting:
        it = waiting.pop()
        if isinstance(it, dict):
            for keyword in _TYPES:
                named = it.get(keyword)
                if named == _INTEGERS or isinstance(named, list) and _INTEGERS in named:
                    return True
            waiting += it.values()
        elif isinstance(it, list):
            waiting += it
    return False


def _within(digits: str) -> int:
    """An integer as the validator takes it."""
    if not is_taken(digits):
        raise ValueError(f"{digits} is no integer in the range")
    return int(digits)


def _no_constant(name: str) -> float:
    raise ValueError(f"JSON has no {name}")
