"""A schema document, each of its schemas, and the URIs that they have."""
from __future__ import annotations

import json
import math
from collections.abc import Iterable, Iterator, Sequence
from typing import Any, NamedTuple, Optional
from urllib.parse import unquote

from .dialects import LATEST, dialect_of
from .locations import LISTS, OBJECTS, pointer, steps
from .originals import Original, hides, identifier, original, own_dialect
from .sources import Source
from .uris import document_of, fragment_of, joined, with_pointer, without_fragment

Tokens = tuple[str, ...]

#: The keywords whose value is a schema. (`items` may be a list of them, `dependencies` an object, in older drafts.)
SCHEMAS = frozenset({"additionalItems", "additionalProperties", "contains", "contentSchema", "else", "if", "items",
                     "not", "propertyNames", "then", "unevaluatedItems", "unevaluatedProperties"})
DEFINITIONS = ("$defs", "definitions")
# Those of draft-03 that may have schemas, beside names of types.
_OF_THREE = ("disallow", "extends", "type")
REFERENCES = ("$ref", "$dynamicRef", "$recursiveRef")
ANCHORS = ("$anchor", "$dynamicAnchor")


class Schema(NamedTuple):
    """A schema that is an object, its tokens, and its base URI."""

    value: dict[str, Any]
    tokens: Tokens
    base: str

    def references(self) -> Iterator[tuple[str, str]]:
        """The keywords that refer to another schema, and the references as they are written."""
        for keyword in REFERENCES:
            reference = self.value.get(keyword)
            if isinstance(reference, str):
                yield keyword, reference


class Document:
    """A schema document under a URI."""

    def __init__(self, uri: str, source: Source, value: Any, assumed: int = LATEST) -> None:
        self.uri, self.source, self.value = uri, source, value
        #: Its dialect: what is assumed where it names none.
        self.dialect = dialect_of(value, assumed)
        self.schemas: list[Schema] = []
        #: The tokens of every schema, also of those that are booleans.
        self.places: set[Tokens] = set()
        #: The tokens of each resource by its URI (see `document_of`), and of each anchor by that with the fragment.
        self.targets: dict[str, Tokens] = {}
        #: The dialect of each resource, by its tokens.
        self.roots: dict[Tokens, int] = {(): self.dialect}
        self._expected = 0

    def expect(self, keywords: Iterable[Tokens]) -> None:
        """Says of which keywords the places in the source will be asked for, so that they are found together: at the
        second call with those of all others."""
        self.source.expect(pointer([*it]) for it in keywords)
        self._expected += 1
        if self._expected == 2:
            self.source.expect(pointer([*it.tokens, keyword]) for it in self.schemas for keyword in it.value)

    def dialect_of(self, tokens: Tokens) -> int:
        """The dialect of the schema with these tokens."""
        return next(self.roots[tokens[:length]] for length in range(len(tokens), -1, -1)
                    if tokens[:length] in self.roots)


class Target(NamedTuple):
    """What a URI names."""

    document: Document
    tokens: Tokens


def document(uri: str, source: Source, assumed: int = LATEST) -> Document:
    """The document of a text, of the dialect that is assumed if it names none. Raises `ValueError` or `RecursionError`
    where it isn't JSON."""
    value = json.loads(source.json.decode(), parse_constant=_no_constant, parse_int=_whole)
    # (What Python's reader takes and the validator doesn't, such as a lone surrogate, has its place all the same.)
    source.trust()
    return document_with(uri, source, value, assumed)


def document_with(uri: str, source: Source, value: Any, assumed: int = LATEST) -> Document:
    """The same of a text whose value is known."""
    made = Document(uri, source, value, assumed)
    made.targets[document_of(uri)] = ()
    _visit(made, value, (), without_fragment(uri), made.dialect)
    return made


class Targets:
    """What URIs name in documents that refer to one another. (The first of two with one URI has it.)"""

    def __init__(self, documents: Iterable[Document]) -> None:
        self._named: dict[str, Target] = {}
        for document in documents:
            for name, tokens in document.targets.items():
                self._named.setdefault(name, Target(document, tokens))

    def has_resource(self, uri: str) -> bool:
        """Whether a document, or a resource in one, has the URI."""
        return uri in self._named

    def target(self, uri: str) -> Optional[Target]:
        """What the fragment of a URI names: by a JSON Pointer, it may be less than a schema."""
        resource = document_of(uri)
        try:
            fragment = unquote(fragment_of(uri), errors="strict")
        except UnicodeDecodeError:
            return None
        if fragment and not fragment.startswith("/"):
            return self._named.get(f"{resource}#{fragment}")
        root = self._named.get(resource)
        return None if root is None else root._replace(tokens=(*root.tokens, *steps(fragment)))


def value_of(target: Target) -> Any:
    """The value at a place; None where there is nothing."""
    value = target.document.value
    try:
        for token in target.tokens:
            value = value[int(token)] if isinstance(value, list) else value[token]
    except (LookupError, TypeError, ValueError):
        return None
    return value


def expect(targets: Iterable[Optional[Target]]) -> None:
    """Says of which keywords the places will be asked for (see `Document.expect`)."""
    keywords: dict[int, tuple[Document, list[Tokens]]] = {}
    for it in targets:
        if it is not None:
            keywords.setdefault(id(it.document), (it.document, []))[1].append(it.tokens)
    for document, tokens in keywords.values():
        document.expect(tokens)


def original_of(uri: str, documents: Sequence[Document]) -> Optional[tuple[Document, Original]]:
    """What in the documents becomes that which a URI names once they are upgraded: the URI of a resource, with a JSON
    Pointer of the upgraded document as its fragment. None where nothing does."""
    resource = document_of(uri)
    for document in documents:
        root = document.targets.get(resource)
        if root is None:
            continue
        value = document.value
        for token in root:
            value = value[int(token)] if isinstance(value, list) else value[token]
        found = original(value, steps(unquote(fragment_of(uri), errors="replace")), document.roots[root])
        return None if found is None else (document, found._replace(tokens=(*root, *found.tokens)))
    return None


def original_location(uri: str, documents: Sequence[Document]) -> str:
    """The absolute location of a keyword in the documents, by that in the upgraded ones: a URI as for `original_of`.
    Where nothing becomes that keyword, the location is the upgraded one."""
    found = original_of(uri, documents)
    if found is None:
        return uri
    root = found[0].targets[document_of(uri)]
    return with_pointer(uri, found[1].tokens[len(root):])


def subschemas(schema: dict[str, Any], dialect: int) -> Iterator[tuple[Tokens, Any]]:
    """The schemas that the keywords of a schema hold, with their tokens from there."""
    for keyword, value in schema.items():
        if isinstance(value, list) and (keyword in LISTS or keyword == "items" and dialect < 5):
            yield from (((keyword, str(index)), item) for index, item in enumerate(value))
        elif isinstance(value, dict) and (keyword in OBJECTS or keyword == "dependencies" and dialect < 4):
            yield from (((keyword, name), it) for name, it in value.items() if not isinstance(it, list))
        elif keyword in _OF_THREE and dialect == 0:
            if isinstance(value, dict):
                yield (keyword,), value
            elif isinstance(value, list):
                yield from (((keyword, str(index)), it) for index, it in enumerate(value) if isinstance(it, dict))
        elif keyword in SCHEMAS and isinstance(value, (dict, bool)):
            yield (keyword,), value


def is_whole(value: Any) -> bool:
    """Whether a value of a document is an integer."""
    return isinstance(value, int) and not isinstance(value, bool)


def is_number(value: Any) -> bool:
    """Whether a value of a document is a number that can be compared."""
    return is_whole(value) or isinstance(value, float) and math.isfinite(value)


def _whole(digits: str) -> int:
    """An integer. (Python reads none of thousands of digits: of those, one that is as far beyond 64 bits.)"""
    return int(digits[:100])


def _no_constant(name: str) -> float:
    raise ValueError(f"JSON has no {name}")


def _visit(document: Document, value: Any, tokens: Tokens, base: str, around: int) -> None:
    document.places.add(tokens)
    if not isinstance(value, dict):
        return
    dialect = own_dialect(value, around) if tokens else around
    name = None if hides(value, dialect) else value.get(identifier(dialect))
    if isinstance(name, str):
        if name.startswith("#") and dialect < 4:
            # (What is an anchor since 2019-09.)
            document.targets[document_of(base) + name] = tokens
        else:
            base = without_fragment(joined(base, name))
            document.targets[document_of(base)] = tokens
            document.roots[tokens] = dialect
    for keyword in ANCHORS:
        if isinstance(value.get(keyword), str):
            document.targets[f"{document_of(base)}#{value[keyword]}"] = tokens
    document.schemas.append(Schema(value, tokens, base))
    for below, child in subschemas(value, dialect):
        _visit(document, child, tokens + below, base, dialect)
