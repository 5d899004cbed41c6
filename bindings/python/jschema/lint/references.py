"""References that lead nowhere, and definitions to which none leads."""
from __future__ import annotations

from collections.abc import Iterable, Iterator, Sequence
from typing import Any

from ..resources import DEFINITIONS, Document, Targets, Tokens
from ..uris import document_of, joined
from .finding import ERROR, WARNING, Found

# A document of definitions for others has nothing else at its root.
_ABOUT = frozenset(("$schema", "$id", "id", "$anchor", "$comment", "$vocabulary", "title", "description", *DEFINITIONS))


class Uses(Targets):
    """What the references of documents lead to, found once for all of them."""

    def __init__(self, documents: Sequence[Document]) -> None:
        super().__init__(documents)
        self._into: dict[int, list[tuple[Document, Tokens, Tokens]]] = {}
        for document in documents:
            for schema in document.schemas:
                for _, reference in schema.references():
                    found = self.target(joined(schema.base, reference))
                    if found is not None:
                        self._into.setdefault(id(found.document), []).append((document, schema.tokens, found.tokens))

    def into(self, document: Document) -> Sequence[tuple[Document, Tokens, Tokens]]:
        """The references that lead into a document: the document and the schema in which each stands, and to what."""
        return self._into.get(id(document), ())


def unresolved(document: Document, uses: Uses) -> Iterator[Found]:
    """The references of a document that lead to no schema of the documents."""
    for schema in document.schemas:
        for keyword, reference in schema.references():
            uri = joined(schema.base, reference)
            found = uses.target(uri)
            if found is None or found.tokens not in found.document.places:
                yield Found("unresolved-reference", ERROR, (*schema.tokens, keyword), False, _why(uri, uses))


def unused(document: Document, uses: Uses) -> Iterator[Found]:
    """The definitions of a document to which no reference leads, but those within themselves."""
    if isinstance(document.value, dict) and not document.value.keys() - _ABOUT:
        return
    definitions = [(*schema.tokens, holder, name) for schema in document.schemas for holder in DEFINITIONS
                   for name in _names(schema.value.get(holder))]
    used = {tokens[:end] for tokens in _dynamic(document) for end in range(1, len(tokens) + 1)}
    for other, at, tokens in uses.into(document):
        used |= {tokens[:end] for end in range(1, len(tokens) + 1)
                 if other is not document or at[:end] != tokens[:end]}
    for tokens in definitions:
        if tokens not in used:
            yield Found("unused-definition", WARNING, tokens, True, f"nothing refers to the definition `{tokens[-1]}`")


def _names(held: Any) -> Iterable[str]:
    return held if isinstance(held, dict) else ()


def _dynamic(document: Document) -> Iterator[Tokens]:
    """The schemas that a `$dynamicRef` may lead to in a way that only an evaluation shows."""
    return (schema.tokens for schema in document.schemas if "$dynamicAnchor" in schema.value)


def _why(uri: str, uses: Uses) -> str:
    resource = document_of(uri)
    if uses.has_resource(resource):
        return f"no schema has the URI {uri}"
    return f"no document has the URI {resource}: give it too"
