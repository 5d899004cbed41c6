"""What the client has opened and set, and the schema of each document."""
from __future__ import annotations

import os
import re
from collections.abc import Iterable
from typing import NamedTuple, Optional
from urllib.parse import unquote

from ..rewriting import options_of
from .documents import Document
from .ranges import Span, path_of
from .schemas import SchemaSet, Store
from .settings import Named, Settings

_SCHEME = re.compile("[A-Za-z][A-Za-z0-9+.-]+:")
_DIALECT = re.compile(r"https?://json-schema\.org/.*schema#?")
_SCHEMA_NAME = re.compile(r".*[.-]schema\.(?:json|jsonc|ya?ml)")
#: The comment in which a YAML file names its schema.
_COMMENT = re.compile(r"^#[ \t]*(?:yaml-language-server:[ \t]*)?\$schema[=:][ \t]*(\S+)[ \t]*$", re.MULTILINE)
# The member in which a file that can't be read names its schema, near its beginning.
_MEMBER = re.compile(r"[\"']?\$schema[\"']?[ \t]*[:=][ \t]*[\"']?([^\"'\s,}]+)")
_NEAR = 4096


class Choice(NamedTuple):
    """The schema of a document: a set, and the URI in it to begin with."""

    set: SchemaSet
    entry: str


class Unknown(NamedTuple):
    """A schema that a document names, and that isn't there."""

    name: str


class Workspace:
    """The open documents, the settings and the schemas."""

    def __init__(self) -> None:
        self.folder = os.getcwd()
        self.settings = Settings()
        #: The open documents by their URIs.
        self.documents: dict[str, Document] = {}
        self.store = Store(self._opened)
        # The schema that each document named when it could last be read.
        self._named: dict[str, Optional[str]] = {}

    def configure(self, given: Iterable[Settings]) -> None:
        """Takes settings in place of those of before. The first ones count most."""
        self.settings = Settings()
        for it in given:
            self.settings.associations += it.associations
            self.settings.references += it.references
            self.settings.rewriting = {**it.rewriting, **self.settings.rewriting}
        self.store.configure(self.settings.references, options_of(self.settings.rewriting))

    def open(self, document: Document) -> None:
        """Takes a document that was opened."""
        self.documents[document.uri] = document

    def close(self, uri: str) -> None:
        """Forgets a document that was closed."""
        self.documents.pop(uri, None)
        self._named.pop(uri, None)

    def is_schema(self, document: Document) -> bool:
        """Whether a document is a schema itself: by its dialect or its name, or since it is used as one."""
        named = self.name_of(document)
        if named is not None:
            return _DIALECT.fullmatch(named) is not None
        path = document.path
        return path is not None and (_SCHEMA_NAME.fullmatch(path.lower()) is not None or self.store.using(path))

    def name_of(self, document: Document) -> Optional[str]:
        """The schema that a document names itself. Of one that can't be read it is that of before, or what stands
        where it should."""
        if document.reading().fault is None:
            self._named[document.uri] = _name_in(document)
        elif self._named.get(document.uri) is None:
            found = _MEMBER.search(document.text, 0, _NEAR)
            self._named[document.uri] = found[1] if found else None
        return self._named[document.uri]

    def choice_of(self, document: Document) -> Optional[Choice | Unknown]:
        """The schema of a document; None where nothing says which."""
        if self.is_schema(document):
            return None
        name = self.name_of(document)
        folder = self.folder if document.path is None else os.path.dirname(document.path)
        if name is not None:
            return self.schema_of(name, folder)
        association = None if document.path is None else self.settings.schema_of(document.path)
        return None if association is None else self.schema_of(association.schema, association.folder)

    def known_choice_of(self, document: Document) -> Optional[Choice]:
        """The same; None also where that schema isn't there."""
        choice = self.choice_of(document)
        return choice if isinstance(choice, Choice) else None

    def schema_of(self, named: Named, folder: str) -> Choice | Unknown:
        """The schema with a name: a URL, or a path from a folder; or the schema that stands in a setting."""
        if not isinstance(named, str):
            made = self.store.set_of_value(named, folder)
            return Choice(made, made.entry)
        name, mark, fragment = named.partition("#")
        path = self._path(name, folder)
        found = None if path is None else self.store.set_of(path)
        if found is None:
            return Unknown(named)
        return Choice(found, f"{found.entry.partition('#')[0]}#{fragment}" if mark else found.entry)

    def set_of_schema(self, document: Document) -> Optional[SchemaSet]:
        """The set of a document that is a schema itself."""
        return None if document.path is None else self.store.set_of(document.path)

    def users_of(self, changed: Document) -> list[Document]:
        """The other open documents whose diagnostics depend on a schema that has changed."""
        if changed.path is None or not self.store.using(changed.path):
            return []
        others = [it for it in self.documents.values() if it is not changed]
        return [it for it in others if changed.path in self._paths_of(it)]

    def _paths_of(self, document: Document) -> list[str]:
        """The files of the schema of a document."""
        choice = self.choice_of(document)
        if isinstance(choice, Choice):
            return choice.set.paths()
        own = self.set_of_schema(document) if choice is None and self.is_schema(document) else None
        return [] if own is None else own.paths()

    def _path(self, name: str, folder: str) -> Optional[str]:
        if path := path_of(name):
            return path
        if _SCHEME.match(name):
            return self.store.path_of_uri(name)
        return os.path.normpath(os.path.join(folder, unquote(name)))

    def _opened(self, path: str) -> Optional[Document]:
        return next((it for it in self.documents.values() if it.path == path), None)


def _name_in(document: Document) -> Optional[str]:
    named = document.reading().member("$schema")
    if isinstance(named, str):
        return named
    found = _COMMENT.search(document.text) if document.kind in ("yaml", "toml") else None
    return found[1] if found else None


def place_of_name(document: Document) -> Span:
    """Where a document names its schema."""
    reading = document.reading()
    if reading.member("$schema") is not None:
        return reading.place(reading.sources[0], "/$schema")
    found = _COMMENT.search(document.text)
    return Span(*found.span(1)) if found else Span(0, min(1, len(document.text)))
