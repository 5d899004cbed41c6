"""Schemas as files, with the documents that they refer to: of open documents the text as it is typed, of others the
file. Nothing is fetched."""
from __future__ import annotations

import json
import os
from collections.abc import Hashable, Iterable
from typing import Any, Callable, Optional

from .. import resources
from ..errors import Refused
from ..limits import LARGEST_TEXT
from ..locations import pointer, steps
from ..lookup import Lookup, SchemaFile, file_url, is_absolute, schema_file, schemas_in, walked
from ..resources import Target, value_of
from ..rewriting import Options, options_of
from ..schemas import Schemas
from ..sources import Source, kind_of
from ..uris import document_of, fragment_of, joined
from .documents import Document
from .ranges import Lines
from .reading import Reading


class SchemaText:
    """The text of a schema document: of a file, or of a setting."""

    def __init__(self, path: str, uri: str, text: str, kind: str, stamp: Hashable) -> None:
        self.path, self.kind = path, kind
        #: The client's name of the file; empty for a schema that stands in a setting.
        self.uri = uri
        self.lines = Lines(text)
        self.reading = Reading(text, kind)
        #: Tells this state of the file from others.
        self.stamp = stamp

    @property
    def source(self) -> Optional[Source]:
        """The JSON text, if it can be read."""
        return self.reading.sources[0] if self.reading.sources else None

    @property
    def json(self) -> bytes:
        """The JSON text; of what can't be read the text itself, which the validator then refuses."""
        return self.reading.characters.data if self.source is None else self.source.json

    def registered(self) -> str:
        """The URI to register it under: its `$id`, if that is absolute, else its file's URL."""
        value = self.reading.value
        own = value.get("$id") if isinstance(value, dict) else None
        return own if isinstance(own, str) and is_absolute(own) else file_url(self.path)


class SchemaSet:
    """A schema with the documents that it refers to, registered with the validator."""

    def __init__(self, documents: list[tuple[str, SchemaText]], options: Options) -> None:
        self.documents = documents
        #: What is rewritten in them.
        self.options = options
        self.schemas: Optional[Schemas] = None
        self.refused: Optional[Refused] = None
        try:
            self.schemas = Schemas(((uri, text.json) for uri, text in documents), patterns=options.patterns,
                                   numbers=options.numbers)
        except Refused as refused:
            self.refused = refused
        found = [walked(SchemaFile(text.path, uri, text.source)) for uri, text in documents if text.source is not None]
        #: The documents that can be read, with their schemas.
        self.resources = [it for it in found if it is not None]
        self._targets = resources.Targets(self.resources)

    @property
    def entry(self) -> str:
        """The URI of the schema."""
        return self.documents[0][0]

    def find(self, uri: str) -> Optional[Target]:
        """What an absolute location of the validator names, also that of a keyword; or a URI with an anchor. In a
        schema of an older draft it is what that comes from."""
        if fragment_of(uri)[:1] not in ("", "/"):
            return self._targets.target(uri)
        found = resources.original_of(uri, self.resources)
        return None if found is None else Target(found[0], found[1].tokens)

    def referred(self, location: str, reference: str) -> Optional[Target]:
        """What a reference leads to from the schema at an absolute location."""
        return self._targets.target(joined(location, reference))

    def target(self, place: str) -> Optional[Target]:
        """What the reference that stands at a pointer of the first document leads to."""
        tokens = tuple(steps(place))
        for schema in self.resources[0].schemas if self.resources and tokens else ():
            if schema.tokens == tokens[:-1]:
                reference = dict(schema.references()).get(tokens[-1])
                if reference is None:
                    return None
                return self._targets.target(joined(schema.base, reference))
        return None

    def first_reference_to(self, uri: str) -> Optional[str]:
        """The pointer of the first document's first reference to another document."""
        for schema in self.resources[0].schemas if self.resources else ():
            for keyword, reference in schema.references():
                if document_of(joined(schema.base, reference)) == document_of(uri):
                    return pointer([*schema.tokens, keyword])
        return None

    def schema(self, uri: str) -> Any:
        """The value at a URI; None where there is nothing."""
        found = self.find(uri)
        return None if found is None else value_of(found)

    def location(self, target: Target) -> Optional[dict[str, Any]]:
        """A place as the protocol has it; None if it isn't in a file."""
        text = next(it for uri, it in self.documents if uri == target.document.uri)
        if not text.uri or text.source is None:
            return None
        try:
            span = text.reading.place(text.source, pointer([*target.tokens]), is_name=True)
        except LookupError:
            return None
        return {"uri": text.uri, "range": text.lines.range(*span)}

    def paths(self) -> list[str]:
        """The files that it was made of."""
        return [text.path for _, text in self.documents if text.uri]

    @property
    def is_complete(self) -> bool:
        """Whether all documents were found that it refers to."""
        return self.refused is None or self.refused.kind != "Unresolved"


class Store:
    """The schemas that were read."""

    def __init__(self, opened: Callable[[str], Optional[Document]]) -> None:
        # The open document of a path, if there is one.
        self._opened = opened
        self._folders: list[str] = []
        self._options = options_of({})
        self._texts: dict[str, SchemaText] = {}
        self._sets: dict[str, SchemaSet] = {}
        self._lookup = Lookup([], beside=True)
        self._by_uri: Optional[dict[str, str]] = None

    def configure(self, folders: Iterable[str], options: Options) -> None:
        """Takes folders in which documents are found by their URI, and what is rewritten."""
        self._folders, self._options = [*folders], options
        self.forget()

    def forget(self) -> None:
        """Forgets which documents were found, since files have changed."""
        self._sets.clear()
        self._lookup = Lookup(self._folders, beside=True)
        self._by_uri = None

    def path_of_uri(self, uri: str) -> Optional[str]:
        """The file with a schema of a URI, in the folders."""
        if self._by_uri is None:
            self._by_uri = {known: path for folder in self._folders for path, known in _uris_in(folder)}
        return self._by_uri.get(document_of(uri))

    def set_of(self, path: str) -> Optional[SchemaSet]:
        """The schema in a file, as it is now; None if the file can't be read."""
        text = self._text(path)
        return None if text is None else self._fresh(path, text)

    def set_of_value(self, value: Any, folder: str) -> SchemaSet:
        """A schema that stands in a setting. Its references start from a folder."""
        text = json.dumps(value)
        return self._fresh(text, SchemaText(os.path.join(folder, "setting.schema.json"), "", text, "json", text))

    def using(self, path: str) -> bool:
        """Whether a file is part of a set that was made."""
        return any(path in found.paths() for found in self._sets.values())

    def _text(self, path: str) -> Optional[SchemaText]:
        """The text of a file as it is now, or as it was when it could last be read. None if there is none."""
        stamp = self._stamp(path)
        found = self._texts.get(path)
        if stamp is None or found is not None and found.stamp == stamp:
            return None if stamp is None else found
        made = self._read(path, stamp)
        if made is None:
            return None
        if made.reading.fault is not None and found is not None and found.reading.fault is None:
            found.stamp = stamp
            return found
        self._texts[path] = made
        return made

    def _read(self, path: str, stamp: Hashable) -> Optional[SchemaText]:
        document = self._opened(path)
        if document is not None:
            return SchemaText(path, document.uri, document.text, document.kind, stamp)
        try:
            with open(path, "rb") as file:
                text = file.read(LARGEST_TEXT + 1).decode("utf-8", "replace")
        except OSError:
            return None
        return SchemaText(path, file_url(path), text, kind_of(path), stamp)

    def _fresh(self, name: str, text: SchemaText) -> SchemaSet:
        found = self._sets.get(name)
        if found is None or not found.is_complete or not self._is_fresh(found):
            found = self._sets[name] = self._made(text)
        return found

    def _is_fresh(self, found: SchemaSet) -> bool:
        return all(self._stamp(text.path) == text.stamp for _, text in found.documents if text.uri)

    def _made(self, first: SchemaText) -> SchemaSet:
        """The set of a schema: its document, and those that it, or one of them, refers to."""
        documents = [(first.registered(), first)]
        if first.source is not None:
            for taken in self._lookup.taken([SchemaFile(first.path, first.registered(), first.source)]):
                text = self._text(os.path.normpath(taken.file.path))
                if text is not None:
                    documents.append((taken.file.uri, text))
        return SchemaSet(documents, self._options)

    def _stamp(self, path: str) -> Optional[Hashable]:
        document = self._opened(path)
        if document is not None:
            return document.uri, document.version
        try:
            found = os.stat(path)
        except (OSError, ValueError):
            return None
        return found.st_mtime_ns, found.st_size, found.st_ino


def _uris_in(folder: str) -> Iterable[tuple[str, str]]:
    """Each file in a folder that is a schema, with the URIs of its schemas."""
    for path in schemas_in(folder):
        try:
            document = walked(schema_file(path))
        except (OSError, Refused, ImportError, ValueError):
            continue
        for uri in document.targets if document is not None else ():
            if "#" not in uri:
                yield path, uri
