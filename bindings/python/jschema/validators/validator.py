"""A validator for one schema."""
from __future__ import annotations

from collections.abc import Iterator, Mapping
from typing import Any, NoReturn, Optional

from ..engine import Engine
from ..errors import Refused
from ..outputs import parse
from ..resources import Document
from ..schemas import Schemas
from ..upgrading import Upgrade
from ..values import text_of_value
from .errors import DetailedError, SchemaError
from .registries import gathered
from .relevance import best_match
from .trees import Reading, locations


class Validator:
    """A validator for one schema, with the calls of pip's `jsonschema`.

    The schema is a dict or a bool. It is checked here, once; whatever is passed afterwards is an instance: a value, so
    that a str is a string. `registry` has the documents that the schema refers to: a `referencing.Registry`, or a
    mapping of URIs to schemas. Raises `SchemaError` for a schema that the validator refuses, also for a reference that
    leads nowhere.

    A schema of an older draft (draft-03 to 2019-09) is upgraded to 2020-12. One that names no dialect is of the
    `default_dialect`, as for `Schemas`.

    Each call raises `Refused` for an instance that has no verdict, and what those of `Schemas` raise otherwise. It may
    be used from any thread.
    """

    def __init__(self, schema: Any, registry: Optional[Mapping[str, Any]] = None, *,
                 engine: Optional[Engine] = None, default_dialect: Optional[str] = None) -> None:
        self.schema = schema
        self._registry, self._default_dialect = registry, default_dialect
        try:
            self._documents = gathered(schema, registry, Upgrade(default_dialect, True).assumed)
            self._schemas = Schemas([(it.uri, it.source.json) for it in self._documents], engine=engine,
                                    default_dialect=default_dialect)
        except Refused as refused:
            _raise_schema_error(refused)

    @classmethod
    def check_schema(cls, schema: Any) -> None:
        """Raises `SchemaError` for a schema that the validator refuses. References to other documents may lead nowhere
        here."""
        try:
            Schemas([(it.uri, it.source.json) for it in gathered(schema, None)]).close()
        except Refused as refused:
            if refused.kind != "Unresolved":
                _raise_schema_error(refused)

    def is_valid(self, instance: Any) -> bool:
        """Whether an instance is valid."""
        return self._schemas.is_valid(self._entry.uri, text_of_value(instance))

    def iter_errors(self, instance: Any) -> Iterator[DetailedError]:
        """Each error of an instance, with those that led to it in its `context`."""
        text = text_of_value(instance)
        # (Most instances are valid, and need no tree.)
        if not self._schemas.is_valid(self._entry.uri, text):
            tree = parse(self._schemas.check(self._entry.uri, text, "detailed").text)
            read = self._schemas.text_of(text)
            read.expect(locations(tree))
            yield from Reading(self._documents, instance, read, self._holds).errors(tree)

    def validate(self, instance: Any) -> None:
        """Raises the best error (see `best_match`) unless the instance is valid."""
        best = best_match(self.iter_errors(instance))
        if best is not None:
            raise best

    def evolve(self, schema: Any) -> Validator:
        """A validator for another schema with the same registry."""
        return Validator(schema, self._registry, default_dialect=self._default_dialect)

    def _holds(self, uri: str, value: Any) -> bool:
        return self._schemas.is_valid(uri, text_of_value(value))

    @property
    def _entry(self) -> Document:
        return self._documents[0]

    def __repr__(self) -> str:
        return f"Validator({self.schema!r})"


def validator_for(schema: Any, registry: Optional[Mapping[str, Any]] = None, *,
                  default_dialect: Optional[str] = None) -> Validator:
    """The validator for a schema."""
    return Validator(schema, registry, default_dialect=default_dialect)


def validate(instance: Any, schema: Any, registry: Optional[Mapping[str, Any]] = None) -> None:
    """Checks a schema, and an instance against it, once. Raises `SchemaError`, or the best error."""
    Validator(schema, registry).validate(instance)


def _raise_schema_error(refused: Refused) -> NoReturn:
    error = SchemaError(refused.subject, refused.kind, refused.place, refused.index, refused.document)
    error.meaning, error.is_upgraded = refused.meaning, refused.is_upgraded
    raise error from None
