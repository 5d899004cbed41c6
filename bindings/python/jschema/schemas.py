"""Schema documents, and what can be asked of them."""
from __future__ import annotations

from collections.abc import Iterator
from types import TracebackType
from typing import Any, Callable, NoReturn, Optional, TypeVar

from .documents import Documents, is_uri_text, texts_of
from .engine import FORMATS, Answer, Engine
from .engines import default_engine
from .errors import Refused, ValidationError, best_first
from .meanings import explain
from .metaschemas import ALL, LATEST_ALONE, metaschemas_for
from .outputs import malformed, parse
from .positions import Text
from .rewriting import Rewriting
from .upgrading import Originals, Upgrade
from .values import Instance, text_of

_Judged = TypeVar("_Judged", bool, Answer)


class Schemas:
    """Schema documents that were read and checked, for as many instances as you like, from any thread.

    A document is a JSON text (bytes or str), a dict or a bool. Documents refer to one another by the URIs that they are
    registered under, or by their `$id`. Nothing is fetched. An `entry` is the URI of the schema to apply: a document's,
    an `$id`, or one of these with a fragment (`places` lists all). An `instance` is a JSON text (bytes or str) or a
    value (see `jschema.values`). The `engine` is by default the library's, or that of the program where there is no
    library.

    Documents of older drafts, from draft-03 to 2019-09, are upgraded to 2020-12 (docs/MIGRATING.md says where the
    verdict differs); `upgrade=False` refuses them. A document that names no dialect is of the `default_dialect`:
    `draft-03`, `draft-04`, `draft-06`, `draft-07`, `2019-09` or `2020-12`, or the URI of one. Locations in outputs are
    those of the upgraded schemas. Meta-schemas that documents refer to are taken from pip's
    `jsonschema-specifications` or Debian's `python3-jsonschema`, where that is installed.

    With `patterns="ecma"` patterns are read as ECMA-262 has them, look-around too where it can be rewritten exactly;
    with `numbers="exact"` schemas may have fractions, and `1.0` is the integer 1. (`"texts"` also makes texts of
    fractions in annotations.) Errors then name the keywords of the documents, and outputs those that they became. This
    is tested, and not proved (docs/MIGRATING.md).

    Each call raises `Refused` for an input that has no verdict, `MemoryError` if memory runs out, `EngineError` if the
    engine fails otherwise, `TypeError` for a value that JSON doesn't have, and `ValueError` after `close`.
    """

    def __init__(self, documents: Documents, *, engine: Optional[Engine] = None, default_dialect: Optional[str] = None,
                 upgrade: bool = True, patterns: Optional[str] = None, numbers: Optional[str] = None) -> None:
        upgrading = Upgrade(default_dialect, upgrade)
        self._rewriting = Rewriting(patterns, numbers)
        self._engine: Optional[Engine] = default_engine() if engine is None else engine
        self._originals: Optional[Originals] = None
        texts: list[tuple[str, bytes]] = []
        try:
            texts = texts_of(documents, self._rewriting.document)
            texts += metaschemas_for(texts, ALL if upgrade else LATEST_ALONE)
            rewritten = self._rewriting.texts(texts, upgrading.assumed)
            for uri, text in rewritten:
                self._engine.add(uri, text)
            if upgrading.may_change(text for _, text in texts):
                self._engine.upgrade(upgrading.uri)
                self._originals = Originals(texts, upgrading.assumed)
            self._engine.finish()
        except BaseException as error:
            self.close()
            if isinstance(error, Refused) and error.index is not None and error.index < len(texts):
                uri, text = texts[error.index]
                if self._originals is not None:
                    upgrading.explain(error, rewritten[error.index][1])
                self._rewriting.restoring.refusal(error)
                explain(error, text, uri)
            raise

    def places(self) -> list[str]:
        """The absolute location of every schema: what can be an entry, or be referred to."""
        return [it for uri in self._open().places() if (it := self.written_schema(uri)) is not None]

    def is_valid(self, entry: str, instance: Instance) -> bool:
        """Whether an instance is valid. No output is made, so this is the quickest call."""
        return self._judge(self._asked(entry).is_valid, entry, text_of(self._rewriting.value(instance)))

    def valid_lines(self, entry: str, text: bytes, begin: int = 0) -> tuple[int, int]:
        """How many lines of a text are valid instances one after another, from the one on that begins at a byte, and
        the byte after them. A line ends with a line feed. So many instances are checked quickest; why the next line
        isn't one of them, the other calls say. (An engine that isn't the library's takes none.)"""
        return self._asked(entry).valid_lines(self._rewriting.entry(entry), text, begin)

    def errors(self, entry: str, instance: Instance) -> list[ValidationError]:
        """The errors of the `basic` output, in its order; none for a valid instance."""
        text = text_of(self._rewriting.value(instance))
        answer = self.check(entry, text, "basic")
        return [] if answer.valid else self.errors_in(answer, self.text_of(text))

    def errors_in(self, answer: Answer, text: Text) -> list[ValidationError]:
        """The errors in a `basic` output of an invalid instance, whose text this is."""
        errors = self._rewriting.restoring.errors(_errors_in(answer, text))
        text.expect(it.instance_location for it in errors)
        if self._originals is not None:
            for error in errors:
                error.absolute_keyword_location = self._originals.location(error.upgraded_location)
        return errors

    def original_location(self, absolute_keyword_location: str) -> str:
        """An absolute location of an output in the schema documents that were passed in. It is another one where these
        were rewritten, or upgraded from an older draft; where nothing in them becomes the keyword, it stays."""
        location = self._rewriting.restoring.location(absolute_keyword_location)
        return location if self._originals is None else self._originals.location(location)

    def written_schema(self, absolute_keyword_location: str) -> Optional[str]:
        """The absolute location of a schema in an output as it was before it was rewritten, which is another one below
        `patternProperties`. None for a schema that the documents didn't have: a pattern became it."""
        return self._rewriting.restoring.schema(absolute_keyword_location)

    def tree_in(self, answer: Answer) -> bytes:
        """The same errors as a tree: a `detailed` output."""
        return self._rewriting.restoring.tree(answer.text)

    def iter_errors(self, entry: str, instance: Instance) -> Iterator[ValidationError]:
        """The same, one by one."""
        return iter(self.errors(entry, instance))

    def validate(self, entry: str, instance: Instance) -> None:
        """Raises the best `ValidationError` (the first of the deepest) unless the instance is valid."""
        for error in best_first(self.errors(entry, instance)):
            raise error

    def output(self, entry: str, instance: Instance, *, format: str = "basic") -> dict[str, Any]:
        """The output in a format, parsed."""
        parsed: dict[str, Any] = parse(self.output_text(entry, instance, format=format))
        return parsed

    def output_text(self, entry: str, instance: Instance, *, format: str = "basic") -> bytes:
        """The output in a format: a JSON text in UTF-8, with a line feed at its end."""
        return self.check(entry, text_of(self._rewriting.value(instance)), format).text

    def check(self, entry: str, text: bytes, format: str) -> Answer:
        """The verdict and the output in a format for a JSON text, by one check."""
        if format not in FORMATS:
            raise ValueError(f"no format {format!r}: it is one of {', '.join(FORMATS)}")
        if not isinstance(text, bytes):
            raise TypeError(f"the text of a check is bytes, not {type(text).__name__}")
        return self._judge(self._asked(entry).check, entry, text, format)

    def text_of(self, instance: bytes) -> Text:
        """A JSON text that was checked, with the engine's positions."""
        return Text(instance, is_json=True, locate=self._open().locate)

    def close(self) -> None:
        """Frees what the schemas hold. Afterwards only `close` may be called."""
        if self._engine is not None:
            self._engine.close()
            self._engine = None

    def __enter__(self) -> Schemas:
        return self

    def __exit__(self, kind: Optional[type[BaseException]], error: Optional[BaseException],
                 trace: Optional[TracebackType]) -> None:
        self.close()

    def __reduce__(self) -> NoReturn:
        raise TypeError("Schemas can't be pickled: send the documents, and make one Schemas in each process")

    def _judge(self, call: Callable[..., _Judged], entry: str, text: bytes, *more: str) -> _Judged:
        """What a call of the engine returns for an instance. One that isn't refused has no number to rewrite."""
        uri = self._rewriting.entry(entry)
        try:
            try:
                return call(uri, text, *more)
            except Refused:
                rewritten = self._rewriting.instance(text)
                if rewritten == text:
                    raise
            return call(uri, rewritten, *more)
        except Refused as refused:
            explain(refused, text, entry)
            raise

    def _asked(self, entry: str) -> Engine:
        """The engine, which is asked about an entry."""
        if not is_uri_text(entry):
            raise Refused("entry", "BadUri")
        return self._open()

    def _open(self) -> Engine:
        if self._engine is None:
            raise ValueError("these Schemas are closed")
        return self._engine


def _errors_in(answer: Answer, text: Text) -> list[ValidationError]:
    """The errors in an output, at the places that it has."""
    try:
        return [ValidationError(unit["error"], unit["instanceLocation"], unit["keywordLocation"],
                                unit["absoluteKeywordLocation"], text)
                for unit in parse(answer.text)["errors"]]
    except (KeyError, TypeError) as error:
        raise malformed(answer.text) from error
