"""The result of each file or instance."""
from __future__ import annotations

from collections.abc import Generator, Iterable, Sequence
from enum import IntEnum
from typing import TYPE_CHECKING, NamedTuple, Optional

from ..engine import Answer
from ..errors import EngineError, Refused, ValidationError, best_first
from ..extras import MissingLibrary
from ..positions import Position, Text
from ..schemas import Schemas
from ..sources import Range
from .inputs import NOTHING, Input, Lines, line_input
from .jobs import side_by_side
from .places import Places
from .problems import ERROR, FAILED, REFUSED, WARNING, WHOLE, Problem, SchemaPlace


if TYPE_CHECKING:
    from ..formats import Formats


class Status(IntEnum):
    """The exit statuses, as the program `jschema` has them."""

    VALID = 0
    INVALID = 1
    MISUSE = 2
    REFUSED = 3
    FAILED = 4


class Result(NamedTuple):
    """What came of a file or an instance."""

    input: Input
    status: Status
    problems: Sequence[Problem] = ()
    #: The output or the tree that the report needs, if there is a verdict.
    text: bytes = b""


class Checked(NamedTuple):
    """What came of instances: the results of some, and how many others are valid, of which nothing is reported."""

    results: Sequence[Result]
    others: int = 0
    #: Of lines, how many there are, with those that don't count.
    lines: int = 0

    def below(self, lines: int) -> Checked:
        """The same of lines that stand below so many others."""
        return self._replace(results=[below(it, lines) for it in self.results]) if lines else self

    def without_texts(self) -> Checked:
        """The same, without the texts of instances that have no problem: no report shows them."""
        return self._replace(results=[
            it if it.problems else it._replace(input=it.input._replace(source=NOTHING)) for it in self.results])


class Wanted(NamedTuple):
    """What a report needs of an instance that has a verdict, beside its problems."""

    #: The format of the output that is written.
    output: Optional[str] = None
    #: Whether the tree of the errors is shown.
    tree: bool = False
    #: Checks the formats of a valid instance.
    formats: Optional[Formats] = None
    #: Whether something is reported of a valid instance without problems.
    valid: bool = True


class Checker:
    """Checks instances against a schema."""

    def __init__(self, schemas: Schemas, entry: str, places: Places, wanted: Wanted) -> None:
        self._schemas, self._entry, self._places, self._wanted = schemas, entry, places, wanted

    def results(self, given: Iterable[Input], jobs: int) -> Generator[Result, None, None]:
        """The results in the order of the instances. Up to `jobs` checks run at once."""
        yield from map(self.result, given) if jobs == 1 else side_by_side(self.result, given, jobs)

    @property
    def missing(self) -> dict[str, str]:
        """The formats that couldn't be checked, with what to install."""
        return {} if self._wanted.formats is None else self._wanted.formats.missing

    def result(self, given: Input) -> Result:
        """What comes of an instance."""
        fault = given.fault
        if fault is not None:
            return refusal(given, fault) if isinstance(fault, Refused) else failure(given, fault)
        try:
            return self._judged(given)
        except Refused as refused:
            return refusal(given, refused)
        except (EngineError, MemoryError) as error:
            return failure(given, error)

    def lines(self, given: Lines) -> Checked:
        """What comes of lines, as if they were a file of their own."""
        if given.fault is not None:
            return Checked([self.result(Input(given.file, 1, NOTHING, given.fault))])
        data, results = given.data, list[Result]()
        begin = lines = empty = 0
        while True:
            valid, begin = self._valid_lines(data, begin)
            lines += valid
            if begin == len(data):
                return Checked(results, lines - len(results) - empty, lines)
            end = data.index(b"\n", begin)
            lines += 1
            instance = line_input(given.file, lines, data[begin:end])
            if instance is None:
                empty += 1
            else:
                results.append(self.result(instance))
            begin = end + 1

    def _valid_lines(self, data: bytes, begin: int) -> tuple[int, int]:
        """How many lines are valid one after another, and the byte after them; none if they are reported too."""
        if self._wanted.valid or self._wanted.formats:
            return 0, begin
        try:
            return self._schemas.valid_lines(self._entry, data, begin)
        except (Refused, EngineError, MemoryError):
            # (The result of the line says what it is.)
            return 0, begin

    def _judged(self, given: Input) -> Result:
        """The result of an instance that has a verdict."""
        wanted = self._wanted
        if wanted.output is not None:
            answer = self._check(given, wanted.output)
            valid, text = answer.valid, answer.text
        else:
            # (So most instances end, without an output.)
            valid, text = self._schemas.is_valid(self._entry, given.source.json), b""
        if valid:
            return Result(given, Status.VALID, self._warnings(given) if wanted.formats else (), text)
        tree = self._schemas.tree_in(self._check(given, "detailed")) if wanted.tree else text
        return Result(given, Status.INVALID, () if wanted.output is not None else self._errors(given), tree)

    def _check(self, given: Input, format: str) -> Answer:
        return self._schemas.check(self._entry, given.source.json, format)

    def _errors(self, given: Input) -> list[Problem]:
        """The errors of an invalid instance, the best first."""
        errors = best_first(self._schemas.errors_in(self._check(given, "basic"), self._read(given)))
        places = self._places.of(it.absolute_keyword_location for it in errors)
        return [self._problem(given, error, place) for error, place in zip(errors, places)]

    def _read(self, given: Input) -> Text:
        """The JSON text of an instance, with the engine's positions."""
        read = self._schemas.text_of(given.source.json)
        given.source.trust(read)
        return read

    @staticmethod
    def _problem(given: Input, error: ValidationError, place: Optional[SchemaPlace]) -> Problem:
        where = (given.source.name if error.is_about_name else given.source.value)(error.instance_location)
        return Problem(ERROR, error.keyword, error.message, in_file(given, where), error.instance_location,
                       error.absolute_keyword_location, place, error)

    def _warnings(self, given: Input) -> list[Problem]:
        """The formats that the values of a valid instance break."""
        assert self._wanted.formats is not None
        found = self._wanted.formats.broken(self._check(given, "basic").text, given.source.json)
        self._read(given).expect(it.instance_location for it in found)
        uris = [self._schemas.original_location(it.absolute_keyword_location) for it in found]
        places = self._places.of(uris)
        return [Problem(WARNING, "format", it.message, in_file(given, given.source.value(it.instance_location)),
                        it.instance_location, uri, place) for it, uri, place in zip(found, uris, places)]


def refusal(given: Input, refused: Refused) -> Result:
    """The result of what is refused."""
    where = in_file(given, given.source.refusal(refused))
    message = f"{refused.meaning}, in the upgraded document" if refused.is_upgraded else refused.meaning
    problem = Problem(REFUSED, refused.kind, message, where, refused.place or "", refused=refused)
    return Result(given, Status.REFUSED, [problem])


def failure(given: Input, error: Exception) -> Result:
    """The result of what failed."""
    at = Range(*[Position(0, given.line, 1)] * 2) if given.line > 1 else WHOLE
    return Result(given, Status.FAILED, [Problem(FAILED, type(error).__name__, message_of(error), at)])


def message_of(error: Exception) -> str:
    """What an exception says, in one line. Those that the package doesn't raise itself are named."""
    text = " ".join(str(error).split())
    if isinstance(error, OSError):
        return error.strerror or text
    if isinstance(error, MemoryError):
        return text or "out of memory"
    return text if isinstance(error, (EngineError, MissingLibrary)) else f"{type(error).__name__}: {text}"


def in_file(given: Input, where: Range) -> Range:
    """A part of an instance as a part of its file: of a line, which is a text of its own."""
    return _moved(where, given.line - given.source.first_line)


def below(result: Result, lines: int) -> Result:
    """The result of the same instance so many lines further down."""
    problems = [it._replace(range=_moved(it.range, lines)) for it in result.problems]
    return result._replace(input=result.input._replace(line=result.input.line + lines), problems=problems)


def _moved(where: Range, lines: int) -> Range:
    """A place so many lines further down."""
    return Range(*(it._replace(line=it.line + lines) for it in where)) if lines else where
