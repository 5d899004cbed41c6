"""The report for people: each problem with the line where it is."""
from __future__ import annotations

import sys

from ..problems import ERROR, FAILED, NOTE, REFUSED, WARNING, Problem
from ..results import Result
from ..snippets import snippet, width
from ..terminal import has_colours, painted
from .base import printable
from .lines import ShortReport

_COLOURS = {ERROR: "red", WARNING: "yellow", NOTE: "blue", REFUSED: "red", FAILED: "red"}


class TextReport(ShortReport):
    """Each problem with its line, what is meant in it underlined, and where the keyword stands in the schema. Refusals
    and failures go to standard error."""

    def write_result(self, result: Result) -> None:
        for problem in result.problems:
            if self.shows(problem):
                self.write(shown(result, problem, self.colours))
            else:
                sys.stderr.write(shown(result, problem, has_colours(sys.stderr)))
        self.out.flush()


def shown(result: Result, problem: Problem, colours: bool) -> str:
    """A problem as it is shown to people."""
    file, begin = printable(result.input.file), problem.range.begin
    colour = _COLOURS[problem.kind]
    title = painted(f"{problem.kind}[{printable(problem.rule)}]", colour, colours)
    if problem.kind == FAILED:
        return f"{painted('failed', colour, colours)}: {file}: {printable(problem.message)}\n\n"
    number = str(begin.line)
    margin = " " * len(number)
    bar = painted("|", "blue", colours)
    line = snippet(result.input.source.data, problem.range)
    mark = painted("^" * max(1, width(line.meant)), colour, colours)
    text = f"{line.before}{line.meant}{line.after}".rstrip()
    lines = [f"{title}: {painted(printable(problem.message), 'bold', colours)}",
             f"{margin}{painted('-->', 'blue', colours)} {file}:{begin.line}:{begin.column}",
             f"{margin} {bar}",
             f"{painted(number, 'blue', colours)} {bar} {text}".rstrip(),
             f"{margin} {bar} {' ' * width(line.before)}{mark} {printable(problem.pointer) or 'root'}"]
    return "\n".join([*lines, *(f"{margin} {painted('=', 'blue', colours)} {it}" for it in _notes(problem))]) + "\n\n"


def _notes(problem: Problem) -> list[str]:
    """What is said below the line: where the keyword stands in the schema."""
    place = problem.keyword_place
    notes = []
    if place is not None:
        line, column = place.position[1:]
        notes.append(f"{printable(place.file)}:{line}:{column}: {printable(problem.rule)}")
    if problem.keyword_uri:
        notes.append(printable(problem.keyword_uri))
    return notes
