"""A report as one page, which needs nothing else: the tree of the errors, folded, each error beside its line."""
from __future__ import annotations

from html import escape
from typing import Any, TextIO

from ...locations import schema_steps
from ...outputs import parse
from ..problems import FAILED, Problem
from ..results import Result, Status
from ..snippets import snippet
from .base import Report, complain, counted, printable, utf8_name

# Up to how many problems of a file are unfolded.
_MANY = 20
_TITLES = {"validate": "Validation", "lint": "Lint"}
_WORDS = {Status.VALID: "valid", Status.INVALID: "invalid", Status.REFUSED: "refused", Status.FAILED: "failed"}
_LINT_WORDS = {**_WORDS, Status.VALID: "clean", Status.INVALID: "warnings"}

# What counts the results stands first on the page, and last in the text: it is known at the end.
_HEAD = """<!DOCTYPE html>
<html lang="en">
<head>
<meta charset="utf-8">
<meta name="viewport" content="width=device-width, initial-scale=1">
<title>{title} by jschema</title>
<style>
:root {{ color-scheme: light dark; --red: light-dark(#b3261e, #f2b8b5); --green: light-dark(#1e6b33, #9bd4a8);
  --blue: light-dark(#1a4f8b, #a8c7fa); --amber: light-dark(#7a4d00, #f5c26b);
  --line: light-dark(#d8d8dc, #3c3c42); --soft: light-dark(#f5f5f7, #1f1f23); }}
body {{ display: flex; flex-direction: column; max-width: 72rem; margin: 2rem auto; padding: 0 1rem;
  font: 16px/1.5 system-ui, sans-serif; }}
header {{ order: -1; }}
h1 {{ margin: 0 0 .25rem; font-size: 1.5rem; }}
details {{ margin: .35rem 0; }}
details.file {{ border: 1px solid var(--line); border-radius: .5rem; padding: .5rem 1rem; }}
summary {{ cursor: pointer; }}
ul {{ list-style: none; margin: 0; padding-left: 1.25rem; border-left: 2px solid var(--line); }}
code, pre {{ font: 14px/1.45 ui-monospace, monospace; }}
pre {{ overflow-x: auto; margin: .35rem 0; padding: .5rem .75rem; border-radius: .35rem; background: var(--soft); }}
mark {{ color: inherit; background: none; text-decoration: underline wavy var(--red); }}
.number {{ color: var(--blue); user-select: none; }}
.keyword {{ font-weight: 600; }}
.valid, .clean {{ color: var(--green); }}
.invalid, .refused, .failed, .error {{ color: var(--red); }}
.warnings, .warning {{ color: var(--amber); }}
.note {{ color: var(--blue); }}
.where {{ opacity: .75; font-size: .875rem; overflow-wrap: anywhere; }}
</style>
</head>
<body>
"""


class HtmlReport(Report):
    """A page with a part for each file or instance."""

    tree = True

    def __init__(self, format: str, command: str, out: TextIO) -> None:
        super().__init__(format, command, out)
        self.write(_HEAD.format(title=_TITLES[command]))

    def write_result(self, result: Result) -> None:
        word = (_LINT_WORDS if self.command == "lint" else _WORDS)[result.status]
        file = escape(utf8_name(printable(result.input.file)))
        line = f":{result.input.line}" if result.input.line > 1 else ""
        what = "warning" if result.status == Status.VALID and self.command != "lint" else "problem"
        count = f", {counted(len(result.problems), what)}" if result.problems else ""
        is_open = " open" if result.problems else ""
        self.write(f'<details class="file"{is_open}><summary><code>{file}{line}</code> '
                   f'<span class="{word}">{word}</span>{count}</summary>\n')
        if result.text:
            problems = {(it.error.keyword_location, it.pointer): it for it in result.problems if it.error is not None}
            self.write(_branch(result, parse(result.text), problems, depth=0))
        elif result.problems:
            self.write(f"<ul>{''.join(_leaf(result, it, '') for it in result.problems)}</ul>\n")
        self.write("</details>\n")

    def refused_schema(self, result: Result) -> None:
        complain(result)
        super().refused_schema(result)

    def end(self, with_summary: bool = True) -> None:
        self.write(f"<header><h1>{_TITLES[self.command]}</h1><p>{escape(self.summary())}</p></header>\n"
                   "</body>\n</html>\n")
        super().end()


def _branch(result: Result, node: dict[str, Any], problems: dict[tuple[str, str], Problem], depth: int) -> str:
    """A node of the tree, with those below it."""
    below = "".join(_branch(result, it, problems, depth + 1) for it in node.get("errors", ()))
    children = f"<ul>{below}</ul>" if below else ""
    problem = problems.get((node["keywordLocation"], node["instanceLocation"]))
    if problem is not None:
        return _leaf(result, problem, children)
    if not depth:
        return children + "\n"
    steps = schema_steps(node["keywordLocation"])
    keyword = escape(printable("/".join(str(it.token) for it in steps[-2:] if it.is_keyword) or "schema"))
    at = escape(printable(node["instanceLocation"])) or "root"
    return f'<li><details open><summary><span class="keyword">{keyword}</span> at <code>{at}</code></summary>' \
           f"{children}</details></li>"


def _leaf(result: Result, problem: Problem, children: str) -> str:
    """A problem beside its line, with those that led to it. Where a file has many, they are folded."""
    is_open = " open" if len(result.problems) <= _MANY else ""
    begin = problem.range.begin
    at = escape(printable(problem.pointer)) or "root"
    file = escape(utf8_name(printable(result.input.file)))
    shown = f"<pre>{_line(result, problem)}</pre>" if problem.kind != FAILED else ""
    return f'<li><details{is_open}><summary><span class="keyword">{escape(printable(problem.rule))}</span> ' \
           f'<span class="{problem.kind}">{escape(printable(problem.message))}</span> at <code>{at}</code></summary>' \
           f'{shown}<div class="where"><code>{file}:{begin.line}:{begin.column}</code>{_schema(problem)}</div>' \
           f"{children}</details></li>\n"


def _line(result: Result, problem: Problem) -> str:
    """The line of a problem, with what is meant marked."""
    it = snippet(result.input.source.data, problem.range)
    parts = it.before, it.meant, it.after
    before, meant, after = (escape(part) for part in parts)
    return f'<span class="number">{problem.range.begin.line} | </span>{before}<mark>{meant or " "}</mark>{after}'


def _schema(problem: Problem) -> str:
    """Where the keyword stands in the schema."""
    shown = f" · {escape(printable(problem.keyword_uri))}" if problem.keyword_uri else ""
    if problem.keyword_place is not None:
        file, position = problem.keyword_place
        shown = f" · <code>{escape(utf8_name(printable(file)))}:{position.line}:{position.column}</code>{shown}"
    return shown
