"""The arguments of the commands."""
from __future__ import annotations

import argparse
from typing import NamedTuple, NoReturn, Optional

from ..dialects import DRAFTS, dialect_called
from ..engine import FORMATS
from ..interface import REWRITING
from ..rewriting import Options, options_of
from ..sources import KINDS
from .files import Misuse

#: What each command is called on its own, and its usage after its name.
USAGES = {
    "validate": "[--ref [URI=]FILE|FOLDER]... [--format FORMAT] [--input KIND] [--formats] [--lines] [--jobs N] "
                "[--default-dialect DIALECT | --no-upgrade] [--patterns SYNTAX] [--numbers RANGE] "
                "(SCHEMA | --schema SCHEMA) INSTANCE...",
    "lint": "[--ref [URI=]FILE|FOLDER]... [--format FORMAT] [--input KIND] [--patterns SYNTAX] [--numbers RANGE] "
            "SCHEMA...",
}
EXAMPLES = {"validate": "person.schema.json ada.json", "lint": "person.schema.json"}
STATUSES = {
    "validate": """exit status, the highest that applies: 0 all are valid, 1 some are invalid, 2 the arguments are
wrong, 3 an input is refused, 4 out of memory, a read or write failed, or there is no validator""",
    "lint": """exit status, the highest that applies: 0 nothing but notes, 1 a warning, 2 the arguments are wrong,
3 an error: the validator refuses the schema, 4 out of memory, a read or write failed, or there is no validator""",
}
#: The formats of the reports, which both commands have.
REPORTS = ("text", "short", "json", "github", "html", "sarif", "junit")
_SHOWN = "text (the default): each problem with its line. short: a line for each. json: an array with an object for " \
         "each file. github: annotations in GitHub Actions. html: a page. sarif, junit: for code scanning and tests"


class Arguments(NamedTuple):
    """What is asked for."""

    command: str
    #: The file of the schema; None for `lint`, whose files all are schemas.
    schema: Optional[str]
    refs: list[str]
    siblings: bool
    format: str
    input: Optional[str]
    verbose: bool
    #: What is rewritten.
    rewriting: Options
    #: The files that are looked at: instances, or for `lint` schemas.
    files: list[str]
    formats: bool = False
    lines: bool = False
    jobs: int = 1
    #: The dialect of each schema document that names none, if it is given; and whether those of older drafts are
    #: upgraded.
    default_dialect: Optional[str] = None
    upgrade: bool = True


class Version(Exception):
    """The version is asked for."""


class _Parser(argparse.ArgumentParser):
    """The parser of a command that is called by a name."""

    def __init__(self, name: str, command: str, description: str) -> None:
        super().__init__(prog=name, usage=f"{name} {USAGES[command]}", description=description,
                         epilog=STATUSES[command])
        self.example = f"{name} {EXAMPLES[command]}"

    def error(self, message: str) -> NoReturn:
        raise Misuse(f"{message}\nusage: {self.usage}\nfor example: {self.example}")


    def read(self, words: list[str]) -> argparse.Namespace:
        """The arguments. What stands after `--` are files, whatever their names begin with."""
        end = words.index("--") if "--" in words else len(words)
        given = self.parse_intermixed_args(words[:end])
        given.files += words[end + 1:]
        return given


class _Version(argparse.Action):
    def __call__(self, *_: object) -> NoReturn:
        raise Version


def _jobs(word: str) -> int:
    if not word.isdecimal() or not 1 <= int(word) <= 256:
        raise argparse.ArgumentTypeError(f"{word!r} isn't a number from 1 to 256")
    return int(word)


def _dialect(word: str) -> str:
    try:
        dialect_called(word)
    except ValueError as error:
        raise argparse.ArgumentTypeError(str(error)) from None
    return word


def _add_common(parser: argparse.ArgumentParser, formats: tuple[str, ...], shown: str) -> None:
    parser.add_argument("--ref", action="append", default=[], metavar="[URI=]FILE|FOLDER",
                        help="a schema document that is referred to, with the URI to register it under (default: as "
                             "for the schema); or a folder, of which those are taken that are referred to. Repeat it "
                             "for each")
    parser.add_argument("--ref-siblings", action=argparse.BooleanOptionalAction, default=True,
                        help="look up the document of a relative reference beside the file that refers to it (the "
                             "default)")
    parser.add_argument("--format", default="text", choices=formats, metavar="FORMAT", help=shown)
    parser.add_argument("--input", choices=KINDS, metavar="KIND",
                        help="what the files are: json, jsonc (JSON with comments), yaml or toml (default: what the "
                             "suffix says, else json)")
    for name, (argument, words) in REWRITING.items():
        default, *others = (f"{word}: {meaning}" for word, meaning in words.items())
        parser.add_argument(f"--{name}", choices=[*words], metavar=argument,
                            help="; ".join((f"{default} (the default)", *others)))
    parser.add_argument("--verbose", action="store_true", help="list the documents that were found for references")
    parser.add_argument("--version", action=_Version, nargs=0,
                        help="show the versions of the package and the library, and which engine checks")


def _validate(name: str) -> _Parser:
    parser = _Parser(name, "validate",
                     "Validates JSON, YAML and TOML files against a JSON Schema, of draft 2020-12 or an older one.")
    parser.add_argument("--schema", action="append", metavar="SCHEMA",
                        help="the file of the schema (default: the first file); its URI is its $id if that is "
                             "absolute, else its file's URL")
    _add_common(parser, (*REPORTS, *FORMATS),
                f"{_SHOWN}. {', '.join(FORMATS)}: the validator's output, a line for each instance")
    parser.add_argument("--formats", action="store_true",
                        help="warn of values of a valid instance that break a `format`; the verdict stays")
    parser.add_argument("--lines", action="store_true",
                        help="each line of a file is an instance; empty lines don't count")
    parser.add_argument("--default-dialect", type=_dialect, metavar="DIALECT",
                        help=f"the dialect of each schema document that names none: {', '.join(DRAFTS[:-1])} or "
                             f"{DRAFTS[-1]} (the default), or the URI of one")
    parser.add_argument("--no-upgrade", dest="upgrade", action="store_false",
                        help=f"refuse schemas of older drafts, from {DRAFTS[0]} to {DRAFTS[-2]}, which are upgraded to "
                             f"{DRAFTS[-1]} otherwise")
    parser.add_argument("--jobs", type=_jobs, default=1, metavar="N",
                        help="how many checks run at once, with --lines each in a process of its own (default: 1)")
    parser.add_argument("files", nargs="*", metavar="INSTANCE",
                        help="a file; a folder, for the files in it, at any depth, whose suffix is of a kind (with "
                             "--lines .jsonl and .ndjson); or -, standard input")
    return parser


def _lint(name: str) -> _Parser:
    parser = _Parser(name, "lint", "Shows what is wrong with JSON Schemas, and what is probably not meant.")
    _add_common(parser, REPORTS, _SHOWN)
    parser.add_argument("files", nargs="*", metavar="SCHEMA",
                        help="a file; a folder, for the files in it, at any depth, whose suffix is of a kind; or -, "
                             "standard input")
    return parser


def parse(words: list[str], name: str = "python -m jschema") -> Arguments:
    """Reads the arguments, the first of which is the command. `name` is how that is called without it.

    Raises `Misuse`, which says what to do, and `Version`.
    """
    command = words[0] if words else ""
    if command == "--version":
        raise Version
    if command in ("-h", "--help"):
        command, words = "validate", ["validate", "--help"]
    if command not in USAGES:
        _validate(f"{name} validate").error(f"no command {command!r}: there are validate and lint" if words
                                            else "name the command: validate or lint")
    return of_command(command, words[1:], f"{name} {command}")


def of_command(command: str, words: list[str], name: str) -> Arguments:
    """Reads the arguments of a command that is called by a name."""
    if command == "lint":
        parser = _lint(name)
        given = parser.read(words)
        if not given.files:
            parser.error("the following arguments are required: SCHEMA")
        return Arguments("lint", None, given.ref, given.ref_siblings, given.format, given.input, given.verbose,
                         options_of(vars(given)), given.files)
    parser = _validate(name)
    given = parser.read(words)
    schemas = given.schema or given.files[:1]
    files = given.files if given.schema else given.files[1:]
    if len(schemas) > 1:
        parser.error(f"--schema is given {len(schemas)} times: it names one file, and --ref the others")
    if not schemas or not files:
        parser.error(f"the following arguments are required: {'INSTANCE' if schemas else 'SCHEMA and INSTANCE'}")
    if given.lines and given.input not in (None, "json"):
        parser.error(f"--lines is for JSON: no line of {given.input} is a document")
    if given.default_dialect and not given.upgrade:
        parser.error("--default-dialect says what to upgrade from, and --no-upgrade upgrades nothing")
    return Arguments("validate", schemas[0], given.ref, given.ref_siblings, given.format, given.input, given.verbose,
                     options_of(vars(given)), files, given.formats, given.lines, given.jobs, given.default_dialect,
                     given.upgrade)
