"""The commands `jschema-validate` and `jschema-lint`, which are also `python -m jschema validate` and `lint`."""
from __future__ import annotations

import io
import os
import sys
from typing import Callable

from ..errors import EngineNotFound
from ..lookup import NotOneDocument
from .arguments import Arguments, Version, of_command, parse
from .files import Misuse
from .results import Status, message_of
from .validating import validate


def main(words: list[str]) -> int:
    """Runs the command that the first argument names, and returns its exit status (see `Status`)."""
    return _run(lambda: parse(words))


def validate_script() -> int:
    """The script `jschema-validate`."""
    return _run(lambda: of_command("validate", sys.argv[1:], "jschema-validate"))


def lint_script() -> int:
    """The script `jschema-lint`."""
    return _run(lambda: of_command("lint", sys.argv[1:], "jschema-lint"))


def _run(read: Callable[[], Arguments]) -> int:
    if sys.stderr is None:
        sys.stderr = open(os.devnull, "w", encoding="utf-8")
    if sys.stdout is None:
        _say("standard output is closed")
        return Status.FAILED
    if isinstance(sys.stdout, io.TextIOWrapper):
        sys.stdout.reconfigure(errors="backslashreplace")
    try:
        arguments = read()
        if arguments.command == "validate":
            return validate(arguments)
        # (Imported where it is needed, so that a validation starts sooner.)
        from .linting import lint
        return lint(arguments)
    except Version:
        from .versions import versions
        print(versions())
        return Status.VALID
    except (Misuse, EngineNotFound, NotOneDocument) as misuse:
        _say(str(misuse))
        return Status.MISUSE
    except BrokenPipeError:
        # Nothing more can be written, not even what Python flushes at its end.
        os.dup2(os.open(os.devnull, os.O_WRONLY), sys.stdout.fileno())
        return Status.FAILED
    except OSError as error:
        _say(f"{error.filename or 'standard output'}: {error.strerror}")
        return Status.FAILED
    except Exception as error:  # Whatever it is: it must not end like an instance that is invalid.
        _say(message_of(error))
        return Status.FAILED
    except KeyboardInterrupt:
        return 130


def _say(message: str) -> None:
    """Says on standard error why the run ends. Where that can't be written to, the status alone says it."""
    try:
        print(f"jschema: {message}", file=sys.stderr)
    except OSError:
        pass
