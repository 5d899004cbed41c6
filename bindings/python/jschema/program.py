"""An engine that runs the program `jschema`, once for each check."""
from __future__ import annotations

import os
import re
import shutil
import subprocess
import tempfile
import weakref
from collections.abc import Sequence
from pathlib import Path
from typing import TYPE_CHECKING, NoReturn, Optional

from .engine import Answer
from .errors import EngineError, EngineNotFound, UpgraderNotFound
from .lines import fault_of
from .positions import Located

if TYPE_CHECKING:
    _Done = subprocess.CompletedProcess[bytes]

_BUILDS = ("out/jschema", "crates/js_cli/out/js_cli")
# The program that upgrades, from the folder of the program: installed, and as the gate builds them.
_UPGRADERS = ("jschema-upgrade", "../../js_upgrade_cli/out/js_upgrade_cli")

_BEFORE_REASON = re.compile(r"\A.*?: (?=(?:refused|failed): )", re.DOTALL)


def find_program() -> str:
    """The program: named by JSCHEMA, or built in the repository that this file is part of, or on the PATH."""
    if named := os.environ.get("JSCHEMA"):
        if found := shutil.which(named):
            return os.path.abspath(found)
        raise EngineNotFound(f"JSCHEMA names {named}, which is no program")
    for build in _BUILDS:
        if found := shutil.which(str(Path(__file__).resolve().parents[3] / build)):
            return found
    if found := shutil.which("jschema"):
        return os.path.abspath(found)
    raise EngineError("no program jschema: install it on the PATH (tools/install in its repository), "
                      "or name it in the environment variable JSCHEMA; or build the library (tools/build-library)")


def find_upgrader(program: str) -> Optional[str]:
    """The program `jschema-upgrade` beside the program, if it is there."""
    folder = os.path.dirname(shutil.which(program) or program)
    for name in _UPGRADERS:
        if found := shutil.which(os.path.join(folder, name)):
            return found
    return None


class ProgramEngine:
    """The engine. The documents are kept in a temporary folder; an instance goes through standard input."""

    def __init__(self, program: Optional[str] = None) -> None:
        self._program = program or find_program()
        self._answers_as_known()
        self._folder = tempfile.mkdtemp(prefix="jschema-")
        self._remove = weakref.finalize(self, _remove, self._folder, os.getpid())
        self._uris: list[str] = []
        self._arguments: list[str] = []
        self._places: list[str] = []

    def add(self, uri: str, document: bytes) -> None:
        path = Path(self._folder, f"{len(self._uris)}.json")
        path.write_bytes(document)
        self._uris.append(uri)
        self._arguments += [uri, str(path)]

    def upgrade(self, dialect: str) -> None:
        upgrader = find_upgrader(self._program)
        if upgrader is None:
            raise UpgraderNotFound("schemas of older drafts need the library (tools/build-library in its repository "
                                   f"makes it), or the program jschema-upgrade beside {self._program}")
        folder = Path(self._folder, "upgraded")
        folder.mkdir(exist_ok=True)
        if not self._uris:
            return
        done = self._run(["--default-dialect", dialect, "--into", str(folder), "--", *self._arguments], b"", upgrader)
        if done.returncode != 0:
            self._raise(done, upgrader)
        self._arguments[1::2] = [str(folder / os.path.basename(path)) for path in self._arguments[1::2]]

    def documents(self) -> list[bytes]:
        """The texts of the documents, in their order: after an upgrade the upgraded ones."""
        return [Path(path).read_bytes() for path in self._arguments[1::2]]

    def finish(self) -> None:
        done = self._run_with_documents("places")
        if done.returncode != 0:
            self._raise(done)
        self._places = done.stdout.decode().splitlines()

    def places(self) -> list[str]:
        return self._places

    def is_valid(self, entry: str, instance: bytes) -> bool:
        return self.check(entry, instance, "flag").valid

    def valid_lines(self, entry: str, text: bytes, begin: int) -> tuple[int, int]:
        return 0, begin

    def check(self, entry: str, instance: bytes, format: str) -> Answer:
        done = self._run_with_documents("check", format, "/dev/stdin", entry, instance=instance)
        if done.returncode not in (0, 1):
            self._raise(done)
        if not _is_verdict(done, done.returncode == 0):
            raise EngineError(f"{self._program} wrote no verdict: it ended with status {done.returncode} "
                              f"and wrote {_beginning(done.stdout)}")
        return Answer(done.returncode == 0, done.stdout)

    def locate(self, text: bytes, pointers: Sequence[str]) -> Optional[Sequence[Optional[Located]]]:
        return None

    def close(self) -> None:
        self._remove()

    def _answers_as_known(self) -> None:
        """Asks for two verdicts that are known, so that no other program of this name is believed."""
        for valid in (True, False):
            schema = str(valid).lower()
            done = self._run([], f"{schema}\nnull\n".encode())
            if done.returncode == 4 and (fault := fault_of(done.stderr.decode(errors="replace"), [])):
                raise fault
            if done.returncode != (not valid) or not _is_verdict(done, valid):
                raise EngineError(f"{self._program} isn't the validator jschema: for the schema {schema} it ended with "
                                  f"status {done.returncode} and wrote {_beginning(done.stdout)}")

    def _run_with_documents(self, command: str, *arguments: str, instance: bytes = b"") -> _Done:
        return self._run([command, "--", *arguments, *self._arguments], instance)

    def _run(self, words: list[str], given: bytes, program: Optional[str] = None) -> _Done:
        program = program or self._program
        try:
            return subprocess.run([program, *words], input=given, stdout=subprocess.PIPE, stderr=subprocess.PIPE,
                                  check=False)
        except OSError as error:
            raise EngineError(f"{program} can't be run: {error.strerror}") from error
        except ValueError as error:
            raise EngineError("a URI with a zero byte or a lone surrogate can't be passed to the program") from error

    def _raise(self, done: _Done, upgrader: Optional[str] = None) -> NoReturn:
        """Raises what a run without a verdict says."""
        line = done.stderr.decode(errors="replace")
        # (The program that upgrades writes the file before the reason.)
        reason = line if upgrader is None else _BEFORE_REASON.sub("", line)
        raise fault_of(reason, self._uris) or EngineError(
            f"{upgrader or self._program} ended with status {done.returncode}: {line.strip() or 'no message'}")


def _remove(folder: str, process: int) -> None:
    """Removes a folder in the process that made it: a forked child leaves it to its parent."""
    if os.getpid() == process:
        shutil.rmtree(folder, ignore_errors=True)


def _is_verdict(done: _Done, valid: bool) -> bool:
    """Whether a text has the form of an output with this verdict: the member `valid` is the last in each format."""
    ending = b'"valid":true}\n' if valid else b'"valid":false}\n'
    return done.stdout.startswith(b"{") and done.stdout.endswith(ending)


def _beginning(text: bytes) -> str:
    """The beginning of a text, for a message of one line."""
    return repr(text[:60].decode(errors="replace")) if text else "nothing"
