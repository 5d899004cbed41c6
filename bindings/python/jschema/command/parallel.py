"""Lines that are checked in several processes."""
from __future__ import annotations

from collections.abc import Generator, Iterable
from contextlib import closing

from .inputs import Lines
from .jobs import side_by_side
from .lines import Timed, timed
from .results import Checked, Checker
from .workers import Workers

# What a process says: what came of lines, how many seconds it took, and which formats couldn't be checked.
_Answer = tuple[Checked, float, dict[str, str]]


def timed_in_processes(checker: Checker, given: Iterable[Lines], jobs: int) -> Generator[Timed, None, None]:
    """What comes of lines, in their order, each as soon as it is known. So many processes check them.

    Raises `EngineError` if one of these ends.
    """
    def check(lines: Lines, data: bytes) -> _Answer:
        """In each of the processes."""
        _, checked, seconds = timed(checker, lines._replace(data=data))
        return checked.without_texts(), seconds, checker.missing

    def ask(lines: Lines) -> Timed:
        """In this one."""
        checked, seconds, missing = workers.ask(lines._replace(data=b""), lines.data)
        checker.missing.update(missing)
        return Timed(lines, checked, seconds)

    with Workers(check, jobs) as workers, closing(side_by_side(ask, given, jobs)) as found:
        yield from found
