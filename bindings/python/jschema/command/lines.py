"""Lines, checked a few at once: as many as take little time."""
from __future__ import annotations

import time
from collections.abc import Generator, Iterable
from contextlib import closing
from typing import NamedTuple

from .files import File
from .inputs import Lines, lines
from .results import Checked, Checker

# The most bytes of lines that are checked at once (what one read brings is less), how many seconds that is meant to
# take, and how many times as many as before there may be.
_MOST, _SOON, _GROWTH = 1 << 20, 0.02, 8


class Pace:
    """How much is checked at once. The result of the first line waits for that of the last, so it is little where the
    checks take long."""

    def __init__(self) -> None:
        self._size = 1

    def size(self) -> int:
        """How many bytes of lines there are."""
        return self._size

    def took(self, size: int, seconds: float) -> None:
        """Takes how long so many bytes took."""
        # (Lines that were cut where no more fitted have over half the size, unless the next is long.)
        if 2 * size > self._size or seconds > _SOON:
            self._size = max(1, min(_MOST, _GROWTH * size, int(size * _SOON / max(seconds, _SOON / _MOST))))


class Timed(NamedTuple):
    """Lines, what came of them, and how many seconds it took."""

    lines: Lines
    checked: Checked
    seconds: float


def checked_lines(checker: Checker, files: Iterable[File], jobs: int) -> Generator[Checked, None, None]:
    """What comes of the lines of files, in their order, soon after it is known. So many processes check them.

    Raises `EngineError` if one of these ends.
    """
    pace = Pace()
    given = lines(files, pace.size)
    if jobs == 1:
        found = (timed(checker, it) for it in given)
    else:
        # (Imported where it is needed, so that a validation starts sooner.)
        from .parallel import timed_in_processes
        found = timed_in_processes(checker, given, jobs)
    before = 0
    with closing(found):
        for it in found:
            pace.took(len(it.lines.data), it.seconds)
            before = 0 if it.lines.are_first else before
            yield it.checked.below(before)
            before += it.checked.lines


def timed(checker: Checker, given: Lines) -> Timed:
    """What comes of lines, by this process."""
    begin = time.monotonic()
    checked = checker.lines(given)
    return Timed(given, checked, time.monotonic() - begin)
