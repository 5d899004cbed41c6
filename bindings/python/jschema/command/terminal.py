"""Colours and a progress bar, where there is a terminal."""
from __future__ import annotations

import os
import sys
import time
from typing import Optional, TextIO

_CODES = {"bold": "1", "dim": "2", "red": "31", "yellow": "33", "blue": "34"}
_WIDTH = 30
# The bar is for more instances than this, and is drawn ten times a second.
_FEW = 20
_PAUSE = 0.1


def is_terminal(stream: TextIO) -> bool:
    """Whether a stream is a terminal that understands control sequences."""
    return stream.isatty() and os.environ.get("TERM", "dumb") != "dumb"


def has_colours(stream: TextIO) -> bool:
    """Whether to write colours to a stream: to a terminal, unless NO_COLOR is set (https://no-color.org)."""
    return is_terminal(stream) and not os.environ.get("NO_COLOR")


def painted(text: str, style: str, colours: bool) -> str:
    """A text in a style, or as it is without colours."""
    return f"\x1b[{_CODES[style]}m{text}\x1b[0m" if colours else text


class Progress:
    """A bar on standard error; without a known total, a count."""

    def __init__(self, total: Optional[int]) -> None:
        self._total = total
        self._is_shown = is_terminal(sys.stderr) and (total is None or total > _FEW)
        self._is_drawn = False
        self._next = 0.0

    def show(self, done: int) -> None:
        """Draws how many are done."""
        if not self._is_shown or time.monotonic() < self._next:
            return
        self._next = time.monotonic() + _PAUSE
        self._is_drawn = True
        sys.stderr.write(f"\r{self._text(done)}\x1b[K")
        sys.stderr.flush()

    def clear(self) -> None:
        """Makes room for a line of text."""
        if self._is_drawn:
            self._is_drawn = False
            self._next = 0.0
            sys.stderr.write("\r\x1b[K")
            sys.stderr.flush()

    def _text(self, done: int) -> str:
        if self._total is None:
            return f"{done:,} checked"
        filled = _WIDTH * done // self._total
        return f"[{'#' * filled}{'.' * (_WIDTH - filled)}] {done:,} of {self._total:,}"
