"""The files that are looked at, read. Of a text little more is read than the validator takes: of a file a byte, and of
a line a block."""
from __future__ import annotations

import errno
import os
import stat
import sys
from collections.abc import Iterable, Iterator
from io import BufferedReader, FileIO
from typing import Callable, NamedTuple, Optional, Union

from ..extras import MissingLibrary
from ..limits import LARGEST_TEXT
from ..sources import JsonSource, Source, Unreadable, kind_of, read
from .files import STDIN, File

_BLOCK = 1 << 16
_BLOCK_OF_LINES = 1 << 19
_BLANKS = b" \t\r\n"
#: The source where there is none.
NOTHING = JsonSource("json", b"", b"")


class Input(NamedTuple):
    """An instance, or a schema that is looked at, with the file and the line at which it begins; or why there is
    none."""

    file: str
    line: int
    source: Source
    fault: Optional[Union[OSError, MissingLibrary, Unreadable]] = None


class Lines(NamedTuple):
    """Lines of a file that follow one another, or why there are none."""

    file: str
    #: The lines, with a line feed after each.
    data: bytes
    #: Whether they begin the file.
    are_first: bool
    fault: Optional[OSError] = None


def inputs(files: Iterable[File], kind: Optional[str] = None) -> Iterator[Input]:
    """What is in files, read one after another. Without a kind, that of each file is what its suffix says."""
    for it in files:
        shown = _shown(it)
        try:
            if it.fault is not None:
                raise it.fault
            with open(_opened(it.name), "rb", closefd=it.name != STDIN) as file:
                data = _text(file)
            for source in _sources(data, kind or kind_of(it.name)):
                yield Input(shown, source.first_line, source)
        except (OSError, MissingLibrary) as error:
            yield Input(shown, 1, NOTHING, error)
        except Unreadable as refused:
            yield from (Input(shown, source.first_line, source) for source in refused.before)
            yield Input(shown, 1, JsonSource("json", data, b""), refused)


def lines(files: Iterable[File], size: Callable[[], int]) -> Iterator[Lines]:
    """The lines of files, read one after another: together as many as have the size that is asked for when they are
    read, and of a live stream each alone."""
    for it in files:
        shown = _shown(it)
        try:
            if it.fault is not None:
                raise it.fault
            with open(_opened(it.name), "rb", buffering=0, closefd=it.name != STDIN) as file:
                are_first = True
                for data in _portions(file, size if _is_regular(file) else lambda: 1):
                    yield Lines(shown, data, are_first)
                    are_first = False
        except OSError as error:
            yield Lines(shown, b"", True, error)


def line_input(file: str, number: int, line: bytes) -> Optional[Input]:
    """A line as an instance. Empty lines don't count."""
    text = line.removesuffix(b"\r")
    # (Of a line that is too large the rest isn't known.)
    if not text.strip(_BLANKS) and len(text) <= LARGEST_TEXT:
        return None
    return Input(file, number, JsonSource("json", text, text))


def _shown(file: File) -> str:
    return "<stdin>" if file.name == STDIN else file.name


def _sources(data: bytes, kind: str) -> list[Source]:
    """The sources of a text. One that is too large is left to the validator, which says so."""
    return read(data, kind if len(data) <= LARGEST_TEXT else "json")


def _opened(name: str) -> Union[str, int]:
    """What to open for a file that is named."""
    if name != STDIN:
        return name
    if sys.stdin is None:
        raise OSError(errno.EBADF, "standard input is closed")
    # (A reader of its own: Python ends with a fault where another thread reads from its own one.)
    return sys.stdin.fileno()


def _text(file: BufferedReader) -> bytes:
    """What a file has; of one that is too large, one byte more than the validator takes."""
    begin = file.read(_BLOCK)
    # (Python makes room for as much as it is asked for, so it is asked for little first.)
    return begin if len(begin) < _BLOCK else begin + file.read(LARGEST_TEXT + 1 - _BLOCK)


def _portions(file: FileIO, size: Callable[[], int]) -> Iterator[bytes]:
    """The lines of a file: together as many as have a size, and at least one."""
    for data in _blocks(file):
        begin = 0
        while begin < len(data):
            end = data.rfind(b"\n", begin, begin + size()) + 1 or data.index(b"\n", begin) + 1
            yield data[begin:end]
            begin = end


def _blocks(file: FileIO) -> Iterator[bytes]:
    """The lines of a file, those of a read together. Of one that is too large there is its beginning, and after that
    nothing more is read of a device or a pipe: it may not end."""
    begun, is_cut = bytearray(), False
    while data := _block(file):
        if is_cut:
            _, feed, data = data.partition(b"\n")
            is_cut = not feed
        end = data.rfind(b"\n") + 1
        if end:
            yield b"".join((begun, memoryview(data)[:end]))
            begun.clear()
        begun += memoryview(data)[end:]
        if len(begun) > LARGEST_TEXT + 1:
            yield bytes(begun + b"\n")
            if not _is_regular(file):
                return
            begun.clear()
            is_cut = True
    if begun:
        yield bytes(begun + b"\n")


def _is_regular(file: FileIO) -> bool:
    return stat.S_ISREG(os.fstat(file.fileno()).st_mode)


def _block(file: FileIO) -> bytes:
    """What is there of a file, up to a block; nothing at its end."""
    data: Optional[bytes] = file.read(_BLOCK_OF_LINES)
    if data is None:
        raise BlockingIOError(errno.EAGAIN, os.strerror(errno.EAGAIN))
    return data
