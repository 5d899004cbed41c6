"""An engine in this process, which keeps the schemas: the C library, by ctypes."""
from __future__ import annotations

import ctypes
import ctypes.util
import itertools
import os
import re
import threading
from collections.abc import Sequence
from ctypes import POINTER, byref, c_bool, c_char_p, c_size_t, c_uint32, c_void_p
from functools import lru_cache
from pathlib import Path
from typing import Any, Callable, Optional, TypeVar, cast

from .engine import Answer
from .errors import EngineError, EngineNotFound, Refused
from .interface import FORMATS, KINDS, STATUSES, SUBJECTS, VERSION
from .positions import Located, Position
from .stacks import on_large_stack

_Result = TypeVar("_Result")

_DONE, _INVALID, _MISUSED, _REFUSED, _FAILED = range(len(STATUSES))
# (As ctypes' own numbers: of an int each call would make one.)
_FORMATS = {name: c_uint32(number) for name, number in FORMATS.items()}
_FLAG = _FORMATS["flag"]
# The libraries that this package can call: those of its own minor version.
_MAJOR, _MINOR, _ = map(int, VERSION.split("."))
_VERSIONS = range(10_000 * _MAJOR + 100 * _MINOR, 10_000 * _MAJOR + 100 * (_MINOR + 1))
_FILE = "libjschema.so.0"

# How much of an output is copied without asking for its length first.
_ROOM = 4096
# A handle that has had a larger text, or more or longer spellings of entries, isn't used again: it would keep them.
_LARGE_TEXT = 1 << 20
_MOST_ENTRIES = 1000
_LONG_ENTRIES = 1 << 20

# One handle makes the others, one at a time. A handler of a signal may come here while its own thread is here.
_sharing = threading.RLock()


def _after_fork() -> None:
    # Another thread of the parent may have held it.
    global _sharing
    _sharing = threading.RLock()


os.register_at_fork(after_in_child=_after_fork)


class _Handle(ctypes.Structure):
    _fields_ = (("at", c_void_p), ("full", c_bool))


class _Position(ctypes.Structure):
    _fields_ = tuple((name, c_size_t) for name in (
        "offset", "line", "column", "end", "name_offset", "name_line", "name_column"))


_NOWHERE = c_size_t(-1).value
_SURROGATES = re.compile("[\ud800-\udfff]")


def find_library() -> Optional[str]:
    """The library: named by JSCHEMA_LIBRARY (`off` is none), or in the package, or built in the repository that this
    file is part of, or installed. None if there is none."""
    if named := os.environ.get("JSCHEMA_LIBRARY"):
        # (A name without a slash is looked up by the system.)
        if os.sep in named and not os.path.isfile(named):
            raise EngineNotFound(f"JSCHEMA_LIBRARY names {named}, which is no file")
        return None if named == "off" else named
    here = Path(__file__).resolve().parent
    for path in (here / _FILE, here.parents[2] / "out" / "lib" / _FILE):
        if path.is_file():
            return str(path)
    return _installed()


@lru_cache(maxsize=None)
def _installed() -> Optional[str]:
    """The library among the system's. (Python starts programs to find it.)"""
    return ctypes.util.find_library("jschema")


@lru_cache(maxsize=None)
def _load(path: str) -> ctypes.CDLL:
    handle = POINTER(_Handle)
    try:
        library = ctypes.CDLL(path)
        for name, result, arguments in (
                ("version", c_uint32, ()),
                ("new", c_uint32, (handle,)),
                ("add", c_uint32, (handle, c_char_p, c_size_t, c_char_p, c_size_t)),
                ("upgrade", c_uint32, (handle, c_char_p, c_size_t)),
                ("document", c_uint32, (handle, c_size_t)),
                ("finish", c_uint32, (handle,)),
                ("places", c_uint32, (handle,)),
                ("entry", c_uint32, (handle, c_char_p, c_size_t, POINTER(c_size_t))),
                ("share", c_uint32, (handle, handle)),
                ("check", c_uint32, (handle, c_size_t, c_char_p, c_size_t, c_uint32)),
                ("text", c_size_t, (handle, c_char_p, c_size_t)),
                ("refusal", c_uint32, (handle, POINTER(c_uint32), POINTER(c_uint32), POINTER(c_size_t), c_char_p,
                                       c_size_t, POINTER(c_size_t))),
                ("positions", c_uint32, (c_char_p, c_size_t, c_char_p, c_size_t, POINTER(c_size_t), c_size_t,
                                         POINTER(_Position), c_size_t)),
                ("free", None, (handle,))):
            call = getattr(library, f"jschema_{name}")
            call.restype, call.argtypes = result, arguments
    except (OSError, AttributeError) as error:
        raise EngineError(f"{path} is no library of jschema: {error}") from error
    if library.jschema_version() not in _VERSIONS:
        raise EngineError(f"{path} has version {library.jschema_version()}, and this package needs {_VERSIONS[0]} to "
                          f"{_VERSIONS[-1]} ({_MAJOR}.{_MINOR})")
    # (A build of before a release may have another form, and would be misread.)
    if on_large_stack(_located, library, b"[1]", ["/0"]) != [Located(Position(1, 1, 2), 2, None)]:
        raise EngineError(f"{path} says positions in another form: build it again (tools/build-library)")
    return library


@lru_cache(maxsize=None)
def _check_at(library: ctypes.CDLL) -> Any:
    """`jschema_check` of an instance that is a part of a text, at its address."""
    call = library["jschema_check"]
    call.restype, call.argtypes = c_uint32, (POINTER(_Handle), c_size_t, c_void_p, c_size_t, c_uint32)
    return call


class _Schemas:
    """A handle of the library. One call at a time."""

    def __init__(self, library: ctypes.CDLL) -> None:
        self._library = library
        self._handle = _Handle()
        # (Any: that a slice of it is bytes isn't in the types.)
        self._room: Any = ctypes.create_string_buffer(_ROOM)
        # The numbers of the entries that were looked up.
        self._entries: dict[str, c_size_t] = {}
        self._length_of_entries = 0
        #: Whether it keeps so much that another is better.
        self.is_worn = False
        self.uris: list[str] = []
        self._done(library.jschema_new(self._handle))

    def add(self, uri: str, document: bytes) -> None:
        name = _encoded(uri)
        self.uris.append(uri)
        try:
            self._done(self._library.jschema_add(self._handle, name, len(name), document, len(document)))
        except BaseException:
            self.uris.pop()
            raise

    def upgrade(self, dialect: str) -> None:
        name = _encoded(dialect)
        self._done(self._library.jschema_upgrade(self._handle, name, len(name)))

    def documents(self) -> list[bytes]:
        return [self._document(number) for number in range(len(self.uris))]

    def _document(self, number: int) -> bytes:
        self._done(self._library.jschema_document(self._handle, number))
        return self._text()

    def finish(self) -> None:
        self._done(self._library.jschema_finish(self._handle))

    def shared(self) -> _Schemas:
        """Another handle on the same finished schemas."""
        other = _Schemas(self._library)
        self._done(self._library.jschema_share(self._handle, other._handle))
        other.uris = self.uris
        return other

    def places(self) -> list[str]:
        self._done(self._library.jschema_places(self._handle))
        return self._text().decode().splitlines()

    def check(self, entry: str, instance: bytes, format: str) -> Answer:
        return Answer(self.verdict(entry, instance, _FORMATS[format]), self._text())

    def verdict(self, entry: str, instance: bytes, format: c_uint32 = _FLAG) -> bool:
        """Whether an instance is valid. The output in the format is the text of this call."""
        number = self._entries.get(entry)
        if number is None:
            number = self._look_up(entry)
        status: int = self._library.jschema_check(self._handle, number, instance, len(instance), format)
        if status > _INVALID:
            self._done(status)
        return status == _DONE

    def valid_lines(self, entry: str, text: bytes, begin: int) -> tuple[int, int]:
        number = self._entries.get(entry)
        if number is None:
            number = self._look_up(entry)
        # (The lines are checked where they are: to make a text of each takes as long as to call the library.)
        at = ctypes.cast(c_char_p(text), c_void_p).value or 0
        check, handle = _check_at(self._library), byref(self._handle)
        count = 0
        while begin < len(text):
            end = text.find(b"\n", begin)
            if end < 0 or check(handle, number, at + begin, end - begin, _FLAG) != _DONE:
                break
            count, begin = count + 1, end + 1
        return count, begin

    def _look_up(self, entry: str) -> c_size_t:
        name, number = _encoded(entry), c_size_t()
        self._done(self._library.jschema_entry(self._handle, name, len(name), byref(number)))
        self._entries[entry] = number
        self._length_of_entries += len(entry)
        if len(self._entries) >= _MOST_ENTRIES or self._length_of_entries >= _LONG_ENTRIES:
            self.is_worn = True
        return number

    def _text(self) -> bytes:
        """The text of the last call."""
        length = self._library.jschema_text(self._handle, self._room, _ROOM)
        if length <= _ROOM:
            text: bytes = self._room[:length]
            return text
        self.is_worn = self.is_worn or length > _LARGE_TEXT
        large = ctypes.create_string_buffer(length)
        self._library.jschema_text(self._handle, large, length)
        return large.raw

    def _done(self, status: int) -> None:
        """Raises what a status other than _DONE says."""
        if status == _DONE:
            return
        if status == _FAILED:
            raise MemoryError("failed: Memory")
        if status == _REFUSED:
            raise self._refusal()
        raise EngineError(f"the library answered status {status}")

    def _refusal(self) -> Refused:
        """What the last call refused."""
        kind, subject, document, length = c_uint32(), c_uint32(), c_size_t(), c_size_t()
        room: Any = self._room
        while True:
            status = self._library.jschema_refusal(self._handle, byref(kind), byref(subject), byref(document), room,
                                                   len(room), byref(length))
            if status != _DONE:
                raise EngineError(f"the library answered status {status} when it was asked what it refused")
            if length.value <= len(room):
                break
            room = ctypes.create_string_buffer(length.value)
        self.is_worn = self.is_worn or length.value > _LARGE_TEXT
        name, has_place = SUBJECTS[subject.value]
        place: Optional[str] = room[:length.value].decode() if has_place else None
        index = document.value if name == "document" else None
        return Refused(name, KINDS[kind.value], place, index, None if index is None else self.uris[index])

    def free(self) -> None:
        self._library.jschema_free(self._handle)

    def __del__(self) -> None:
        if hasattr(self, "_handle"):
            self.free()


class LibraryEngine:
    """The engine. Each thread that checks at the same time as others has a handle of its own on the same schemas. It is
    made when it is needed, and kept."""

    def __init__(self, library: Optional[str] = None) -> None:
        path = library or find_library()
        if path is None:
            raise EngineError("no library libjschema.so: tools/build-library in its repository makes it")
        self._library = _load(path)
        # Checks nothing once it is finished: the others are made of it, one at a time.
        self._first = _Schemas(self._library)
        # Those that no call uses. (The methods of a list are atomic.)
        self._free: list[_Schemas] = []

    @staticmethod
    def version(library: str) -> str:
        """The version of a library."""
        number = _load(library).jschema_version()
        return f"{number // 10_000}.{number // 100 % 100}.{number % 100}"

    def add(self, uri: str, document: bytes) -> None:
        on_large_stack(self._first.add, uri, document)

    def upgrade(self, dialect: str) -> None:
        on_large_stack(self._first.upgrade, dialect)

    def documents(self) -> list[bytes]:
        """The texts of the documents, in their order, until they are finished: after an upgrade the upgraded ones."""
        return on_large_stack(self._first.documents)

    def finish(self) -> None:
        on_large_stack(self._first.finish)

    def places(self) -> list[str]:
        return on_large_stack(self._with_handle, _Schemas.places)

    def is_valid(self, entry: str, instance: bytes) -> bool:
        return cast(bool, on_large_stack(self._with_handle, _Schemas.verdict, entry, instance))

    def valid_lines(self, entry: str, text: bytes, begin: int) -> tuple[int, int]:
        return cast(tuple[int, int], on_large_stack(self._with_handle, _Schemas.valid_lines, entry, text, begin))

    def check(self, entry: str, instance: bytes, format: str) -> Answer:
        return cast(Answer, on_large_stack(self._with_handle, _Schemas.check, entry, instance, format))

    def locate(self, text: bytes, pointers: Sequence[str]) -> Optional[list[Optional[Located]]]:
        return on_large_stack(_located, self._library, text, pointers)

    def close(self) -> None:
        on_large_stack(self._close)

    def _close(self) -> None:
        self._free.clear()
        with _sharing:
            self._first.free()

    def _with_handle(self, call: Callable[..., _Result], *arguments: Any) -> _Result:
        """A call on a handle that no other thread uses. Afterwards it goes back to those that are free."""
        schemas = self._taken()
        try:
            return call(schemas, *arguments)
        finally:
            if not schemas.is_worn:
                self._free.append(schemas)

    def _taken(self) -> _Schemas:
        try:
            return self._free.pop()
        except IndexError:
            with _sharing:
                return self._first.shared()


def locate(text: bytes, pointers: Sequence[str]) -> Optional[list[Optional[Located]]]:
    """Where the values at JSON Pointers stand in a JSON text, by the library; None for one that isn't there. None for
    all where the text isn't JSON, or there is no library."""
    path = find_library()
    return None if path is None else on_large_stack(_located, _load(path), text, pointers)


def _located(library: ctypes.CDLL, text: bytes, pointers: Sequence[str]) -> Optional[list[Optional[Located]]]:
    # (What isn't Unicode stands in no text.)
    encoded = {pointer: pointer.encode() for pointer in pointers if not _SURROGATES.search(pointer)}
    count, joined = len(encoded), b"".join(encoded.values())
    ends = (c_size_t * count)(*itertools.accumulate(map(len, encoded.values())))
    positions = (_Position * count)()
    status = library.jschema_positions(text, len(text), joined, len(joined), ends, count, positions, count)
    if status == _FAILED:
        raise MemoryError("failed: Memory")
    if status == _REFUSED:
        return None
    if status != _DONE:
        raise EngineError(f"the library answered status {status} when it was asked for positions")
    found = dict(zip(encoded, map(_read_position, positions)))
    return [found.get(pointer) for pointer in pointers]


def _read_position(found: _Position) -> Optional[Located]:
    if found.offset == _NOWHERE:
        return None
    name = None if found.name_offset == _NOWHERE else Position(found.name_offset, found.name_line, found.name_column)
    return Located(Position(found.offset, found.line, found.column), found.end, name)


def _encoded(uri: str) -> bytes:
    try:
        return uri.encode()
    except UnicodeEncodeError as error:
        raise EngineError("a URI with a lone surrogate can't be passed to the library") from error
