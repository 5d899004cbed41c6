"""Which engine is taken where none is named."""
from __future__ import annotations

from typing import Union

from .library import LibraryEngine, find_library
from .program import ProgramEngine


def default_engine() -> Union[LibraryEngine, ProgramEngine]:
    """The library's engine, or that of the program where there is no library."""
    library = find_library()
    if library is None:
        return ProgramEngine()
    return LibraryEngine(library)
