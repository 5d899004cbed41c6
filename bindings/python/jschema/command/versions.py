"""What `--version` says."""
from __future__ import annotations

from ..errors import EngineError
from ..interface import VERSION
from ..library import LibraryEngine, find_library
from ..program import find_program


def versions() -> str:
    """The version of the package; and which engine checks: the library with its version, or the program."""
    return f"jschema {VERSION}\n{_engine()}"


def _engine() -> str:
    try:
        library = find_library()
        if library is not None:
            return f"engine: the library, version {LibraryEngine.version(library)}, {library}"
        return f"engine: the program {find_program()}, once for each check, since there is no library"
    except EngineError as error:
        return f"engine: none: {error}"
