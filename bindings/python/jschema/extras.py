"""The libraries that some calls need and the package doesn't: they are imported when they are needed."""
from __future__ import annotations

import importlib
from typing import Any

#: The extra of pyproject.toml that installs a library, by the library's module.
EXTRAS = {"yaml": "yaml", "tomli": "toml", "fqdn": "formats", "isoduration": "formats",
          "rfc3339_validator": "formats", "rfc3987": "formats"}
_PACKAGES = {"yaml": "PyYAML"}


class MissingLibrary(ImportError):
    """A library that isn't installed; the message says what needs it, and how to install it."""


def library(module: str, purpose: str) -> Any:
    """The module of a library. The purpose is what isn't possible without it, as in "YAML is read"."""
    try:
        return importlib.import_module(module)
    except ImportError as error:
        package = _PACKAGES.get(module, module.replace("_", "-"))
        raise MissingLibrary(f"{purpose} by {package}, which isn't installed: "
                             f"pip install {package}, or pip install 'jschema[{EXTRAS[module]}]'") from error
