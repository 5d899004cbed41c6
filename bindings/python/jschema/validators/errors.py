"""Errors with the members that those of pip's `jsonschema` have."""
from __future__ import annotations

import re
from collections import deque
from textwrap import indent
from typing import Any, Optional, Union

from ..errors import Refused, ValidationError
from ..locations import steps
from ..positions import Text

Path = deque[Union[str, int]]
_PLAIN = re.compile("[a-zA-Z][a-zA-Z0-9_]*")


class DetailedError(ValidationError):
    """An error of an instance, with those that led to it. The message is in the words of pip's `jsonschema`."""

    def __init__(self, message: str, instance_location: str, keyword_location: str,
                 absolute_keyword_location: str, text: Text, upgraded_location: Optional[str] = None) -> None:
        super().__init__(message, instance_location, keyword_location, absolute_keyword_location, text,
                         upgraded_location)
        #: The keyword; None for a schema `false`.
        self.validator: Optional[str] = None
        #: The keyword's value, and the schema that has it.
        self.validator_value: Any = None
        self.schema: Any = None
        #: The value that is wrong: a part of the instance that was passed in.
        self.instance: Any = None
        #: For `anyOf`, `oneOf` and `contains`, why no subschema holds.
        self.context: list[DetailedError] = []
        #: The error in whose context this one is.
        self.parent: Optional[DetailedError] = None
        #: Nothing: pip's has here what a checker of formats raised.
        self.cause: Optional[Exception] = None
        self._absolute_path: Path = deque()
        self._absolute_schema_path: Path = deque()

    @property
    def path(self) -> Path:
        """The names and indices that lead to the value, from that of the parent on."""
        return _beyond(self._absolute_path, None if self.parent is None else self.parent.absolute_path)

    @property
    def relative_path(self) -> Path:
        """The same as `path`."""
        return self.path

    @property
    def absolute_path(self) -> Path:
        """The names and indices that lead to the value, from the root on."""
        return self._absolute_path

    @property
    def schema_path(self) -> Path:
        """The keywords, names and indices that lead to the keyword, without references, from that of the parent on."""
        return _beyond(self._absolute_schema_path, None if self.parent is None else self.parent.absolute_schema_path)

    @property
    def relative_schema_path(self) -> Path:
        """The same as `schema_path`."""
        return self.schema_path

    @property
    def absolute_schema_path(self) -> Path:
        """The same from the root on."""
        return self._absolute_schema_path

    @property
    def json_path(self) -> str:
        """The place of the value as a JSONPath (RFC 9535)."""
        return "$" + "".join(map(_segment, self._absolute_path))


    def __str__(self) -> str:
        # (Imported where it is needed: it isn't quick.)
        import pprint
        schema, instance = (pprint.pformat(it, width=72, sort_dicts=False) for it in (self.schema, self.instance))
        within = "".join(f"[{step!r}]" for step in [*self.schema_path][:-1])
        return (f"{self.message}\n\nFailed validating {self.validator!r} in schema{within}:\n{indent(schema, '    ')}"
                f"\n\nOn instance{''.join(f'[{step!r}]' for step in self.path)}:\n{indent(instance, '    ')}")


class SchemaError(Refused):
    """A schema that the validator refuses."""

    @property
    def message(self) -> str:
        """What is wrong with it."""
        return f"{self.kind}: {self.meaning}"

    @property
    def path(self) -> Path:
        """The names and indices that lead to what is wrong in the schema. (An index is a name here, too.)"""
        return deque(steps(self.place or ""))


def _beyond(path: Path, parent: Optional[Path]) -> Path:
    """What of a path comes after that of a parent."""
    return path if parent is None else deque([*path][len(parent):])


def _segment(step: Union[str, int]) -> str:
    if isinstance(step, int):
        return f"[{step}]"
    if _PLAIN.fullmatch(step):
        return f".{step}"
    escaped = step.replace("\\", "\\\\").replace("'", "\\'")
    return f"['{escaped}']"
