"""The validator's `detailed` output as errors in the form of pip's `jsonschema`.

That has one error for each member that is missing, and one for all members or items that there may not be.
"""
from __future__ import annotations

from collections import deque
from collections.abc import Iterator, Sequence
from typing import Any, Callable, Optional, Union

from ..locations import schema_steps, steps
from ..originals import own_dialect, upgraded_value
from ..positions import Text
from ..resources import Document, Target, original_location, original_of, value_of
from . import messages
from .errors import DetailedError, Path

# The keywords of which pip's error is about the object or the array, and not about each member or item.
_EXTRAS = frozenset(("additionalProperties", "items", "unevaluatedItems", "unevaluatedProperties"))
_REFERENCES = ("$dynamicRef", "$ref")

Node = dict[str, Any]
#: Whether a value is valid against the schema with a URI.
Holds = Callable[[str, Any], bool]


class Reading:
    """The errors of one instance."""

    def __init__(self, documents: Sequence[Document], instance: Any, text: Text, holds: Holds) -> None:
        self._documents, self._instance, self._text, self._holds = documents, instance, text, holds

    def errors(self, node: Node, parent: Optional[DetailedError] = None) -> Iterator[DetailedError]:
        """The errors of a node of the output, those below the ones with a message as their context."""
        if "error" in node:
            yield from self._errors(node, parent)
            return
        seen: set[tuple[str, str]] = set()
        for child in node.get("errors", ()):
            extras = self._extras(child, node)
            if extras is None:
                yield from self.errors(child, parent)
            elif (key := (child["keywordLocation"], _above(child["instanceLocation"]))) not in seen:
                seen.add(key)
                yield self._unexpected(child, extras, parent)

    def _errors(self, node: Node, parent: Optional[DetailedError]) -> Iterator[DetailedError]:
        """The errors of a node with a message: most have one."""
        error = self._error(node, parent)
        if error.validator == "required":
            missing = [name for name in error.validator_value if name not in error.instance]
            yield from (self._renamed(node, parent, messages.required(name)) for name in missing)
        elif error.validator == "dependentRequired":
            for name, needed in error.validator_value.items():
                for it in needed if name in error.instance else ():
                    if it not in error.instance:
                        yield self._renamed(node, parent, messages.dependency(it, name))
        elif self._extras(node, None) is not None:
            yield self._unexpected(node, [node], parent)
        else:
            yield error

    def _error(self, node: Node, parent: Optional[DetailedError]) -> DetailedError:
        location, keyword_location = node["instanceLocation"], node["keywordLocation"]
        upgraded = node["absoluteKeywordLocation"]
        error = DetailedError(node["error"], location, keyword_location, original_location(upgraded, self._documents),
                              self._text, upgraded)
        error.parent = parent
        path = _path(self._instance, location)
        error.instance = _at(self._instance, path)
        if error.is_about_name:
            error.instance = path.pop()
        error._absolute_path = deque(path)
        error._absolute_schema_path = _schema_path(keyword_location)
        self._set_keyword(error)
        if error.validator is None:
            error.message = messages.false_schema(error.instance)
        elif error.validator == "oneOf" and (held := self._held(error)):
            # (What the other subschemas say isn't why it fails. The first that holds is named last.)
            error.message = messages.several(error.instance, [*held[1:], held[0]])
            return error
        else:
            error.message = messages.message(error.validator, error.validator_value, error.instance, error.message)
        for child in node.get("errors", ()):
            error.context += self.errors(child, error)
        return error

    def _renamed(self, node: Node, parent: Optional[DetailedError], message: str) -> DetailedError:
        error = self._error(node, parent)
        error.message = message
        return error

    def _set_keyword(self, error: DetailedError) -> None:
        """Sets the keyword, its value, and its schema."""
        found = original_of(error.upgraded_location, self._documents)
        last = schema_steps(error.keyword_location)[-1:]
        is_keyword = bool(last) and last[0].is_keyword
        if found is not None and found[1].value is False and not (is_keyword and last[0].token in _EXTRAS):
            error.schema = False
            return
        error.validator = error.keyword
        if found is not None and error.keyword == "not" and found[1].tokens[-1:] == ("contains",):
            # (So `contains` of 2019-09 is upgraded.)
            document, keyword = found
            error.validator, error.validator_value = "contains", keyword.value
            error.schema = value_of(Target(document, keyword.tokens[:-1]))
            return
        above = original_of(_above(error.upgraded_location), self._documents)
        if above is not None:
            schema, dialect = above[1].value, above[1].dialect
            # (In draft-03 the name of a type may stand in place of a schema.)
            error.schema = {"type": schema} if isinstance(schema, str) else schema
            error.validator_value = upgraded_value(error.schema, error.keyword, own_dialect(error.schema, dialect))

    def _held(self, error: DetailedError) -> list[Any]:
        """The subschemas of a `oneOf` that hold."""
        return [it for index, it in enumerate(error.validator_value)
                if self._holds(f"{error.upgraded_location}/{index}", error.instance)]

    def _extras(self, child: Node, node: Optional[Node]) -> Optional[list[Node]]:
        """The nodes of the members or items that there may not be, of which a node is one; None if it is none."""
        last = schema_steps(child["keywordLocation"])[-1:]
        if child.get("error") != "false schema" or not last or not last[0].is_keyword or last[0].token not in _EXTRAS:
            return None
        above = _above(child["instanceLocation"])
        return [it for it in (node or {}).get("errors", ()) if it["keywordLocation"] == child["keywordLocation"]
                and _above(it["instanceLocation"]) == above and it.get("error") == "false schema"]

    def _unexpected(self, child: Node, extras: list[Node], parent: Optional[DetailedError]) -> DetailedError:
        """One error for all members or items that there may not be."""
        error = self._error({**child, "instanceLocation": _above(child["instanceLocation"])}, parent)
        tokens = [steps(it["instanceLocation"])[-1] for it in extras]
        found = [error.instance[int(it)] for it in tokens] if isinstance(error.instance, (list, tuple)) else tokens
        assert error.validator is not None
        error.message = messages.unexpected(error.validator, error.schema, found)
        return error


def locations(tree: Node) -> Iterator[str]:
    """The instance locations of the errors that are made of a tree."""
    waiting = [tree]
    while waiting:
        node = waiting.pop()
        if "error" in node:
            yield from (node["instanceLocation"], _above(node["instanceLocation"]))
        waiting += node.get("errors", ())


def _above(pointer: str) -> str:
    """The JSON Pointer of the object or the array that holds a value."""
    return pointer.rpartition("/")[0]


def _path(value: Any, location: str) -> list[Union[str, int]]:
    """A JSON Pointer to what a value holds as names and indices."""
    path: list[Union[str, int]] = []
    for token in steps(location):
        step: Union[str, int] = int(token) if isinstance(value, (list, tuple)) else token
        path.append(step)
        value = value[step]
    return path


def _at(value: Any, path: Any) -> Any:
    for step in path:
        value = value[int(step)] if isinstance(value, (list, tuple)) else value[step]
    return value


def _schema_path(keyword_location: str) -> Path:
    """The steps of a keyword location without references, as pip's `jsonschema` has them."""
    found = schema_steps(keyword_location)
    return deque(step.token for step in found if not (step.is_keyword and step.token in _REFERENCES))
