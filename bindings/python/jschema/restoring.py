"""What stands in rewritten documents, in the words of the documents that they were."""
from __future__ import annotations

import json
from collections.abc import Iterable, Mapping
from typing import Any, NamedTuple, Optional, Protocol
from urllib.parse import unquote

from .changes import Change
from .errors import Refused, ValidationError
from .locations import pointer, steps
from .outputs import parse
from .resources import Document, document_with, original_of
from .uris import fragment_of, with_pointer

_Tokens = tuple[str, ...]
_NAMES = "patternProperties"


class Place(NamedTuple):
    """A keyword that became another, or a name."""

    tokens: _Tokens
    change: Change
    is_name: bool


class Changed(Protocol):
    """A document that was rewritten."""

    @property
    def document(self) -> Document:
        """The document, whose value is rewritten."""

    def places(self) -> dict[_Tokens, Place]:
        """What became of keywords and names, by the tokens that they have now."""


class Restoring:
    """Leads from rewritten documents, and what they are upgraded to, to what they were. `names` are those in
    `patternProperties` that stand for others."""

    def __init__(self, documents: Mapping[int, Changed], names: Mapping[str, str]) -> None:
        self._given, self._names = documents, names
        self._places = {index: places for index, it in documents.items() if (places := it.places())}
        # (Made when they are needed.)
        self._documents: Optional[dict[int, Document]] = None

    def refusal(self, refused: Refused) -> None:
        """Puts the place of a refusal, which is one in a rewritten document, into words of the document."""
        if refused.index in self._places and refused.place and not refused.is_upgraded:
            found = self._found(refused.index, tuple(steps(refused.place)))
            if found is not None:
                length, place = found
                rest = steps(refused.place)[length:] if place.is_name else ()
                refused.place = pointer([*place.tokens, *rest])

    def errors(self, given: list[ValidationError]) -> list[ValidationError]:
        """Errors at the keywords that there were. Those of what one keyword became are one."""
        if not self._places:
            return given
        found = _Once()
        for it in given:
            unit = self._unit(it.absolute_keyword_location, it.keyword_location, it.message)
            found.add((it.instance_location, unit.location), unit.is_made, ValidationError(
                unit.message, it.instance_location, unit.location, unit.absolute, it.text))
        return found.kept

    def tree(self, text: bytes) -> bytes:
        """The output `detailed`, with the same errors."""
        if not self._places:
            return text
        try:
            return json.dumps(self._node(parse(text))).encode()
        except RecursionError:
            return text

    def location(self, uri: str) -> str:
        """The absolute location of a keyword."""
        return self._unit(uri, "", "").absolute if self._places else uri

    def schema(self, uri: str) -> Optional[str]:
        """The absolute location of a schema. None for one that the documents hadn't."""
        found = self._change(uri) if self._places else None
        return self._named_uri(uri) if found is None or found[1].is_name else None

    def renamed(self, uri: str, names: Mapping[str, str]) -> str:
        """The URI of a schema with the names that it leads through now; what it was if there is no such schema."""
        made = with_pointer(uri, _renamed(steps(unquote(fragment_of(uri))), names))
        return uri if original_of(made, [*self._walked().values()]) is None else made

    def _node(self, node: dict[str, Any]) -> dict[str, Any]:
        unit = self._unit(node["absoluteKeywordLocation"], node["keywordLocation"], node.get("error", ""))
        made: dict[str, Any] = {**node, "absoluteKeywordLocation": unit.absolute, "keywordLocation": unit.location}
        if unit.is_made:
            # (What the keyword became isn't shown.)
            made.pop("errors", None)
        if unit.is_made or "error" in node:
            made["error"] = unit.message
        if "errors" in made:
            below = _Once()
            for child in node["errors"]:
                it = self._node(child)
                is_made = it["keywordLocation"] != child["keywordLocation"]
                below.add((it["instanceLocation"], it["keywordLocation"]), is_made, it)
            made["errors"] = below.kept
        return made

    def _unit(self, absolute: str, keyword_location: str, message: str) -> _Unit:
        """Where an error is, and what it says, in the words of the documents."""
        location = steps(keyword_location)
        found = self._change(absolute)
        is_made = False
        if found is not None and not found[1].is_name:
            length, place = found
            message = place.change.message or message
            fragment = steps(unquote(fragment_of(absolute)))
            is_made = place.change.before != place.change.now
            if is_made:
                location[-length:] = place.change.before
                absolute = with_pointer(absolute, [*fragment[:-length], *place.change.before])
        return _Unit(self._named_uri(absolute), pointer(_renamed(location, self._names)), message, is_made)

    def _change(self, uri: str) -> Optional[tuple[int, Place]]:
        """The change that an absolute location is in, and how many of its last tokens are in it."""
        documents = self._walked()
        found = original_of(uri, [*documents.values()])
        if found is None:
            return None
        index = next(index for index, it in documents.items() if it is found[0])
        tokens = found[1].tokens
        change = self._found(index, tokens)
        if change is None:
            return None
        length, place = change
        return len(tokens) - length + len(place.change.now), place

    def _walked(self) -> dict[int, Document]:
        """The documents as they are now."""
        if self._documents is None:
            # (Walked again, since names are others now.)
            self._documents = {index: document_with(it.document.uri, it.document.source, it.document.value,
                                                    it.document.dialect) for index, it in self._given.items()}
        return self._documents

    def _found(self, index: int, tokens: _Tokens) -> Optional[tuple[int, Place]]:
        """The innermost change that tokens lead into, and how many of them lead to it."""
        places = self._places.get(index, {})
        return next(((length, places[tokens[:length]]) for length in range(len(tokens), 0, -1)
                     if tokens[:length] in places), None)

    def _named_uri(self, uri: str) -> str:
        """A URI with the names that there were."""
        if not self._names or _NAMES not in uri:
            return uri
        tokens = steps(unquote(fragment_of(uri)))
        made = _renamed(tokens, self._names)
        return uri if made == tokens else with_pointer(uri, made)


def _renamed(tokens: Iterable[str], names: Mapping[str, str]) -> list[str]:
    """Tokens with other names in `patternProperties`."""
    found: list[str] = []
    before = ""
    for token in tokens:
        found.append(names.get(token, token) if before == _NAMES else token)
        before = token
    return found


class _Unit(NamedTuple):
    """An error, without the instance. `is_made` says that its keyword became several."""

    absolute: str
    location: str
    message: str
    is_made: bool


class _Once:
    """Errors, of which those at one place are one if the keyword there became several."""

    def __init__(self) -> None:
        self.kept: list[Any] = []
        self._seen: dict[tuple[str, str], bool] = {}

    def add(self, place: tuple[str, str], is_made: bool, error: Any) -> None:
        """Takes an error, unless it is there."""
        if place not in self._seen or not (is_made or self._seen[place]):
            self.kept.append(error)
        self._seen[place] = is_made or self._seen.get(place, False)
