"""Strings that break the `format` of a valid result. The validator takes `format` as an annotation, so this changes no
verdict. The libraries are those that pip's `jsonschema[format]` uses, and are imported when they are needed."""
from __future__ import annotations

import datetime
import ipaddress
import json
import re
from typing import Any, Callable, NamedTuple
from uuid import UUID

from .extras import MissingLibrary, library
from .locations import schema_steps, steps
from .outputs import parse

_DATE = re.compile(r"\d{4}-\d\d-\d\d", re.ASCII)
_UUID = re.compile(r"[0-9a-f]{8}(?:-[0-9a-f]{4}){3}-[0-9a-f]{12}", re.IGNORECASE)
_POINTER = re.compile(r"(?:/(?:[^~/]|~[01])*)*", re.DOTALL)


class Broken(NamedTuple):
    """A string that breaks a format."""

    message: str
    #: JSON Pointer to the string.
    instance_location: str
    #: URI of the keyword `format`, with a JSON Pointer as its fragment.
    absolute_keyword_location: str


class Formats:
    """Checks of the formats. `missing` has those that couldn't be checked, with what to install."""

    def __init__(self) -> None:
        self.missing: dict[str, str] = {}

    def holds(self, format: str, text: str) -> bool:
        """Whether a string is of a format. One that isn't known, or whose library isn't installed, is never broken."""
        check = CHECKS.get(format)
        try:
            return check is None or bool(check(text))
        except MissingLibrary as error:
            self.missing[format] = str(error)
            return True
        except (ValueError, OverflowError, re.error, RecursionError):
            return False

    def broken(self, basic: bytes, instance: bytes) -> list[Broken]:
        """The strings of an instance that break a format: by the annotations in its `basic` output."""
        found = []
        value: Any = None
        for unit in parse(basic).get("annotations", ()):
            format = unit["annotation"]
            step = schema_steps(unit["keywordLocation"])[-1]
            if step.token != "format" or not step.is_keyword or not isinstance(format, str):
                continue
            value = json.loads(instance) if value is None else value
            text = _at(value, unit["instanceLocation"])
            if isinstance(text, str) and not self.holds(format, text):
                found.append(Broken(f"breaks the format {format}", unit["instanceLocation"],
                                    unit["absoluteKeywordLocation"]))
        return found


def _at(value: Any, pointer: str) -> Any:
    for token in steps(pointer):
        value = value[int(token)] if isinstance(value, list) else value[token]
    return value


def _date(text: str) -> bool:
    return _DATE.fullmatch(text) is not None and datetime.date.fromisoformat(text) is not None


def _date_time(text: str) -> bool:
    return bool(library("rfc3339_validator", "the format date-time is checked").validate_rfc3339(text.upper()))


def _host_name(text: str) -> bool:
    return bool(library("fqdn", "the format hostname is checked").FQDN(text, min_labels=1).is_valid)


def _uri(rule: str) -> Callable[[str], bool]:
    def check(text: str) -> bool:
        return library("rfc3987", "URIs are checked").parse(text, rule=rule) is not None

    return check


def _duration(text: str) -> bool:
    isoduration = library("isoduration", "the format duration is checked")
    try:
        isoduration.parse_duration(text)
    except isoduration.DurationParsingException:
        return False
    # (It takes a comma and a sign, which RFC 3339 doesn't have.)
    return text.startswith("P") and text.endswith(tuple("DMYWHS"))


#: The formats that are checked.
CHECKS: dict[str, Callable[[str], Any]] = {
    "date": _date,
    "date-time": _date_time,
    "time": lambda text: _date_time("1970-01-01T" + text),
    "email": lambda text: "@" in text,
    "hostname": _host_name,
    "ipv4": ipaddress.IPv4Address,
    "ipv6": lambda text: "%" not in text and ipaddress.IPv6Address(text),
    "uri": _uri("URI"),
    "uri-reference": _uri("URI_reference"),
    "uuid": lambda text: _UUID.fullmatch(text) and UUID(text),
    "json-pointer": lambda text: _POINTER.fullmatch(text) is not None,
    "regex": re.compile,
    "duration": _duration,
}
