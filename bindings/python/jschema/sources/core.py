"""The scalars of YAML 1.2's core schema, as JSON texts."""
from __future__ import annotations

import json
import re
from typing import Optional

_NULL = frozenset(("", "~", "null", "Null", "NULL"))
_BOOLEANS = {"true": "true", "True": "true", "TRUE": "true", "false": "false", "False": "false", "FALSE": "false"}
_INTEGER = re.compile(r"([-+]?)([0-9]+)")
_OCTAL = re.compile(r"[-+]?0o?[0-7]+")
_HEXADECIMAL = re.compile(r"0x[0-9a-fA-F]+")
_FLOAT = re.compile(r"([-+]?)(\.[0-9]+|[0-9]+(?:\.[0-9]*)?)([eE][-+]?[0-9]+)?")
_NO_NUMBER = re.compile(r"[-+]?\.(?:inf|Inf|INF)|\.(?:nan|NaN|NAN)")
_SURROGATE = re.compile("[\ud800-\udfff]")


class NotCore(ValueError):
    """A scalar that is none of JSON's."""


def scalar(value: str, tag: Optional[str], is_plain: bool) -> str:
    """The JSON text of a scalar with a tag. `is_plain` says that it is written without a tag and without quotes."""
    if tag in ("str", "!") or tag is None and not is_plain:
        return json.dumps(string(value), ensure_ascii=False)
    found = _plain(value)
    if tag is None:
        return found[1]
    if tag not in ("null", "bool", "int", "float"):
        raise NotCore(f"the tag {tag} is none of YAML 1.2's core schema")
    if tag != found[0] and (tag, found[0]) != ("float", "int"):
        raise NotCore(f"{value!r} is no {tag}")
    return found[1]


def string(value: str) -> str:
    """A string, in which two escaped surrogates are one character, as in JSON."""
    if _SURROGATE.search(value):
        try:
            return value.encode("utf-16", "surrogatepass").decode("utf-16")
        except UnicodeDecodeError:
            raise NotCore("a lone surrogate is no character") from None
    return value


def _plain(value: str) -> tuple[str, str]:
    """The type of a plain scalar, and its JSON text."""
    if value in _NULL:
        return "null", "null"
    if value in _BOOLEANS:
        return "bool", _BOOLEANS[value]
    if value[0] in "+-.0123456789":
        return _number(value)
    return "str", json.dumps(value, ensure_ascii=False)


def _number(value: str) -> tuple[str, str]:
    if _OCTAL.fullmatch(value) and len(value.lstrip("+-")) > 1:
        raise NotCore(f"{value} is octal for some readers of YAML and not for others: write the number in base 10, "
                      f"or quote it")
    if whole := _INTEGER.fullmatch(value):
        digits = whole[2].lstrip("0") or "0"
        if len(digits) < len(whole[2]):
            raise NotCore(f"{value} begins with a zero: write the number without, or quote it")
        return "int", digits if whole[1] != "-" or digits == "0" else "-" + digits
    if _HEXADECIMAL.fullmatch(value):
        if len(value.lstrip("0x")) > 16:
            raise NotCore(f"{value} is beyond 64 bits")
        return "int", str(int(value, 16))
    if found := _FLOAT.fullmatch(value):
        return "float", _float(*found.groups(""))
    if _NO_NUMBER.fullmatch(value):
        raise NotCore(f"JSON has no number {value}")
    return "str", json.dumps(value, ensure_ascii=False)


def _float(sign: str, digits: str, exponent: str) -> str:
    whole, point, fraction = digits.partition(".")
    whole = whole.lstrip("0") or "0"
    return ("-" if sign == "-" else "") + whole + (f".{fraction or '0'}" if point else "") + exponent
