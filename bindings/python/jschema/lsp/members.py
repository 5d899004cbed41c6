"""Names and values as they are written into a document, and what stands for the value of a new member."""
from __future__ import annotations

import json
import re
from typing import Any

#: What stands for a value of a type until somebody writes another.
EMPTY: dict[str, Any] = {"string": "", "integer": 0, "number": 0, "boolean": False, "array": [], "object": {}}
# A scalar that YAML reads as the string that it looks like.
_BARE = re.compile(r"(?!(?:null|Null|NULL|true|True|TRUE|false|False|FALSE)$)[A-Za-z_/$][\w./$-]*(?: [\w./$-]+)*")


def written(value: Any, is_yaml: bool) -> str:
    """A value as it is written."""
    if is_yaml and isinstance(value, str) and _BARE.fullmatch(value):
        return value
    return json.dumps(value, ensure_ascii=False)


def values_of(schema: dict[str, Any]) -> list[Any]:
    """The one value that a schema allows, or else the one that it names as the default; none where it does neither."""
    return [schema[word] for word in ("const", "default") if word in schema][:1]


def names_in(value: Any) -> list[str]:
    """The names in the list of a keyword such as `required`, each once."""
    return [*dict.fromkeys(it for it in value if isinstance(it, str))] if isinstance(value, list) else []
