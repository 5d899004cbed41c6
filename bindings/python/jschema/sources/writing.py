"""A tree as a JSON text."""
from __future__ import annotations

import json

from .tree import Node

_written = json.JSONEncoder(ensure_ascii=False).encode
# The longest text of an array or an object that is kept, so that it needn't be made again after a change elsewhere. It
# is kept only in a longer one, so what is kept has no more characters than the whole text.
_LONGEST = 4096


def written(root: Node) -> bytes:
    """The JSON text of a tree. (What nests deeper than the validator takes was refused before.)"""
    return _text(root).encode()


def _text(node: Node) -> str:
    if node.text is not None:
        return node.text
    content = node.content
    if isinstance(content, str):
        return content
    if isinstance(content, list):
        children = content
        texts = [*map(_text, children)]
        made = f"[{','.join(texts)}]"
    else:
        children = [member.value for member in content.values()]
        texts = [*map(_text, children)]
        made = f"{{{','.join(f'{_written(name)}:{text}' for name, text in zip(content, texts))}}}"
    if len(made) > _LONGEST:
        for child, text in zip(children, texts):
            child.text = text if len(text) <= _LONGEST else None
    return made
