"""What a client can do, as it says when a session begins."""
from __future__ import annotations

from typing import Any, NamedTuple


class Client(NamedTuple):
    """What the client can show, take and answer."""

    is_markdown: bool = False
    has_snippets: bool = False
    #: Places in other documents that explain a diagnostic.
    has_related: bool = False
    #: Symbols in one another.
    has_tree: bool = True
    #: Actions with an edit; without it there are none.
    has_actions: bool = False
    #: Edits of a version of a document.
    has_versions: bool = False
    #: It can be asked to say which files have changed, and that the settings have; and what the settings are.
    can_watch: bool = False
    can_register: bool = False
    can_ask: bool = False


def client_of(capabilities: Any) -> Client:
    """What a client says that it can do."""
    text, space = _at(capabilities, "textDocument"), _at(capabilities, "workspace")
    return Client(is_markdown="markdown" in (_at(text, "hover", "contentFormat") or [])[:1],
                  has_snippets=bool(_at(text, "completion", "completionItem", "snippetSupport")),
                  has_related=bool(_at(text, "publishDiagnostics", "relatedInformation")),
                  has_tree=bool(_at(text, "documentSymbol", "hierarchicalDocumentSymbolSupport")),
                  has_actions=bool(_at(text, "codeAction", "codeActionLiteralSupport")),
                  has_versions=bool(_at(space, "workspaceEdit", "documentChanges")),
                  can_watch=bool(_at(space, "didChangeWatchedFiles", "dynamicRegistration")),
                  can_register=bool(_at(space, "didChangeConfiguration", "dynamicRegistration")),
                  can_ask=bool(_at(space, "configuration")))


def _at(value: Any, *names: str) -> Any:
    for name in names:
        value = value.get(name) if isinstance(value, dict) else None
    return value
