"""The server: what the client asks for, one message after another. Diagnostics are made when no message waits."""
from __future__ import annotations

import argparse
import os
import sys
import traceback
from typing import Any, Callable, Optional

from ..errors import EngineError
from ..interface import VERSION
from . import actions
from .client import Client, client_of
from .completion import completion
from .definition import definition
from .diagnostics import Diagnoses
from .documents import Document
from .hover import hover
from .protocol import Code, Connection, Failure, Id, Message
from .ranges import Span, path_of
from .settings import read as read_settings
from .settings import read_file
from .symbols import symbols
from .workspace import Workspace

_ERROR, _WARNING = 1, 2
_INCREMENTAL = 2
_CAPABILITIES = {
    "positionEncoding": "utf-16",
    "textDocumentSync": {"openClose": True, "change": _INCREMENTAL, "save": True},
    "hoverProvider": True,
    "completionProvider": {"triggerCharacters": ['"', ":", " ", "/", "#"]},
    "definitionProvider": True,
    "documentSymbolProvider": True,
}
_WATCHED = ("**/*.json", "**/*.jsonc", "**/*.yaml", "**/*.yml")


class Server:
    """A session with a client. Settings may also stand in a file, whose path starts from the client's folder."""

    def __init__(self, connection: Connection, settings: Optional[str] = None) -> None:
        self._connection = connection
        self._settings = settings
        self._workspace = Workspace()
        self._diagnoses = Diagnoses(self._workspace)
        self._client = Client()
        # The settings that the client has sent without being asked.
        self._sent: Any = None
        self._is_initialized = self._is_shut_down = False
        # What is done with the answer to each request of the server, by its id.
        self._asked: dict[Id, Callable[[Any], None]] = {}
        # The documents whose diagnostics are to be made, by their URIs.
        self._pending: dict[str, None] = {}
        self._shown: set[str] = set()

    def run(self) -> int:
        """Serves until the client ends the session, and returns the exit status."""
        self._connection.start()
        while True:
            self._diagnose_while_idle()
            message = self._connection.receive()
            if message is None:
                return 1
            if message.get("method") == "exit":
                return 0 if self._is_shut_down else 1
            if "method" in message:
                self._handle(message)
            elif message.get("id") in self._asked:
                self._take_answer(self._asked.pop(message["id"]), message)

    def _handle(self, message: Message) -> None:
        method, params = message["method"], message.get("params") or {}
        try:
            if "id" in message:
                self._connection.check_cancelled(message["id"])
                self._connection.respond(message["id"], self._answer(message["id"], method, params))
            elif self._is_initialized and method in _NOTIFICATIONS:
                _NOTIFICATIONS[method](self, params)
        except Failure as failure:
            self._fail(message, failure)
        except EngineError as error:
            self._show(_ERROR, f"jschema has no validator: {error}")
            self._fail(message, Failure(Code.REQUEST_FAILED, str(error)))
        except (LookupError, TypeError, AttributeError, ValueError) as error:
            traceback.print_exc()
            self._fail(message, Failure(Code.INVALID_PARAMS, f"{method}: {type(error).__name__}: {error}"))
        except Exception as error:  # The session goes on, whatever one request comes to.
            traceback.print_exc()
            self._fail(message, Failure(Code.INTERNAL_ERROR, f"{method}: {type(error).__name__}: {error}"))

    def _take_answer(self, taker: Callable[[Any], None], message: Message) -> None:
        """Takes the client's answer to a request; of one that fails nothing comes."""
        try:
            if "result" in message:
                taker(message["result"])
        except Exception:  # The session goes on, whatever the client answers.
            traceback.print_exc()

    def _fail(self, message: Message, failure: Failure) -> None:
        if "id" in message:
            self._connection.fail(message["id"], failure)

    def _answer(self, request: Id, method: str, params: Message) -> Any:
        """The result of a request."""
        if method == "initialize":
            return self._initialize(params)
        if not self._is_initialized:
            raise Failure(Code.NOT_INITIALIZED, "the session begins with initialize")
        if self._is_shut_down:
            raise Failure(Code.INVALID_REQUEST, "the session is shut down")
        if method == "shutdown":
            self._is_shut_down = True
            return None
        if method not in _REQUESTS:
            raise Failure(Code.METHOD_NOT_FOUND, f"no method {method}")
        document = self._workspace.documents.get(params["textDocument"]["uri"])
        if document is None:
            raise Failure(Code.INVALID_PARAMS, f"{params['textDocument']['uri']} isn't open")
        return _REQUESTS[method](self, request, document, params)

    def _initialize(self, params: Message) -> Message:
        if self._is_initialized:
            raise Failure(Code.INVALID_REQUEST, "initialize is the first request, and the only one of its kind")
        folders = params.get("workspaceFolders") or [{"uri": params.get("rootUri") or ""}]
        self._workspace.folder = path_of(folders[0]["uri"]) or params.get("rootPath") or self._workspace.folder
        self._client = client_of(params.get("capabilities"))
        self._is_initialized = True
        self._sent = params.get("initializationOptions")
        self._configured(self._sent)
        fixes = {"codeActionProvider": {"codeActionKinds": [actions.QUICK_FIX]}} if self._client.has_actions else {}
        return {"capabilities": {**_CAPABILITIES, **fixes},
                "serverInfo": {"name": "jschema-lsp", "version": VERSION}}

    # ---- notifications

    def _initialized(self, params: Message) -> None:
        wanted: list[Message] = []
        if self._client.can_watch:
            options = {"watchers": [{"globPattern": it} for it in _WATCHED]}
            wanted.append({"id": "files", "method": "workspace/didChangeWatchedFiles", "registerOptions": options})
        if self._client.can_register:
            wanted.append({"id": "settings", "method": "workspace/didChangeConfiguration"})
        if wanted:
            self._connection.request("client/registerCapability", {"registrations": wanted})
        self._ask_for_settings()

    def _ask_for_settings(self) -> None:
        """Asks for the settings below `jschema`, of clients that have an answer."""
        if self._client.can_ask:
            asked = self._connection.request("workspace/configuration", {"items": [{"section": "jschema"}]})
            self._asked[asked] = self._answered

    def _answered(self, result: Any) -> None:
        """Takes the settings that the client answers; without any, those that it has sent."""
        settings = result[0] if isinstance(result, list) and result else None
        self._configured(settings or self._sent)
        self._all_pending()

    def _configure(self, params: Message) -> None:
        settings = params.get("settings")
        # (Without any settings the ones of before stay: some clients only say that something has changed.)
        if settings:
            self._sent = settings
            self._configured(settings)
        self._ask_for_settings()
        self._all_pending()

    def _configured(self, given: Any) -> None:
        """Takes settings, and beside them those of the file."""
        folder = self._workspace.folder
        found = [read_settings(given, folder, self._warn)]
        if self._settings is not None:
            found.append(read_file(os.path.join(folder, self._settings), self._warn))
        self._workspace.configure(found)

    def _open(self, params: Message) -> None:
        given = params["textDocument"]
        document = Document(given["uri"], given.get("languageId", ""), given["version"], given["text"])
        self._workspace.open(document)
        self._changed(document)

    def _change(self, params: Message) -> None:
        given = params["textDocument"]
        document = self._workspace.documents.get(given["uri"])
        if document is None or given["version"] <= document.version:
            self._show(_WARNING, f"a change of {given['uri']} is out of order, and isn't taken")
            return
        document.change(given["version"], params["contentChanges"])
        self._changed(document)

    def _save(self, params: Message) -> None:
        document = self._workspace.documents.get(params["textDocument"]["uri"])
        if document is not None:
            self._changed(document)

    def _close(self, params: Message) -> None:
        uri = params["textDocument"]["uri"]
        document = self._workspace.documents.get(uri)
        if document is None:
            return
        users = self._workspace.users_of(document)
        self._workspace.close(uri)
        self._diagnoses.forget(uri)
        self._pending.pop(uri, None)
        self._pending.update(dict.fromkeys(it.uri for it in users))
        self._connection.notify("textDocument/publishDiagnostics", {"uri": uri, "diagnostics": []})

    def _files_changed(self, params: Message) -> None:
        self._workspace.store.forget()
        self._all_pending()

    def _changed(self, document: Document) -> None:
        self._pending[document.uri] = None
        self._pending.update(dict.fromkeys(it.uri for it in self._workspace.users_of(document)))

    def _all_pending(self) -> None:
        self._pending.update(dict.fromkeys(self._workspace.documents))

    # ---- requests

    def _hover(self, _: Id, document: Document, params: Message) -> Any:
        return hover(self._workspace, document, document.lines.offset(params["position"]), self._client.is_markdown)

    def _completion(self, _: Id, document: Document, params: Message) -> Any:
        return completion(self._workspace, document, document.lines.offset(params["position"]), self._client)

    def _definition(self, _: Id, document: Document, params: Message) -> Any:
        return definition(self._workspace, document, document.lines.offset(params["position"]))

    def _symbols(self, request: Id, document: Document, _: Message) -> Any:
        found = symbols(document, lambda: self._connection.check_cancelled(request))
        return found if self._client.has_tree else None

    def _actions(self, _: Id, document: Document, params: Message) -> Any:
        context = params.get("context") or {}
        if not self._client.has_actions or not actions.is_asked(context.get("only")):
            return []
        if document.uri in self._pending:
            self._diagnose(document)
        asked = Span(*(document.lines.offset(params["range"][it]) for it in ("start", "end")))
        return actions.actions(self._workspace, document, self._diagnoses.last(document), asked, self._client)

    # ---- diagnostics

    def _diagnose_while_idle(self) -> None:
        """Makes the diagnostics that are due, until a message comes."""
        while self._pending and self._connection.is_idle():
            document = self._workspace.documents[next(iter(self._pending))]
            try:
                self._diagnose(document)
            except EngineError as error:
                self._show(_ERROR, f"jschema has no validator: {error}")
            except Exception as error:  # Other documents are still served.
                traceback.print_exc()
                self._show(_ERROR, f"{document.uri}: {type(error).__name__}: {error}")

    def _diagnose(self, document: Document) -> None:
        """Makes the diagnostics of a document, and sends them."""
        del self._pending[document.uri]
        found = [it.written(document.lines, self._client.has_related) for it in self._diagnoses.of(document)]
        self._connection.notify("textDocument/publishDiagnostics",
                                {"uri": document.uri, "version": document.version, "diagnostics": found})

    # ---- messages to the person

    def _warn(self, message: str) -> None:
        self._show(_WARNING, message)

    def _show(self, kind: int, message: str) -> None:
        """Shows a message, once."""
        if message not in self._shown:
            self._shown.add(message)
            self._connection.notify("window/showMessage", {"type": kind, "message": message})


_NOTIFICATIONS: dict[str, Callable[[Server, Message], None]] = {
    "initialized": Server._initialized,
    "workspace/didChangeConfiguration": Server._configure,
    "workspace/didChangeWatchedFiles": Server._files_changed,
    "textDocument/didOpen": Server._open,
    "textDocument/didChange": Server._change,
    "textDocument/didSave": Server._save,
    "textDocument/didClose": Server._close,
}
_REQUESTS: dict[str, Callable[[Server, Id, Document, Message], Any]] = {
    "textDocument/hover": Server._hover,
    "textDocument/completion": Server._completion,
    "textDocument/definition": Server._definition,
    "textDocument/codeAction": Server._actions,
    "textDocument/documentSymbol": Server._symbols,
}


def main(words: Optional[list[str]] = None) -> int:
    """Serves a client over standard input and output. The arguments are by default those of the process."""
    parser = argparse.ArgumentParser(prog="jschema-lsp", description="Serves an editor by the Language Server Protocol "
                                     "3.17, over standard input and output: files with a schema, and schemas.")
    parser.add_argument("--settings", metavar="FILE", help="a JSON file of settings; a relative path starts from the "
                                                           "editor's folder (see docs/EDITORS.md)")
    # (Many clients add it.)
    parser.add_argument("--stdio", action="store_true", help="the only way to serve, so it changes nothing")
    settings = parser.parse_args(words).settings
    # (A reader of its own: Python ends with a fault where another thread reads from `sys.stdin`.)
    with open(sys.stdin.fileno(), "rb", closefd=False) as reader:
        connection = Connection(reader, sys.stdout.buffer)
        # What anything else prints isn't a message.
        sys.stdout = sys.stderr
        return Server(connection, settings).run()
