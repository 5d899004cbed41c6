"""A client of the language server, as the tests talk to it."""
import json
import os
import queue
import subprocess
import sys
import tempfile
import threading
import unittest
from pathlib import Path

#: How long a message may take.
SECONDS = 60


def once(test):
    """Skips a test with the engine of the program, as it is run with the library's."""
    if os.environ.get("JSCHEMA_LIBRARY") == "off":
        test.skipTest("no library")


def folder_of(test):
    """A folder that goes when the test ends."""
    folder = tempfile.TemporaryDirectory()
    test.addCleanup(folder.cleanup)
    return Path(folder.name).resolve()


class Client:
    """A server's process, and what it sends."""

    def __init__(self, folder, *arguments):
        self.process = subprocess.Popen([sys.executable, "-m", "jschema.lsp", *arguments], cwd=folder,
                                        stdin=subprocess.PIPE, stdout=subprocess.PIPE, stderr=subprocess.DEVNULL)
        self.received = queue.Queue()
        self.kept = []
        self.number = 0
        threading.Thread(target=self._read_all, daemon=True).start()

    def _read_all(self):
        while True:
            length = None
            while (line := self.process.stdout.readline()) not in (b"\r\n", b""):
                name, _, value = line.partition(b":")
                if name.lower() == b"content-length":
                    length = int(value)
            if length is None:
                self.received.put(None)
                return
            self.received.put(json.loads(self.process.stdout.read(length)))

    def send_bytes(self, data):
        self.process.stdin.write(data)
        self.process.stdin.flush()

    @staticmethod
    def framed(message):
        """The bytes of a message."""
        body = json.dumps({"jsonrpc": "2.0", **message}).encode()
        return b"Content-Length: %d\r\n\r\n%b" % (len(body), body)

    def send(self, message):
        self.send_bytes(self.framed(message))

    def notify(self, method, **params):
        self.send({"method": method, "params": params})

    def ask(self, method, **params):
        """Sends a request, and returns its id."""
        self.number += 1
        self.send({"id": self.number, "method": method, "params": params})
        return self.number

    def wait(self, fits):
        """The first message that fits, of those that came and nobody waited for, or that come."""
        for index, message in enumerate(self.kept):
            if fits(message):
                return self.kept.pop(index)
        while True:
            message = self.received.get(timeout=SECONDS)
            if message is None:
                raise EOFError("the server has ended")
            if fits(message):
                return message
            if "no validator" in message.get("params", {}).get("message", ""):
                raise AssertionError(message["params"]["message"])
            self.kept.append(message)

    def response(self, number):
        """The response to a request."""
        return self.wait(lambda it: it.get("id") == number and "method" not in it)

    def call(self, method, **params):
        """The result of a request."""
        response = self.response(self.ask(method, **params))
        if "error" in response:
            raise AssertionError(response["error"])
        return response["result"]

    def diagnostics(self, uri, version):
        """The diagnostics of a document's version."""
        found = self.wait(lambda it: it.get("method") == "textDocument/publishDiagnostics" and
                          it["params"]["uri"] == uri and it["params"].get("version") == version)
        return found["params"]["diagnostics"]

    def end(self):
        """Ends the session, and returns the exit status."""
        self.call("shutdown")
        self.notify("exit")
        return self.process.wait(SECONDS)

    def kill(self):
        self.process.kill()
        self.process.wait()
        self.process.stdin.close()
        self.process.stdout.close()


PERSON = """{
  "$schema": "https://json-schema.org/draft/2020-12/schema",
  "$id": "https://example.com/person",
  "title": "Person",
  "type": "object",
  "properties": {
    "name": {"title": "Name", "description": "As *written*.", "type": "string", "examples": ["Ada", "Bob"]},
    "age": {"$ref": "#/$defs/age"},
    "colour": {"enum": ["red", "green", null]},
    "address": {"$ref": "address.schema.json"},
    "friends": {"type": "array", "items": {"$ref": "#"}}
  },
  "required": ["name"],
  "$defs": {"age": {"title": "Age", "type": "integer", "minimum": 0, "default": 1}}
}
"""
ADDRESS = """{
  "$anchor": "address",
  "description": "Where a letter goes",
  "type": "object",
  "properties": {"street": {"type": "string"}, "city": {"const": "Łódź"}},
  "additionalProperties": false
}
"""
FILES = {"person.schema.json": PERSON, "address.schema.json": ADDRESS}
SCHEMAS = [{"fileMatch": ["*.person.json", "*.person.yaml"], "schema": "person.schema.json"}]
CAPABILITIES = {"textDocument": {
    "hover": {"contentFormat": ["markdown", "plaintext"]},
    "completion": {"completionItem": {"snippetSupport": True}},
    "documentSymbol": {"hierarchicalDocumentSymbolSupport": True},
    "codeAction": {"codeActionLiteralSupport": {"codeActionKind": {"valueSet": ["quickfix"]}}},
    "publishDiagnostics": {"relatedInformation": True}}}


class Session(unittest.TestCase):
    """A test with a server, in a folder with schemas. In texts `|` is where the cursor is."""

    ARGUMENTS = ()
    # Whether it is run with both engines.
    with_both = False

    def setUp(self):
        if not self.with_both:
            once(self)
        self.folder = folder_of(self)
        for name, text in FILES.items():
            self.write(name, text)
        self.client = Client(self.folder, *self.ARGUMENTS)
        self.addCleanup(self.client.kill)
        self.versions = {}

    def write(self, name, text):
        path = self.folder / name
        path.parent.mkdir(parents=True, exist_ok=True)
        path.write_text(text, "utf-8")

    def uri(self, name):
        return (self.folder / name).as_uri()

    #: What the client can do beside.
    WORKSPACE = {}

    def start(self, **settings):
        """Begins a session, and returns what the server can do."""
        result = self.client.call("initialize", processId=None, rootUri=self.folder.as_uri(),
                                  capabilities={**CAPABILITIES, "workspace": self.WORKSPACE},
                                  initializationOptions=settings or {"schemas": SCHEMAS})
        self.client.notify("initialized")
        return result

    def error(self, method, **params):
        """The code with which a request fails."""
        return self.client.response(self.client.ask(method, **params))["error"]["code"]

    def open(self, name, text, language="json"):
        """Opens a document, and returns its diagnostics."""
        self.versions[name] = 1
        self.client.notify("textDocument/didOpen", textDocument={"uri": self.uri(name), "languageId": language,
                                                                 "version": 1, "text": text})
        return self.client.diagnostics(self.uri(name), 1)

    def change(self, name, version, text):
        """Sends the whole text of a version."""
        self.client.notify("textDocument/didChange", textDocument={"uri": self.uri(name), "version": version},
                           contentChanges=[{"text": text}])

    def replace(self, name, begin, end, text):
        """Sends a change between two positions, and returns the diagnostics."""
        self.versions[name] += 1
        version = self.versions[name]
        between = {"start": position(*begin), "end": position(*end)}
        self.client.notify("textDocument/didChange", textDocument={"uri": self.uri(name), "version": version},
                           contentChanges=[{"range": between, "text": text}])
        return self.client.diagnostics(self.uri(name), version)

    def at_cursor(self, method, name, text):
        """The result of a request at the cursor of a text, which the document gets (it is opened if it isn't yet)."""
        before, _, after = text.partition("|")
        if name not in self.versions:
            self.open(name, "", "yaml" if name.endswith("yaml") else "json")
        self.versions[name] += 1
        self.change(name, self.versions[name], before + after)
        lines = before.split("\n")
        at = position(len(lines) - 1, len(lines[-1].encode("utf-16-le")) // 2)
        return self.client.call(f"textDocument/{method}", textDocument={"uri": self.uri(name)}, position=at)


def position(line, character):
    return {"line": line, "character": character}


def shown(diagnostics):
    """Diagnostics as they are compared, by their places: line, first and last character, code."""
    return sorted((it["range"]["start"]["line"], it["range"]["start"]["character"], it["range"]["end"]["character"],
                   it["code"]) for it in diagnostics)
