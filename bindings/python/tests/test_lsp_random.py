"""Whatever a text is, and wherever the cursor, the language server has an answer."""
import json
import random
import unittest

from lsp_client import ADDRESS, FILES, PERSON, folder_of, once

from jschema.lsp.client import Client
from jschema.lsp.completion import completion
from jschema.lsp.definition import definition
from jschema.lsp.diagnostics import Diagnoses
from jschema.lsp.documents import Document
from jschema.lsp.hover import hover
from jschema.lsp.settings import read
from jschema.lsp.symbols import symbols
from jschema.lsp.workspace import Workspace

INSTANCE = json.dumps({"name": "Ada", "age": 5, "colour": "red",
                       "friends": [{"name": "B", "address": {"street": "é"}}]}, ensure_ascii=False, indent=1)
YAML = "name: Ada\nage: 5\nfriends:\n- name: B\n  address: {street: é}\n- &b\n  name: 'C'\n- *b\n---\nage: |\n  x\n"
PIECES = ('"', "{", "}", "[", "]", ",", ":", "\n", " ", "- ", "5", "0.5", "\\", "$ref", "#", "'", "é", "\U0001f600",
          "null")


class AnyText(unittest.TestCase):
    def setUp(self):
        once(self)
        self.folder = folder_of(self)
        for name, text in FILES.items():
            (self.folder / name).write_text(text, "utf-8")
        self.workspace = Workspace()
        self.workspace.folder = str(self.folder)
        settings = {"schemas": [{"fileMatch": ["*.person.*"], "schema": "person.schema.json"}]}
        self.workspace.configure([read(settings, str(self.folder), self.fail)])
        self.numbers = random.Random(11)

    def edited(self, text):
        """A text with a piece put in, or taken out, at random."""
        begin = self.numbers.randrange(len(text) + 1)
        end = begin + self.numbers.choice((0, 0, 0, 1, 5))
        return text[:begin] + self.numbers.choice(PIECES) + text[end:]

    def ask_all(self, name, language, text, count):
        """Asks for everything, at random places of random edits of a text."""
        document = Document((self.folder / name).as_uri(), language, 1, text)
        self.workspace.open(document)
        diagnoses = Diagnoses(self.workspace)
        for version in range(2, count):
            changed = self.edited(text if version % 5 == 0 else document.text)
            document.change(version, [{"text": changed}])
            for it in diagnoses.of(document):
                self.assertTrue(0 <= it.span.begin <= it.span.end <= len(changed), (changed, it))
            offset = self.numbers.randrange(len(changed) + 1)
            hover(self.workspace, document, offset, True)
            definition(self.workspace, document, offset)
            symbols(document, lambda: None)
            for item in completion(self.workspace, document, offset, Client(True, True))["items"]:
                edit = item["textEdit"]["range"]
                self.assertLessEqual(document.lines.offset(edit["start"]), offset, (changed, item))
                self.assertGreaterEqual(document.lines.offset(edit["end"]), offset, (changed, item))

    def test_json(self):
        self.ask_all("a.person.json", "json", INSTANCE, 120)

    def test_comments(self):
        self.ask_all("a.person.json", "jsonc", "// é\n" + INSTANCE, 30)

    def test_yaml(self):
        try:
            import yaml  # noqa: F401
        except ImportError:
            self.skipTest("PyYAML isn't installed")
        self.ask_all("a.person.yaml", "yaml", YAML, 80)

    def test_schemas(self):
        self.ask_all("person.schema.json", "json", PERSON, 60)
        self.ask_all("address.schema.json", "json", ADDRESS, 30)
