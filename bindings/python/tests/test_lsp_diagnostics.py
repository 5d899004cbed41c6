"""The diagnostics of the language server for files with a schema: JSON, YAML, and what can't be read."""
import json
import unittest

from lsp_client import PERSON, Session, shown

try:
    import yaml
except ImportError:
    yaml = None

TWO = '{"name": "\U0001f600", "age": -1,\n "address": {"street": 1, "zip": "é"}}'

STREET = [(1, 23, 24, "type"), (1, 26, 31, "additionalProperties")]


class Instances(Session):
    def test_errors(self):
        """Scalars are underlined; of arrays and objects the name, or where they begin; columns count UTF-16 units."""
        self.start()
        found = self.open("a.person.json", TWO)
        self.assertEqual(shown(found), [(0, 22, 24, "minimum"), *STREET])
        self.assertEqual({it["source"] for it in found}, {"jschema"})
        [found] = [it for it in found if it["code"] == "minimum"]
        self.assertEqual(found["message"], "less than 0")
        [related] = found["relatedInformation"]
        self.assertEqual(related["location"]["uri"], self.uri("person.schema.json"))
        line = PERSON.split("\n")[related["location"]["range"]["start"]["line"]]
        self.assertEqual(line[related["location"]["range"]["start"]["character"]:][:9], '"minimum"')

    def test_older_draft(self):
        """The keyword of a schema of draft-07 is shown where it is written."""
        self.write("older.json", '{"$schema": "http://json-schema.org/draft-07/schema#",\n'
                                 ' "properties": {"a": {"items": [{"type": "null"}], "additionalItems": false}}}')
        self.start()
        found = self.open("a.json", '{"$schema": "older.json",\n "a": [1, 2]}')
        self.assertEqual(shown(found), [(1, 7, 8, "type"), (1, 10, 11, "items")])
        related = [it["location"] for error in found for it in error["relatedInformation"]]
        self.assertEqual([it["uri"] for it in related], [self.uri("older.json")] * 2)
        begins = [it["range"]["start"] for it in related]
        self.assertEqual(sorted((it["line"], it["character"]) for it in begins), [(1, 33), (1, 51)])

    def test_missing_member(self):
        self.start()
        self.assertEqual(shown(self.open("a.person.json", ' {"friends": [{"age": 1}]}')),
                         [(0, 1, 2, "required"), (0, 14, 15, "required")])
        self.assertEqual(shown(self.open("b.person.json", '{"name": "A", "friends": {}}')), [(0, 14, 23, "type")])

    def test_typing(self):
        self.start()
        self.open("a.person.json", TWO)
        self.assertEqual(shown(self.replace("a.person.json", (0, 23), (0, 24), "5")), [(0, 22, 24, "minimum"), *STREET])
        self.assertEqual(shown(self.replace("a.person.json", (0, 22), (0, 23), "")), STREET)
        self.assertEqual(shown(self.replace("a.person.json", (0, 9), (0, 9), "\n\n")),
                         [(line + 2, *others) for line, *others in STREET])

    def test_broken(self):
        """A text that isn't JSON has the place of that, and the last diagnostics, which move with the text."""
        self.start()
        self.open("a.person.json", TWO)
        moved = [(1, 23, 25, "minimum"), *((line + 1, *others) for line, *others in STREET)]
        self.assertEqual(shown(self.replace("a.person.json", (0, 0), (0, 1), "\n [")), [(1, 8, 9, "syntax"), *moved])
        self.assertEqual(shown(self.replace("a.person.json", (1, 1), (1, 2), "{")), moved)
        found = self.replace("a.person.json", (2, 0), (2, 0), "{")
        self.assertEqual(found[0]["message"], "expecting property name enclosed in double quotes")
        self.assertEqual((len(found), shown(found[:1])), (4, [(2, 0, 1, "syntax")]))

    def test_not_json(self):
        """What only the validator refuses, and what Python reads beyond JSON."""
        self.start()
        for text, at in (('["a",\n NaN]', (1, 1, 2)), ("[1e999, -Infinity]", (0, 8, 9)),
                         ('["a", "\\ud800"]', (0, 6, 7)), ("[" * 200 + "]" * 200, (0, 127, 128)),
                         ("[1e999]", (0, 1, 2)), ('"\x01"', (0, 1, 2)), ("{} x", (0, 3, 4)), ("[1,]", (0, 3, 4))):
            with self.subTest(text[:20]):
                self.assertEqual(shown(self.open(f"{len(text)}.person.json", text)), [(*at, "syntax")])

    def test_no_verdict(self):
        self.start()
        [found] = self.open("a.person.json", '{"name": "A",\n "age": 0.5}')
        self.assertEqual((shown([found]), found["severity"]), ([(1, 8, 11, "NotWhole")], 2))

    def test_many_errors(self):
        self.start()
        found = self.open("a.person.json", json.dumps({"name": "A", "friends": [1] * 1000}))
        self.assertEqual((len(found), found[-1]["message"]), (201, "800 more errors"))

    def test_empty(self):
        self.start()
        self.assertEqual(self.open("a.person.json", " \n"), [])

    def test_comments(self):
        self.start()
        self.write("settings.json", '{"properties": {"a": {"const": 1}}}')
        text = '// é\n{"$schema": "./settings.json", /* é */ "a": 2, }'
        self.assertEqual(shown(self.open("a.jsonc", text, "jsonc")), [(1, 44, 45, "const")])
        self.assertEqual(shown(self.open("a.json", text)), [(0, 0, 1, "syntax")])


@unittest.skipUnless(yaml, "PyYAML isn't installed")
class Yaml(Session):
    def test_errors(self):
        self.start()
        found = self.open("a.person.yaml", "name: é\nage: -1\naddress:\n  street: 1\n  zip: é\n", "yaml")
        self.assertEqual(shown(found), [(1, 5, 7, "minimum"), (3, 10, 11, "type"), (4, 2, 5, "additionalProperties")])

    def test_documents(self):
        self.start()
        found = self.open("a.person.yaml", "name: A\nage: -1\n---\nname: B\n---\n{}\n", "yaml")
        self.assertEqual(shown(found), [(1, 5, 7, "minimum"), (5, 0, 1, "required")])

    def test_broken(self):
        self.start()
        self.open("a.person.yaml", "name: A\nage: -1\n", "yaml")
        found = self.replace("a.person.yaml", (0, 0), (0, 0), "x\n")
        self.assertEqual((found[0]["code"], shown(found[1:])), ("syntax", [(2, 5, 7, "minimum")]))

    def test_schema_in_a_comment(self):
        self.start()
        text = "# yaml-language-server: $schema=person.schema.json\nage: 1\n"
        self.assertEqual(shown(self.open("a.yaml", text, "yaml")), [(1, 0, 1, "required")])
