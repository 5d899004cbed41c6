"""A change of one character in a large file is answered while one types. The bound is generous: benchmarks/command
measures."""
import json
import os
import unittest

from lsp_client import Session

SIZE = 300_000
SECONDS = 0.2
SCHEMA = {
    "type": "object",
    "properties": {"rows": {"type": "array", "items": {
        "type": "object", "title": "Row", "required": ["id"], "additionalProperties": False, "properties": {
            "id": {"type": "integer"}, "name": {"type": "string"}, "tags": {"items": {"enum": ["a", "b", "c"]}},
            "nested": {"$ref": "#/$defs/nested"}, "active": {"type": "boolean"}}}}},
    "$defs": {"nested": {"type": "object", "properties": {"x": {"type": "integer"}, "y": {"type": "array"}}}}}
# What is typed, what was there, and how many problems the document then has.
CHANGES = {"another letter in a string": ("name ", "nane ", 0), "a value that breaks off": (": true", ": tru1", 1),
           "a name that isn't allowed": ("tags", "tagz", 1)}
YAML_CHANGES = {"another letter in a string": ("name ", "nane ", 0), "a quote without its end": ("name ", '"name ', 1),
                "a bracket without its end": ("name ", "[name ", 1), "a colon too many": ("name ", "name: ", 1),
                "a line further left": ("  active", " active", 1), "another first name": ("id: ", "jd: ", 2)}


def rows(size):
    """The text of rows with a size, an odd number of them."""
    def row(number):
        return {"id": number, "name": f"name {number}", "tags": ["a", "b"], "nested": {"x": number, "y": [1, None]},
                "active": number % 2 == 0}
    each = len(json.dumps([row(1000)], indent=1))
    return json.dumps({"rows": [row(number) for number in range(size // each | 1)]}, indent=1)


class Speed(Session):
    def test_json(self):
        text = rows(SIZE)
        self.assertGreater(len(text), SIZE)
        for what, change in CHANGES.items():
            with self.subTest(what):
                self.typed("json", text, *change)

    def test_yaml(self):
        """Only the block with the change is read again; of a text that isn't YAML any more, what stands near it."""
        try:
            import yaml
        except ImportError:
            self.skipTest("PyYAML isn't installed")
        text = yaml.safe_dump(json.loads(rows(3 * SIZE // 2)), sort_keys=False)
        self.assertGreater(len(text), SIZE)
        for what, change in YAML_CHANGES.items():
            with self.subTest(what):
                self.typed("yaml", text, *change)

    def typed(self, kind, text, found, new, problems):
        """Types in the middle of a document, and there again."""
        name = f"large.{len(self.versions)}.{kind}"
        if not self.versions:
            self.start(schemas=[{"fileMatch": ["large.*"], "schema": SCHEMA}])
        self.open(name, text, kind)
        lines = text.split("\n")
        line = next(it for it in range(len(lines) // 2, len(lines)) if found in lines[it])
        at = lines[line].index(found)
        taken = []
        for old, put, count in 4 * ((found, new, problems), (new, found, 0)):
            before = self.processor()
            self.assertEqual(len(self.replace(name, (line, at), (line, at + len(old)), put)), count)
            taken.append(self.processor() - before)
        self.assertLess(min(taken), SECONDS)

    def processor(self):
        """The processor's seconds that the server has had."""
        with open(f"/proc/{self.client.process.pid}/stat", encoding="ascii") as file:
            words = file.read().rpartition(")")[2].split()
        return (int(words[11]) + int(words[12])) / os.sysconf("SC_CLK_TCK")
