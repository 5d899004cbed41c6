"""The command on files of YAML and TOML, and on JSON with comments: schemas and instances."""
import json
import unittest

from commands import Case
from test_sources import tomllib, yaml

SCHEMA = {"properties": {"age": {"minimum": 0}, "name": {"type": "string"}}, "required": ["name"]}


class Kinds(Case):
    def setUp(self):
        self.write("s.json", json.dumps(SCHEMA))

    def short(self, *words, given=""):
        """The lines that are about instances or a schema, and the exit status."""
        out, said, status = self.run_command("validate", "--format", "short", *words, given=given)
        return [line.partition(" (")[0] for line in (out + said).splitlines()], status

    @unittest.skipUnless(yaml, "PyYAML isn't installed")
    def test_yaml(self):
        """Each document is an instance, and what is refused has its place in the text."""
        self.write("two.yaml", "# c\nname: Ada\n---\nage: -1\nname: &a [b]\n")
        self.write("half.yml", "name: x\nage:\n  0.5\n")
        self.write("octal.yaml", "name: x\n---\nage: 010\n")
        self.write("date.yaml", "name: 2020-01-01\nage: 0x10\n")
        found, status = self.short("s.json", "two.yaml", "half.yml", "octal.yaml", "date.yaml")
        self.assertEqual([line.split(":")[:3] for line in found[:4]], [
            ["two.yaml", "4", "6"], ["two.yaml", "5", "7"], ["half.yml", "3", "3"], ["octal.yaml", "3", "6"]])
        self.assertEqual((found[4:], status), (["3 valid, 1 invalid"], 3))

    @unittest.skipUnless(yaml, "PyYAML isn't installed")
    def test_schema_of_yaml(self):
        """The report has the keyword's place in it, and a refusal the place of what is refused."""
        self.write("s.yaml", "properties:\n  age:\n    minimum: 0\n")
        self.write("one.json", '{"age": -1}')
        out, _, status = self.run_command("validate", "s.yaml", "one.json")
        self.assertIn(" --> one.json:1:9\n", out)
        self.assertIn(" = s.yaml:3:5: minimum\n", out)
        self.assertEqual(status, 1)
        self.write("bad.yaml", "properties:\n  age:\n    minimum: '0'\n")
        found, status = self.short("bad.yaml", "one.json")
        self.assertEqual((found[0].split(":")[:4], status), (["bad.yaml", "3", "14", " refused"], 3))

    @unittest.skipUnless(tomllib, "needs tomllib (Python 3.11)")
    def test_toml(self):
        self.write("s.toml", '[properties]\nname = {type = "string"}\n[properties.age]\nminimum = 0\n')
        self.write("one.toml", 'name = "é"\n\n  age = -1 # c\n')
        self.write("half.toml", "age = 0.5\n")
        self.write("torn.toml", "age = 1\nage = 2\n")
        found, status = self.short("s.toml", "one.toml", "half.toml", "torn.toml")
        self.assertEqual([line.split(":")[:3] for line in found[:3]],
                         [["one.toml", "3", "9"], ["half.toml", "1", "7"], ["torn.toml", "2", "8"]])
        self.assertEqual((found[3:], status), (["0 valid, 1 invalid"], 3))
        out, _, _ = self.run_command("validate", "s.toml", "one.toml")
        self.assertIn("3 |   age = -1 # c\n  |         ^^ /age\n  = s.toml:4:1: minimum\n", out)

    def test_jsonc(self):
        self.write("s.jsonc", '// c\n{"properties": {"age": {/* é */ "minimum": 0},},}')
        self.write("one.jsonc", '{\n // é\n "age": -1, // c\n}')
        out, _, status = self.run_command("validate", "s.jsonc", "one.jsonc")
        self.assertIn(" --> one.jsonc:3:9\n", out)
        self.assertIn(" = s.jsonc:2:33: minimum\n", out)
        self.assertEqual(status, 1)
        self.assertEqual(self.short("s.json", "-", given='{"name": "x"} // c')[1], 3)
        self.assertEqual(self.short("--input", "jsonc", "s.json", "-", given='{"name": "x"} // c')[1], 0)


if __name__ == "__main__":
    unittest.main()
