"""Quick fixes of the language server: what they change, and what the text is then."""
import json
import unittest

from lsp_client import SCHEMAS, Session, position

try:
    import yaml
except ImportError:
    yaml = None

MEMBERS = {
    "type": "object", "required": ["name", "age", "kind", "tags", "on", "other"],
    "properties": {"name": {"type": "string"}, "age": {"$ref": "#/$defs/age"}, "kind": {"enum": ["a b", "c"]},
                   "tags": {"type": ["array", "null"]}, "on": {"default": True}, "below": {"$ref": "#"}},
    "$defs": {"age": {"$ref": "#/$defs/whole"}, "whole": {"type": "integer"}}}
# All that MEMBERS requires, as it is inserted.
ALL = '"name": "", "age": 0, "kind": "a b", "tags": [], "on": true, "other": null'


class Actions(Session):
    def actions(self, name, begin, end=None, **context):
        """The quick fixes between two positions."""
        return self.client.call("textDocument/codeAction", textDocument={"uri": self.uri(name)},
                                range={"start": position(*begin), "end": position(*(end or begin))},
                                context={"diagnostics": [], **context})

    def fixed(self, name, text, at, language="json"):
        """The title of the only quick fix at a position, and the text after it."""
        self.open(name, text, language)
        [action] = self.actions(name, at)
        self.assertEqual((action["kind"], action["isPreferred"]), ("quickfix", True))
        [edits] = action["edit"]["changes"].values()
        self.assertEqual([*action["edit"]["changes"]], [self.uri(name)])
        for edit in edits:
            begin, end = (self.offset(text, edit["range"][it]) for it in ("start", "end"))
            text = text[:begin] + edit["newText"] + text[end:]
        return action["title"], text

    @staticmethod
    def offset(text, at):
        lines = text.split("\n")[:at["line"]]
        return sum(len(it) + 1 for it in lines) + at["character"]


class Keywords(Actions):
    def test_json(self):
        result = self.start()
        self.assertEqual(result["capabilities"]["codeActionProvider"], {"codeActionKinds": ["quickfix"]})
        self.assertEqual(self.fixed("a.schema.json", '{\n "requierd": ["x"]}', (1, 4)),
                         ("Replace by `required`", '{\n "required": ["x"]}'))
        [action] = self.actions("a.schema.json", (0, 0), (1, 20))
        self.assertEqual([it["code"] for it in action["diagnostics"]], ["unknown-keyword"])

    @unittest.skipUnless(yaml, "PyYAML isn't installed")
    def test_yaml(self):
        self.start()
        self.assertEqual(self.fixed("a.schema.yaml", "title: x\nrequierd: [x]\n", (1, 0), "yaml"),
                         ("Replace by `required`", "title: x\nrequired: [x]\n"))
        self.assertEqual(self.fixed("b.schema.yaml", "title: x\n'requierd': [x]\n", (1, 3), "yaml"),
                         ("Replace by `required`", "title: x\n'required': [x]\n"))

    def test_where_there_is_none(self):
        """Elsewhere, of other kinds, without a near keyword, in a text that isn't JSON."""
        self.start()
        self.open("a.schema.json", '{"requierd": ["x"],\n "nowhere": 1}')
        self.assertEqual(len(self.actions("a.schema.json", (0, 3))), 1)
        self.assertEqual(len(self.actions("a.schema.json", (0, 3), only=["quickfix"])), 1)
        self.assertEqual(self.actions("a.schema.json", (0, 3), only=["refactor", "source.fixAll"]), [])
        self.assertEqual(self.actions("a.schema.json", (0, 14)), [])
        self.assertEqual(self.actions("a.schema.json", (1, 3)), [])
        self.replace("a.schema.json", (0, 0), (0, 1), "")
        self.assertEqual(self.actions("a.schema.json", (0, 2)), [])


class Members(Actions):
    def begin(self):
        self.start(schemas=[{"fileMatch": ["*.x.*"], "schema": MEMBERS}])

    def test_json(self):
        self.begin()
        title = "Insert `name`, `age`, `kind`, `tags`, `on`, `other`"
        self.assertEqual(self.fixed("a.x.json", "{}", (0, 0)), (title, f"{{{ALL}}}"))
        self.assertEqual(self.fixed("b.x.json", '{"below": null, "else": 1}', (0, 1)),
                         (title, f'{{"below": null, "else": 1, {ALL}}}'))
        whole = ", ".join([ALL, '"below": {}'])
        self.assertEqual(self.fixed("c.x.json", f"{{{whole}}}", (0, whole.index('"below"') + 3)),
                         (title, f"{{{whole[:-1]}{ALL}}}}}"))

    def test_lines(self):
        """In an object of several lines each member has one."""
        self.begin()
        members = ['"age": 1', '"kind": "c"', '"name": ""', '"tags": []', '"on": true', '"other": null']
        before, after = ("{\n  " + ",\n  ".join(it) + "\n}\n" for it in (members[:2], members))
        self.assertEqual(self.fixed("a.x.json", before, (0, 0)), ("Insert `name`, `tags`, `on`, `other`", after))
        self.assertEqual(self.fixed("b.x.jsonc", '{\n  "age": 1, // one\n}\n', (0, 0), "jsonc")[1].count("\n"), 8)

    def test_what_is_inserted_is_valid(self):
        self.begin()
        for number, text in enumerate(("{}", '{"age": 1}', '{\n"age": 1}', '{"age":\n1\n}', "{\n}")):
            with self.subTest(text):
                _, fixed = self.fixed(f"{number}.x.json", text, (0, 0))
                json.loads(fixed)
                self.assertEqual(self.open(f"{number}.fixed.x.json", fixed), [])

    @unittest.skipUnless(yaml, "PyYAML isn't installed")
    def test_yaml(self):
        self.begin()
        self.assertEqual(self.fixed("a.x.yaml", "# x\nage: 1\n# y\n", (1, 0), "yaml"),
                         ("Insert `name`, `kind`, `tags`, `on`, `other`",
                          '# x\nname: ""\nkind: a b\ntags: []\non: true\nother: null\nage: 1\n# y\n'))
        _, fixed = self.fixed("c.x.yaml", "{age: 1}\n", (0, 0), "yaml")
        self.assertEqual(self.open("d.x.yaml", fixed, "yaml"), [])

    @unittest.skipUnless(yaml, "PyYAML isn't installed")
    def test_items_of_yaml(self):
        """In a list the members stand below the sign of the item; each document of a file has its own."""
        self.start(schemas=SCHEMAS)
        text = "name: A\n---\nname: B\nfriends:\n- age: 1\n"
        self.assertEqual(self.fixed("a.person.yaml", text, (4, 2), "yaml"),
                         ("Insert `name`", 'name: A\n---\nname: B\nfriends:\n- name: ""\n  age: 1\n'))


class Versions(Actions):
    WORKSPACE = {"workspaceEdit": {"documentChanges": True}}

    def test_version(self):
        """A client that takes versions gets that of the text, also where it has just changed."""
        self.start()
        self.open("a.schema.json", "{}")
        self.client.notify("textDocument/didChange", textDocument={"uri": self.uri("a.schema.json"), "version": 7},
                           contentChanges=[{"text": '{"titel": "x"}'}])
        [action] = self.actions("a.schema.json", (0, 2))
        [change] = action["edit"]["documentChanges"]
        self.assertEqual(change["textDocument"], {"uri": self.uri("a.schema.json"), "version": 7})
        self.assertEqual(change["edits"][0]["newText"], '"title"')
