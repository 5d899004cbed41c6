"""How the language server knows the schema of a file, and its diagnostics for schemas."""
import json

from lsp_client import PERSON, SCHEMAS, Session, shown


class Associations(Session):
    BAD = '{"name": 1}'

    def codes(self, name, text=BAD):
        return [it["code"] for it in self.open(name, text)]

    def test_own_schema(self):
        self.start()
        for named in ("person.schema.json", "./person.schema.json", self.uri("person.schema.json"),
                      "address.schema.json/../person.schema.json"):
            with self.subTest(named):
                self.assertEqual(self.codes(f"{len(named)}.json", json.dumps({"$schema": named, "name": 1})), ["type"])
        self.assertEqual(self.codes("part.json", '{"$schema": "person.schema.json#/$defs/age"}'), ["type"])

    def test_unknown_schema(self):
        self.start()
        for named in ("https://example.com/nowhere", "nowhere.json"):
            [found] = self.open(f"{len(named)}.json", json.dumps({"$schema": named}))
            self.assertEqual((shown([found]), found["severity"]), ([(0, 12, 14 + len(named), "schema")], 3))

    def test_schema_by_its_id(self):
        self.start(references=["."])
        self.assertEqual(self.codes("a.json", '{"$schema": "https://example.com/person", "name": 1}'), ["type"])

    def test_patterns(self):
        self.start(schemas=[
            {"fileMatch": ["/config/*.json", "deep/**/x.json", "{a,b}?.txt", "!config/not.json"],
             "schema": "person.schema.json"},
            {"fileMatch": ["*.txt"], "url": self.uri("address.schema.json")},
            {"fileMatch": ["bool.*"], "schema": False}])
        for name, codes in (("config/a.json", ["type"]), ("x/config/a.json", ["type"]), ("config/b/a.json", []),
                            ("config/not.json", []), ("deep/x.json", ["type"]), ("deep/a/b/x.json", ["type"]),
                            ("a1.txt", ["type"]), ("c1.txt", ["additionalProperties"]),
                            ("bool.x", ["false"]), ("none.json", [])):
            with self.subTest(name):
                self.assertEqual(self.codes(name), codes)

    def test_schema_in_a_setting(self):
        self.start(schemas=[{"fileMatch": "*.x.json", "schema": {"$ref": "person.schema.json"}}])
        self.assertEqual(self.codes("a.x.json"), ["type"])

    def test_catalogue(self):
        self.write("catalogue/catalog.json", json.dumps({"version": 1, "schemas": [
            {"name": "Person", "description": "x", "fileMatch": ["*.one.json"], "url": "../person.schema.json"},
            {"name": "By its $id", "fileMatch": ["*.two.json"], "url": "https://example.com/person"},
            {"name": "Without files", "url": "https://example.com/person"},
            {"name": "Elsewhere", "fileMatch": ["*.four.json"], "url": "https://example.com/four"}]}))
        self.start(catalogs=["catalogue/catalog.json"], references=["."])
        self.assertEqual(self.codes("a.one.json"), ["type"])
        self.assertEqual(self.codes("a.two.json"), ["type"])
        self.assertEqual(self.codes("a.four.json"), ["schema"])

    def test_changed_settings(self):
        self.start(schemas=[])
        self.assertEqual(self.codes("a.person.json"), [])
        self.client.notify("workspace/didChangeConfiguration", settings={"jschema": {"schemas": SCHEMAS}})
        self.assertEqual(shown(self.client.diagnostics(self.uri("a.person.json"), 1)), [(0, 9, 10, "type")])

    def test_wrong_settings(self):
        self.start(schemas=[{"fileMatch": 5}, *SCHEMAS], catalogs=["nowhere.json"], references=5)
        for part in ("fileMatch", "nowhere.json", "references"):
            message = self.client.wait(lambda it: it.get("method") == "window/showMessage")["params"]["message"]
            self.assertIn(part, message)
        self.assertEqual(self.codes("a.person.json"), ["type"])


class SettingsFile(Session):
    ARGUMENTS = ("--stdio", "--settings", "config/lsp.json")

    def test_file(self):
        """Its paths start from its folder, and the client's settings count before it."""
        self.write("config/lsp.json", json.dumps({"schemas": [
            {"fileMatch": ["*.a.json"], "schema": "../person.schema.json"},
            {"fileMatch": ["*.b.json"], "schema": False}]}))
        self.start(schemas=[{"fileMatch": ["*.b.json"], "schema": True}])
        self.assertEqual([it["code"] for it in self.open("x.a.json", "{}")], ["required"])
        self.assertEqual(self.open("x.b.json", "{}"), [])


class Schemas(Session):
    def test_refusal(self):
        self.start()
        [found] = self.open("a.schema.json", '{"title": "é",\n "type": 5}')
        self.assertEqual((shown([found])[0][:3], found["severity"]), ((1, 9, 10), 1))

    def test_unresolved_reference(self):
        self.start()
        found = self.open("a.schema.json", '{"$ref": "#/$defs/b", "properties": {"c": {"$ref": "nowhere.json"}}}')
        self.assertEqual([it[:3] for it in shown(found)], [(0, 9, 20), (0, 51, 65)])
        self.assertEqual({it["severity"] for it in found}, {1})

    def test_lint(self):
        self.start()
        text = '{"$schema": "https://json-schema.org/draft/2020-12/schema",\n "requierd": ["a"]}'
        [found] = self.open("a.json", text)
        self.assertEqual((shown([found]), found["severity"]), ([(1, 1, 11, "unknown-keyword")], 2))
        self.assertIn("required", found["message"])

    def test_other_document(self):
        """What is wrong in a document that is referred to shows at the reference."""
        self.start()
        self.write("bad.json", '{"type": 5}')
        [found] = self.open("a.schema.json", '{"properties": {"a":\n {"$ref": "bad.json"}}}')
        self.assertEqual(shown([found])[0][:3], (1, 10, 20))

    def test_typed_schema(self):
        """An instance is judged by the schema as it is typed; by the last that could be read while it is broken."""
        self.start()
        self.open("person.schema.json", PERSON)
        self.assertEqual(shown(self.open("a.person.json", '{"name": "A",\n "age": 200}')), [])
        at = PERSON.index('"minimum": 0') + len('"minimum": ')
        line, character = PERSON[:at].count("\n"), at - PERSON[:at].rfind("\n") - 1
        self.replace("person.schema.json", (line, character), (line, character + 1), "300")
        self.assertEqual(shown(self.client.diagnostics(self.uri("a.person.json"), 1)), [(1, 8, 11, "minimum")])
        self.assertEqual(self.replace("person.schema.json", (0, 0), (0, 0), "x")[0]["code"], "syntax")
        self.assertEqual(shown(self.client.diagnostics(self.uri("a.person.json"), 1)), [(1, 8, 11, "minimum")])

    def test_saved_schema(self):
        """A schema that isn't open is read again when the client says that its file has changed."""
        self.start()
        self.assertEqual(self.open("a.person.json", '{"name": "A"}'), [])
        self.write("person.schema.json", '{"required": ["born"]}')
        changes = [{"uri": self.uri("person.schema.json"), "type": 2}]
        self.client.notify("workspace/didChangeWatchedFiles", changes=changes)
        self.assertEqual(shown(self.client.diagnostics(self.uri("a.person.json"), 1)), [(0, 0, 1, "required")])

    def test_refused_schema_of_an_instance(self):
        self.start()
        self.write("bad.json", '{"type": 5}')
        [found] = self.open("a.json", '{"$schema": "bad.json"}')
        self.assertEqual((shown([found]), found["severity"]), ([(0, 12, 22, "schema")], 2))
