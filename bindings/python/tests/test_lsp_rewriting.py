"""Patterns of ECMA-262, and numbers with fractions, in the language server: in schemas, and in files that have one."""
import json

from lsp_client import Session, shown

SCHEMA = r"""{"$schema": "https://json-schema.org/draft/2020-12/schema",
 "properties": {"name": {"pattern": "^(?!aws:)[\\w:]+$"}, "price": {"minimum": 0.5}, "size": {"type": "integer"}},
 "patternProperties": {"^\\d+$": {"title": "Day", "properties": {"open": {"title": "Open", "type": "boolean"}}}}}"""
LEFT = r"""{"$schema": "https://json-schema.org/draft/2020-12/schema",
 "properties": {"é": {"pattern": "(a)\\1"}, "b": {"patternProperties": {"^(?=.{3,500}$)[a-z]+(-[a-z]+)*$": {}}}},
 "default": 0.5}"""
ITEM = '{"$schema": "./item.json",\n "name": "aws:", "price": 0.0,\n "size": 1e1, "12": {"open": 1}}'


def column(line, part):
    """Where a part of a line of the schema begins."""
    return SCHEMA.splitlines()[line].index(part)


class Rewriting(Session):
    def setUp(self):
        super().setUp()
        self.write("item.json", SCHEMA)

    def start_with(self, **settings):
        self.start(schemas=[], **settings)

    def codes(self, name, text):
        return [it["code"] for it in self.open(name, text)]

    def test_schemas(self):
        """What can be rewritten is no error; what can't be has its place in the file."""
        self.start_with()
        self.assertEqual(self.open("a.schema.json", SCHEMA), [])
        found = self.open("b.schema.json", LEFT)
        self.assertEqual(shown(found), [(1, 37, 40, "pattern"), (1, 74, 77, "pattern"), (2, 12, 15, "number")])
        self.assertEqual([it["severity"] for it in found], [1, 1, 1])
        [message] = [it["message"] for it in found if it["range"]["start"]["character"] == 37]
        self.assertEqual(message, "the validator doesn't read this pattern: `\\1` at 4 is a back-reference, which "
                                  "`regex` doesn't have")

    def test_instances(self):
        """Errors are at the values as they are written, and name the keywords that the author wrote."""
        self.start_with()
        found = self.open("a.json", ITEM)
        self.assertEqual(shown(found), [(1, 9, 15, "pattern"), (1, 26, 29, "minimum"), (2, 29, 30, "type")])
        places = {it["code"]: it["relatedInformation"][0]["location"] for it in found}
        self.assertEqual({it["uri"] for it in places.values()}, {self.uri("item.json")})
        begins = {code: tuple(it["range"]["start"].values()) for code, it in places.items()}
        self.assertEqual(begins, {"pattern": (1, column(1, '"pattern"')), "minimum": (1, column(1, '"minimum"')),
                                  "type": (2, column(2, '"type"'))})
        [message] = [it["message"] for it in found if it["code"] == "minimum"]
        self.assertEqual(message, "less than 0.5")

    def test_no_verdict(self):
        """A fraction has none; nor has, in draft-04, an integer with a fraction."""
        self.start_with()
        self.assertEqual(self.codes("a.json", ITEM.replace("1e1", "1.5")), ["NotWhole"])
        self.assertEqual(self.codes("b.json", ITEM.replace("1e1", "-0").replace("aws", "").replace("0.0", "1.0")
                                    .replace(": 1}", ": true}")), [])
        self.write("old.json", '{"$schema": "http://json-schema.org/draft-04/schema#", "properties": {"a": '
                               '{"type": "integer"}}}')
        found = self.open("c.json", '{"$schema": "./old.json", "a": 1.0}')
        self.assertEqual((shown(found), found[0]["severity"]), ([(0, 31, 34, "NotWhole")], 2))

    def test_settings(self):
        """They have the names and the words of the command's options."""
        self.start_with(patterns="regex", numbers="whole")
        found = shown(self.open("a.schema.json", SCHEMA))
        self.assertEqual([(it[0], it[3]) for it in found], [(1, "pattern"), (1, "number")])
        self.assertEqual(self.codes("a.json", '{"$schema": "./item.json"}'), ["schema"])
        self.client.notify("workspace/didChangeConfiguration", settings={"jschema": {"numbers": "texts"}})
        self.assertEqual(self.client.diagnostics(self.uri("a.schema.json"), 1), [])
        self.assertEqual(self.client.diagnostics(self.uri("a.json"), 1), [])
        self.assertEqual(self.codes("b.schema.json", LEFT), ["pattern", "pattern"])

    def test_wrong_settings(self):
        self.start_with(patterns="perl", numbers=["exact"])
        for part in ("patterns isn't ecma or regex", "numbers isn't exact or texts or whole"):
            message = self.client.wait(lambda it: it.get("method") == "window/showMessage")["params"]["message"]
            self.assertEqual(message, part)
        self.assertEqual(self.open("a.schema.json", SCHEMA), [])

    def test_names_that_are_rewritten(self):
        """Completion, hover and the way to the schema lead through a name that the validator has otherwise."""
        self.start_with()
        text = '{"$schema": "./item.json", "12": {|}}'
        found = self.at_cursor("completion", "a.json", text)
        self.assertEqual([it["label"] for it in found["items"]], ["open"])
        found = self.at_cursor("hover", "a.json", text.replace("|", '"open": |1'))
        self.assertEqual(found["contents"]["value"], "**Open**")
        [found] = self.at_cursor("definition", "a.json", text.replace("|", '"open": |1'))
        self.assertEqual((found["uri"], found["range"]["start"]["line"]), (self.uri("item.json"), 2))
        # (What a pattern became is no schema that one could go to.)
        [found] = self.at_cursor("definition", "a.json", '{"$schema": "./item.json", "name": |"aws:"}')
        self.assertEqual(found["range"]["start"], {"line": 1, "character": column(1, '"name"')})


class SettingsFile(Session):
    ARGUMENTS = ("--settings", "lsp.json")

    def test_first(self):
        """The client's settings count before those of the file, each for itself."""
        self.write("lsp.json", json.dumps({"patterns": "regex", "numbers": "whole"}))
        self.start(patterns="ecma")
        found = shown(self.open("a.schema.json", SCHEMA))
        self.assertEqual([it[3] for it in found], ["number"])
