"""Hover, completion, go to definition and the outline, as the language server answers them."""
import json
import unittest

from lsp_client import ADDRESS, PERSON, Session, position

try:
    import yaml
except ImportError:
    yaml = None

NAME = "**Name**\n\nAs *written*.\n\nexamples: `\"Ada\"`, `\"Bob\"`"
AGE = "**Age**\n\ndefault: `1`"


class Hover(Session):
    def hover(self, text, name="a.person.json"):
        found = self.at_cursor("hover", name, text)
        return None if found is None else found["contents"]["value"]

    def test_valid(self):
        self.start()
        for text, shown in (('{"na|me": "A"}', NAME), ('{"name": |"A"}', NAME), ('{"name": "A", "age": 5|}', AGE),
                            ('{"name": "A", "friends": [{"name": "B", "age|": 3}]}', AGE),
                            ('{"name": "A", "address": {|}}', "Where a letter goes"), ('{"name": "A" |}', "**Person**"),
                            ('{"name": "A", "colour": "r|ed"}', None), ('{"name": "A"} | ', None)):
            with self.subTest(text):
                self.assertEqual(self.hover(text), shown)

    def test_invalid(self):
        """Where there are no annotations, the schemas that apply at the value say the same."""
        self.start()
        for text, shown in (('{"na|me": 5}', NAME), ('{"age": -|1}', AGE), ('{"friends": [{"age": |-1}]}', AGE),
                            ('{"friends": [{"name": 3}, {"na|me": 5', NAME), ('{"a|ge": 0.5', AGE)):
            with self.subTest(text):
                self.assertEqual(self.hover(text), shown)

    def test_range(self):
        self.start()
        found = self.at_cursor("hover", "a.person.json", '{"x": "\U0001f600", "name"|: "A"}')
        self.assertEqual(found["range"], {"start": position(0, 12), "end": position(0, 23)})
        self.assertEqual(found["contents"]["kind"], "markdown")

    def test_several_schemas(self):
        """All that apply, also of those that aren't met; but no conditions."""
        self.start()
        self.write("two.json", json.dumps({
            "properties": {"a": {"title": "One", "allOf": [{"title": "Two"}, {"$ref": "#/$defs/three"}],
                                 "not": {"title": "Not", "type": "null"}, "if": {"title": "If", "const": "x"},
                                 "then": {"title": "Then"}, "else": {"title": "Else"}}},
            "$defs": {"three": {"title": "Three", "deprecated": True}}}))
        for value in ("1", "0.5", "null"):
            parts = self.hover('{"$schema": "two.json", "a": %s|}' % value, "b.json").split("\n\n---\n\n")
            self.assertEqual(sorted(parts), ["**Else**", "**One**", "**Three**\n\ndeprecated", "**Two**"])

    def test_names_are_not_values(self):
        """A schema of names doesn't say what the value is."""
        self.start()
        schema = {"propertyNames": {"title": "A name"}, "properties": {"a": {"title": "A"}}}
        self.write("names.json", json.dumps(schema))
        self.assertEqual(self.hover('{"$schema": "names.json", "a|": 1}', "b.json"), "**A**")

    def test_reference(self):
        self.start()
        name = "person.schema.json"
        self.open(name, PERSON)
        self.assertEqual(self.hover(PERSON.replace("#/$defs/age", "#/$d|efs/age"), name), AGE)
        self.assertEqual(self.hover(PERSON.replace('"address.s', '"|address.s'), name), "Where a letter goes")

    @unittest.skipUnless(yaml, "PyYAML isn't installed")
    def test_yaml(self):
        self.start()
        self.assertEqual(self.hover("name: A\nag|e: 3\n", "a.person.yaml"), AGE)
        self.assertEqual(self.hover("name: 1\nfriends:\n- name: |B\n", "a.person.yaml"), NAME)


class Completion(Session):
    def items(self, text, name="a.person.json"):
        return self.at_cursor("completion", name, text)["items"]

    def labels(self, text, name="a.person.json"):
        return [it["label"] for it in self.items(text, name)]

    def inserted(self, text, label, name="a.person.json"):
        """The text after an item of this label is taken."""
        [item] = [it for it in self.items(text, name) if it["label"] == label]
        edit = item["textEdit"]
        lines = text.replace("|", "").split("\n")
        begin, end = edit["range"]["start"], edit["range"]["end"]
        self.assertEqual(begin["line"], end["line"])
        line = lines[begin["line"]]
        lines[begin["line"]] = line[:begin["character"]] + edit["newText"] + line[end["character"]:]
        return "\n".join(lines)

    def test_names(self):
        self.start()
        others = ["age", "colour", "address", "friends"]
        for text, labels in (("{|}", ["name", *others]), ('{"name": "A", |}', others), ('{"|"}', ["name", *others]),
                             ('{"name": "A", "x|"}', others), ('{"name": "A", "age": 1, "na|', others[1:]),
                             ('{"name": "A", "address": {|', ["street", "city"]),
                             ('{"name": "A", "address": {"street": "", "|": 1}}', ["city"]),
                             ('{"friends": [{"name": "B", |}]}', others), ('{"ag|e": 1}', ["name", *others])):
            with self.subTest(text):
                self.assertEqual(self.labels(text), labels)

    def test_values(self):
        self.start()
        for text, labels in (('{"colour": |}', ["red", "green", "null"]), ('{"colour": "r|', ["red", "green", "null"]),
                             ('{"address": {"city": |', ["Łódź"]), ('{"age": |}', ["1"]),
                             ('{"name": |', ["Ada", "Bob"]),
                             ('{"colour": "red"|}', ["red", "green", "null"]), ('{"friends": [|]}', []),
                             ('{"x": |}', [])):
            with self.subTest(text):
                self.assertEqual(self.labels(text), labels)

    def test_what_is_inserted(self):
        self.start()
        for text, label, after in (
                ("{|}", "name", '{"name": "$1"}'), ('{"na|"}', "name", '{"name": "$1"}'),
                ("{na|}", "name", '{"name": "$1"}'),
                ('{| "age": 1}', "friends", '{"friends": [$1], "age": 1}'), ('{"n|": 5}', "name", '{"name": 5}'),
                ("{|}", "age", '{"age": 1}'), ("{|}", "address", '{"address": {$1}}'),
                ("{|}", "colour", '{"colour": $1}'),
                ('{"colour": "r|"}', "green", '{"colour": "green"}'), ('{"colour": nu|}', "red", '{"colour": "red"}')):
            with self.subTest(text, label=label):
                self.assertEqual(self.inserted(text, label), after)

    def test_about_items(self):
        self.start()
        name, age = [it for it in self.items("{|}") if it["label"] in ("name", "age")]
        self.assertEqual((name["detail"], name["documentation"]["value"]), ("required", NAME))
        self.assertEqual(age["documentation"], {"kind": "markdown", "value": AGE})
        self.assertLess(name["sortText"], age["sortText"])
        self.assertEqual((name["filterText"], name["insertTextFormat"]), ('"name"', 2))

    def test_choices(self):
        """Of alternatives those that what is written rules out aren't completed."""
        self.start()
        self.write("choice.json", json.dumps({"oneOf": [
            {"properties": {"kind": {"const": kind}, name: {"type": "boolean"}}, "required": ["kind", name]}
            for kind, name in (("circle", "radius"), ("square", "side"))]}))
        begin = '{"$schema": "choice.json", '
        self.assertEqual(self.labels(begin + '"kind": "square", |}', "b.json"), ["side"])
        self.assertEqual(self.labels(begin + "|}", "b.json"), ["kind", "radius", "side"])
        self.assertEqual(self.labels(begin + '"kind": |}', "b.json"), ["circle", "square"])
        self.assertEqual(self.labels(begin + '"kind": "circle", "radius": t|}', "b.json"), ["true", "false"])

    def test_references(self):
        self.start()
        self.open("person.schema.json", PERSON)
        labels = self.labels(PERSON.replace("#/$defs/age", "#/|"), "person.schema.json")
        self.assertEqual(labels[:2], ["#", "#/properties/name"])
        self.assertIn("#/$defs/age", labels)
        self.assertIn("address.schema.json", labels)
        self.assertIn("address.schema.json#address", labels)
        self.assertEqual(self.labels('{"$defs": {"é~1/": {}}, "items": {"$ref": "|', "b.schema.json"),
                         ["#", "#/$defs/%C3%A9~01~1", "#/items"])

    def test_schemas(self):
        self.start()
        self.assertIn("required", self.labels('{"properties": {"a": {"r|', "a.schema.json"))
        self.assertNotIn("type", self.labels('{"type": "object", |', "a.schema.json"))
        self.assertEqual(self.labels('{"properties": {|}}', "a.schema.json"), [])
        self.assertIn("integer", self.labels('{"items": {"type": [|]}}', "a.schema.json"))
        self.assertIn("integer", self.labels('{"type": "|"}', "a.schema.json"))
        self.assertEqual(self.labels('{"const": "|"}', "a.schema.json"), [])

    @unittest.skipUnless(yaml, "PyYAML isn't installed")
    def test_yaml(self):
        self.start()
        others = ["age", "colour", "address", "friends"]
        for text, labels in (("|", ["name", *others]), ("name: A\n|", others), ("name: A\nag|", others),
                             ("name: A\ncolour: |\nage: 1", ["red", "green", "null"]),
                             ("colour: r|ed # x", ["red", "green", "null"]),
                             ("name: A\naddress:\n  |\nage: 1\n", ["street", "city"]),
                             ("friends:\n  - na|\n", ["name", *others]),
                             ("friends:\n  - name: B\n    |\n", others), ("name: |", ["Ada", "Bob"])):
            with self.subTest(text):
                self.assertEqual(self.labels(text, "a.person.yaml"), labels)
        self.assertEqual(self.inserted("name: A\nco|", "colour", "a.person.yaml"), "name: A\ncolour: ")
        self.assertEqual(self.inserted("colour: r|ed # x", "green", "a.person.yaml"), "colour: green # x")
        self.assertEqual(self.inserted("address: {}\nag|e: 2", "age", "a.person.yaml"), "address: {}\nage: 2")


class Definition(Session):
    def lines(self, text, name="a.person.json"):
        """The files and the lines that a cursor leads to."""
        return [(it["uri"].rpartition("/")[2], it["range"]["start"]["line"])
                for it in self.at_cursor("definition", name, text)]

    def test_value(self):
        """A value leads to the schemas that judged it."""
        self.start()
        age = PERSON[:PERSON.index('"age": {"$ref"')].count("\n")
        target = PERSON[:PERSON.index('"age": {"title"')].count("\n")
        here = "person.schema.json"
        for text in ('{"name": "A", "a|ge": 5}', '{"age": |-5}', '{"age": 5|'):
            self.assertEqual(self.lines(text), [(here, age), (here, target)])
        self.assertEqual(self.lines('{"name": "A", "address": {"street|": 5}}'),
                         [("address.schema.json", ADDRESS[:ADDRESS.index("street")].count("\n"))])
        self.assertEqual(self.lines('{"$schema": "person.sch|ema.json"}', "b.json"), [(here, 0)])
        self.assertEqual(self.lines('{"name": "A"} |'), [])

    def test_reference(self):
        self.start()
        name = "person.schema.json"
        self.open(name, PERSON)
        target = PERSON[:PERSON.index('"age": {"title"')].count("\n")
        self.assertEqual(self.lines(PERSON.replace("#/$defs/age", "#/$d|efs/age"), name), [(name, target)])
        self.assertEqual(self.lines(PERSON.replace('"address.s', '"add|ress.s'), name), [("address.schema.json", 0)])
        self.assertEqual(self.lines(PERSON.replace('"$ref": "#"', '"$ref": "|#"'), name), [(name, 0)])
        self.assertEqual(self.lines(PERSON.replace("address.schema.json", "address.|schema.json#address"), name),
                         [("address.schema.json", 0)])
        self.assertEqual(self.lines(PERSON.replace('"title": "Person"', '"title": "Per|son"'), name), [])


class Symbols(Session):
    def outline(self, found):
        return [(it["name"], it["kind"], *([self.outline(it["children"])] if "children" in it else [])) for it in found]

    def symbols(self, name, text, language="json"):
        self.open(name, text, language)
        return self.client.call("textDocument/documentSymbol", textDocument={"uri": self.uri(name)})

    def test_json(self):
        self.start()
        found = self.symbols("a.json", '{"a": [1, true],\n "é\U0001f600": {"": null}, "c": "x"')
        self.assertEqual(self.outline(found),
                         [("a", 18, [("0", 16), ("1", 17)]), ("é\U0001f600", 19, [('""', 21)]), ("c", 15)])
        self.assertEqual(found[1]["range"], {"start": position(1, 1), "end": position(1, 18)})
        self.assertEqual(found[1]["selectionRange"], {"start": position(1, 1), "end": position(1, 6)})
        self.assertEqual(found[2]["detail"], '"x"')

    @unittest.skipUnless(yaml, "PyYAML isn't installed")
    def test_yaml(self):
        self.start()
        self.assertEqual(self.outline(self.symbols("a.yaml", "a:\n- 1\n- x\n", "yaml")),
                         [("a", 18, [("0", 16), ("1", 15)])])
        self.assertEqual(self.outline(self.symbols("b.yaml", "a: 1\n---\n2\n", "yaml")),
                         [("document 1", 19, [("a", 16)]), ("document 2", 16)])
