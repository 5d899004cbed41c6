"""Documents that others refer to, found in folders and beside the files: on this disk alone."""
import importlib.util
import json
import os
import socket
import unittest
from unittest import mock

from commands import Case
from jschema.uris import document_of, joined

STRING = '{"type": "string"}'
# RFC 3986, section 5.4: the base is http://a/b/c/d;p?q
RESOLVED = (
    ("g:h", "g:h"), ("g", "http://a/b/c/g"), ("./g", "http://a/b/c/g"), ("g/", "http://a/b/c/g/"), ("/g", "http://a/g"),
    ("//g", "http://g"), ("?y", "http://a/b/c/d;p?y"), ("g?y", "http://a/b/c/g?y"), ("#s", "http://a/b/c/d;p?q#s"),
    ("g#s", "http://a/b/c/g#s"), ("g?y#s", "http://a/b/c/g?y#s"), (";x", "http://a/b/c/;x"),
    ("g;x?y#s", "http://a/b/c/g;x?y#s"), ("", "http://a/b/c/d;p?q"), (".", "http://a/b/c/"), ("./", "http://a/b/c/"),
    ("..", "http://a/b/"), ("../", "http://a/b/"), ("../g", "http://a/b/g"), ("../..", "http://a/"),
    ("../../g", "http://a/g"), ("../../../g", "http://a/g"), ("/./g", "http://a/g"), ("/../g", "http://a/g"),
    ("g.", "http://a/b/c/g."), ("..g", "http://a/b/c/..g"), ("./../g", "http://a/b/g"), ("./g/.", "http://a/b/c/g/"),
    ("g/./h", "http://a/b/c/g/h"), ("g/../h", "http://a/b/c/h"), ("g;x=1/../y", "http://a/b/c/y"),
    ("g?y/../x", "http://a/b/c/g?y/../x"), ("g#s/../x", "http://a/b/c/g#s/../x"),
)


# URIs, and the form in which the validator writes them.
WRITTEN = (("HTTPS://A.example", "https://a.example/"), ("https://a/b c#d", "https://a/b%20c"),
           ("file:///é", "file:///%C3%A9"), ("https://a/%20", "https://a/%20"), ("urn:X", "urn:X"))


class Uris(unittest.TestCase):
    def joined(self, base, references):
        """References, resolved against a base."""
        return [joined(base, reference) for reference in references]

    def written(self, uris):
        """URIs in the form of the validator."""
        return [document_of(uri) for uri in uris]

    def test_resolution(self):
        self.assertEqual(self.joined("http://a/b/c/d;p?q", [it for it, _ in RESOLVED]), [it for _, it in RESOLVED])
        self.assertEqual(self.joined("urn:a:b", ["#c"]), ["urn:a:b#c"])
        self.assertEqual(self.joined("schema:///", ["x.json"]), ["schema:///x.json"])

    def test_the_form_of_the_validator(self):
        self.assertEqual(self.written([it for it, _ in WRITTEN]), [it for _, it in WRITTEN])


class Commands(Case):
    def setUp(self):
        # Whoever opens a connection fails.
        patch = mock.patch.object(socket, "socket", side_effect=AssertionError("the network is used"))
        patch.start()
        self.addCleanup(patch.stop)

    def verdict(self, *words):
        """The status of a validation of a string, and what it says of the documents that it takes."""
        self.write("a.json", '"A"')
        _, said, status = self.run_inside("validate", "--verbose", "--format", "flag", *words, "a.json")
        return status, said.replace(str(self.folder.resolve()), "")

    def test_siblings(self):
        main = self.write("beside/main.json", '{"$ref": "./one.schema.json"}')
        self.write("beside/one.schema.json", '{"$ref": "sub/two.jsonc#/$defs/s"}')
        self.write("beside/sub/two.jsonc", '{"$defs": {"s": {"$ref": "../three%20é.json"}}} // é\n')
        self.write("beside/three é.json", STRING)
        status, said = self.verdict(main)
        self.assertEqual(status, 0)
        self.assertEqual(said, "".join(
            f"jschema: beside/{name} is taken for file:///beside/{uri}, which beside/{by} refers to\n"
            for name, uri, by in (("one.schema.json", "one.schema.json", "main.json"),
                                  ("sub/two.jsonc", "sub/two.jsonc", "one.schema.json"),
                                  ("three é.json", "three%20%C3%A9.json", "sub/two.jsonc"))))
        self.assertEqual(self.verdict("--no-ref-siblings", main)[0], 3)

    def test_siblings_of_a_document_with_a_name(self):
        """A document is beside the file of the one that names it, whatever the `$id` of either is."""
        main = self.write("named/main.json", '{"$id": "https://a.example/x/main", "$ref": "other.json"}')
        self.write("named/other.json", '{"$id": "https://b.example/y", "$ref": "third.json"}')
        self.write("named/third.json", STRING)
        status, said = self.verdict(main)
        self.assertEqual(status, 0)
        self.assertIn("named/other.json is taken for https://a.example/x/other.json", said)
        self.assertIn("named/third.json is taken for https://b.example/third.json", said)

    def test_siblings_of_a_nested_base(self):
        main = self.write("nested/main.json", '{"$id": "https://a.example/main.json", "$ref": "#/$defs/n", '
                          '"$defs": {"n": {"$id": "deep/n.json", "$ref": "other.json"}}}')
        self.write("nested/deep/other.json", STRING)
        self.write("nested/other.json", '{"type": "integer"}')
        self.assertEqual(self.verdict(main)[0], 0)

    def test_what_is_no_sibling(self):
        for reference in ("https://a.example/one.json", "//one.json", f"{self.folder}/one.json", "none.json", "sub",
                          "pipe.json", "%00.json"):
            with self.subTest(reference):
                main = self.write("no/main.json", json.dumps({"$id": "https://b.example/", "$ref": reference}))
                os.makedirs(self.folder / "no/sub", exist_ok=True)
                self.write("no/one.json", STRING)
                if not os.path.exists(self.folder / "no/pipe.json"):
                    os.mkfifo(self.folder / "no/pipe.json")
                status, said = self.verdict(main)
                self.assertEqual(status, 3)
                self.assertNotIn("is taken", said)

    def test_folder(self):
        """Of a folder those are taken that are referred to: the others may be anything."""
        main = self.write("main.json", '{"allOf": [{"$ref": "https://a.example/s"}, {"$ref": "urn:t#/$defs/u"}]}')
        self.write("folder/deep/s.json", '{"$id": "https://a.example/s", "$ref": "file.jsonc"}')
        self.write("folder/deep/file.jsonc", '{"type": "string",}')
        self.write("folder/t.json", '{"$defs": {"t": {"$id": "urn:t", "$defs": {"u": true}}}}')
        for name, text in (("broken.json", "{"), ("wrong.json", '{"type": 1}'), ("list.json", "[1]"),
                           ("twice.json", '{"$id": "https://c.example/x"}'), ("x.yaml", "a: [")):
            self.write(f"folder/{name}", text)
        status, said = self.verdict("--ref", "folder", main)
        self.assertEqual((status, said.count("is taken")), (0, 3))
        self.assertEqual(self.verdict(main)[0], 3)

    def test_folder_before_siblings(self):
        main = self.write("order/main.json", '{"$id": "https://a.example/main", "$ref": "s.json"}')
        self.write("order/s.json", '{"type": "integer"}')
        self.write("elsewhere/t.json", '{"$id": "https://a.example/s.json", "type": "string"}')
        self.assertEqual(self.verdict(main)[0], 1)
        self.assertEqual(self.verdict("--ref", "elsewhere", main)[0], 0)

    def test_broken_sibling(self):
        main = self.write("bad/main.json", '{"$ref": "s.json"}')
        self.write("bad/s.json", '{"a": 1,\n b}')
        out, said, status = self.run_inside("validate", "--format", "short", main, "two.json")
        self.assertEqual((out, status), ("", 3))
        self.assertEqual(said, "bad/s.json:2:2: refused: not a JSON text, or nested deeper than 127 (root; NotJson)\n")

    def test_each_is_taken_once(self):
        """A document that refers to itself, and two that refer to one another by several names."""
        first = self.write("once/a.json", '{"$ref": "b.json", "$defs": {"a": {"$ref": "../once/./b.json"}}}')
        self.write("once/b.json", '{"$ref": "#/$defs/s", "$defs": {"s": {"type": "string"}, "a": {"$ref": "a.json"}}}')
        status, said = self.verdict(first)
        self.assertEqual((status, said), (0, "jschema: once/b.json is taken for file:///once/b.json, which once/a.json "
                                             "refers to\n"))

    def test_place_in_a_sibling(self):
        """The report shows where a keyword stands in the file that was taken."""
        main = self.write("shown/main.json", '{"$id": "https://a.example/main", "$ref": "sub.json#/$defs/s~1"}')
        self.write("shown/sub.json", '{"$defs": {\n "s/": {"minimum": 0}}}')
        self.write("minus.json", "-1")
        out, _, _ = self.run_inside("validate", main, "minus.json")
        self.assertIn("  = shown/sub.json:2:9: minimum\n  = https://a.example/sub.json#/$defs/s~1/minimum\n", out)


@unittest.skipUnless(importlib.util.find_spec("yaml"), "needs PyYAML")
class Yaml(Case):
    def test_sibling(self):
        main = self.write("yaml/main.json", '{"$ref": "s.yaml"}')
        self.write("yaml/s.yaml", "type: string\n")
        self.assertEqual(self.run_inside("validate", main, "two.json")[2], 1)

    def test_broken_sibling(self):
        main = self.write("bad/main.json", '{"$ref": "s.yaml"}')
        self.write("bad/s.yaml", "a: 1\nb: [\n")
        out, said, status = self.run_inside("validate", "--format", "short", main, "two.json")
        self.assertEqual((out, status), ("", 3))
        self.assertRegex(said, r"\Abad/s\.yaml:3:1: refused: .* \(root; NotYaml\)\n")
