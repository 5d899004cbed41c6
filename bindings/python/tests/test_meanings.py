"""What a refusal says beside its kind: marks and encodings, and the URI that isn't found."""
import unittest

import jschema
from commands import Case

URI = "https://example.com/dir/s"
BOM = "begins with a byte order mark; a JSON text is UTF-8 without one"
UTF_16 = "is UTF-16 or UTF-32; a JSON text is UTF-8"
TEXTS = (
    ('{"a": 1}'.encode("utf-8-sig"), BOM), (b"\xef\xbb\xbf", BOM), ("{}".encode("utf-16"), UTF_16),
    ("{}".encode("utf-16-le"), UTF_16), ("{}".encode("utf-16-be"), UTF_16), ("{}".encode("utf-32"), UTF_16),
    ("{}".encode("utf-32-be"), UTF_16), ("1".encode("utf-16-le"), UTF_16), ("1".encode("utf-16-be"), UTF_16),
    (b"{", "not a JSON text, or nested deeper than 127"), (b"", "not a JSON text, or nested deeper than 127"),
)
# A document, and the URI that isn't found.
UNRESOLVED = (
    ({"$ref": "t"}, "https://example.com/dir/t"),
    ({"$ref": "../t#/x"}, "https://example.com/t#/x"),
    ({"$ref": "#/$defs/x"}, f"{URI}#/$defs/x"),
    ({"$ref": "#anchor"}, f"{URI}#anchor"),
    ({"$dynamicRef": "#anchor"}, f"{URI}#anchor"),
    ({"$ref": "urn:x:y"}, "urn:x:y"),
    ({"$ref": "//other.example/x"}, "https://other.example/x"),
    ({"$id": "https://a.example/b/c", "$ref": "d"}, "https://a.example/b/d"),
    ({"$id": "other/", "items": {"$id": "more", "not": {"$ref": "d"}}}, "https://example.com/dir/other/d"),
    ({"properties": {"$id": {"$ref": "d"}}}, "https://example.com/dir/d"),
    ({"$defs": {"a/b~": {"allOf": [True, {"$ref": "d"}]}}}, "https://example.com/dir/d"),
    ({"$id": "urn:a:b", "$ref": "#x"}, "urn:a:b#x"),
)


class Meanings(unittest.TestCase):
    def refusal(self, call, *arguments):
        with self.assertRaises(jschema.Refused) as raised:
            call(*arguments)
        return raised.exception

    def test_encodings(self):
        with jschema.Schemas({URI: "true"}) as schemas:
            for text, meaning in TEXTS:
                for call, arguments in ((schemas.is_valid, (URI, text)), (schemas.errors, (URI, text)),
                                        (jschema.Schemas, ({URI: text},))):
                    with self.subTest(text, call=call):
                        refused = self.refusal(call, *arguments)
                        self.assertEqual((refused.kind, refused.meaning), ("NotJson", meaning))
                        self.assertTrue(str(refused).endswith(f": NotJson: {meaning}"))

    def test_unresolved(self):
        for document, uri in UNRESOLVED:
            with self.subTest(document):
                refused = self.refusal(jschema.Schemas, {"a:b": "true", URI: document})
                self.assertEqual((refused.kind, refused.meaning, refused.index),
                                 ("Unresolved", f"no schema has the URI {uri}; give its document too", 1))

    def test_unresolved_entry(self):
        with jschema.Schemas({URI: "true"}) as schemas:
            self.assertEqual(self.refusal(schemas.is_valid, URI + "#/x", 1).meaning,
                             f"no schema has the URI {URI}#/x; give its document too")


class Command(Case):
    def test_unresolved(self):
        self.judge(["two.json"], "", "other.json:1:10: refused: no schema has the URI urn:name; give its document too "
                   "(/$ref; Unresolved)\n", 3, schema="other.json")

    def test_mark(self):
        (self.folder / "mark.json").write_text("{}", "utf-8-sig")
        self.judge(["mark.json"], "", f"mark.json:1:1: refused: {BOM} (root; NotJson)\n"
                   "0 valid, 0 invalid, 1 refused\n", 3)
        (self.folder / "wide.json").write_text("{}", "utf-16")
        self.judge(["two.json"], "", f"wide.json:1:1: refused: {UTF_16} (root; NotJson)\n", 3, schema="wide.json")
