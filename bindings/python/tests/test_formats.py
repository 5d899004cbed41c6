"""Warnings about `format`: the verdict stays."""
import importlib.util
import json
import unittest
from unittest import mock

import jschema
from commands import Case
from jschema.formats import CHECKS, Formats

# Of each format: the library it needs, strings that are of it, and strings that aren't. By RFC 3339 (dates, times,
# durations), 1123, 2673, 4291, 3986, 4122, 6901, and the section 7.3 of the standard's validation.
STRINGS = {
    "date": (None, ("2020-02-29", "0001-01-01"), ("2019-02-29", "2020-2-2", "20200202", "2020-02-02T", "２０２０-02-02")),
    "time": ("rfc3339_validator", ("23:59:59Z", "01:02:03.4+05:06"), ("24:00:00Z", "01:02:03", "1:2:3Z")),
    "date-time": ("rfc3339_validator", ("2020-02-29T23:59:59Z", "2020-02-29t23:59:59z"),
                  ("2020-02-29", "2019-02-29T00:00:00Z")),
    "email": (None, ("a@b.example",), ("a", "")),
    "hostname": ("fqdn", ("a.example", "localhost"), ("-a", "a_b", "", "a" * 64)),
    "ipv4": (None, ("127.0.0.1",), ("127.0.0", "256.0.0.1", "01.2.3.4", "1.2.3.4/8", "")),
    "ipv6": (None, ("::1", "2001:db8::192.0.2.1"), ("::1%eth0", "1", ":::", "12345::")),
    "uri": ("rfc3987", ("https://a.example/?b#c", "urn:x"), ("//a", "/a", "https://a b", "")),
    "uri-reference": ("rfc3987", ("/a", "", "#b"), ("\\a", "a b")),
    "uuid": (None, ("2EB8AA08-AA98-11EA-B4AA-73B441D16380",),
             ("2eb8aa08aa9811eab4aa73b441d16380", "{2eb8aa08-aa98-11ea-b4aa-73b441d16380}", "2eb8-aa08")),
    "json-pointer": (None, ("", "/a~0b/~1", "/"), ("a", "/~", "/~2", "#/a")),
    "regex": (None, ("a(b|c)*",), ("a(", "[")),
    "duration": ("isoduration", ("P4DT12H30M5S", "P1W", "PT1H"), ("P", "PT1D", "4D", "")),
    "unknown": (None, ("anything",), ()),
}


class Strings(unittest.TestCase):
    def test_strings(self):
        self.assertEqual(set(STRINGS), {*CHECKS, "unknown"})
        for format, (library, good, bad) in STRINGS.items():
            with self.subTest(format):
                if library and not importlib.util.find_spec(library):
                    self.skipTest(f"needs {library}")
                formats = Formats()
                self.assertEqual([formats.holds(format, it) for it in good], [True] * len(good))
                self.assertEqual([it for it in bad if formats.holds(format, it)], [])
                self.assertEqual(formats.missing, {})

    def test_missing(self):
        with mock.patch.dict("sys.modules", rfc3987=None):
            formats = Formats()
            self.assertTrue(formats.holds("uri", "no URI"))
            self.assertRegex(formats.missing["uri"], r"pip install rfc3987, or pip install 'jschema\[formats\]'")

    def test_annotations(self):
        """Those of a valid result count, at any depth; a property of this name, and what is no string, don't."""
        schema = {"properties": {"format": {"format": "date"}, "n": {"format": "date"}, "any": {"anyOf": [
            {"type": "integer", "format": "date"}, {"format": "ipv4"}]}}, "format": "date"}
        instance = {"format": "x", "n": 1, "any": "2020-02-30"}
        with jschema.Schemas({"a:b": schema}) as schemas:
            text = json.dumps(instance).encode()
            found = Formats().broken(schemas.output_text("a:b", text, format="basic"), text)
        self.assertEqual([(it.message, it.instance_location, it.absolute_keyword_location) for it in found],
                         [("breaks the format ipv4", "/any", "a:b#/properties/any/anyOf/1/format"),
                          ("breaks the format date", "/format", "a:b#/properties/format/format")])


class Commands(Case):
    def test_warnings(self):
        self.write("f.schema.json", '{"properties": {"d": {"format": "date"}}, "maxProperties": 1}')
        self.write("f.json", '{"d": "2020-02-30"}')
        self.write("g.json", '{"d": "2020-02-30", "e": 1}')
        words = ("validate", "f.schema.json", "f.json", "g.json")
        self.assertEqual(self.run_inside(*words, "--format", "short")[1], "1 valid, 1 invalid (1 error)\n")
        out, said, status = self.run_inside(*words, "--formats", "--format", "short")
        self.assertEqual(said, "f.json:1:7: warning: breaks the format date (/d; format)\n"
                               "1 valid, 1 invalid (1 error), 1 warning\n")
        self.assertEqual((out.count("\n"), status), (1, 1))
        out, _, _ = self.run_inside(*words, "--formats", "--format", "json")
        valid, invalid = json.loads(out)
        self.assertEqual((valid["valid"], valid["errors"], invalid["valid"]), (True, [], False))
        [warning] = valid["warnings"]
        self.assertEqual((warning["warning"], warning["line"], warning["column"], warning["schema"]["column"]),
                         ("breaks the format date", 1, 7, 23))
        self.assertNotIn("warnings", invalid)
        out, said, _ = self.run_inside(*words[:3], "--formats")
        self.assertIn("warning[format]: breaks the format date\n --> f.json:1:7\n", said)
        self.assertEqual(out, "")
