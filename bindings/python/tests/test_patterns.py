"""Patterns of ECMA-262: how they are written for the validator, what they match, and where their errors are."""
import json
import os
import shutil
import unittest

import jschema
from jschema import patterns
from jschema.library import find_library
from jschema.rewriting import Rewriting
from random_patterns import compared, judged_by_node

URI = "urn:x"

# What a pattern is written as. (Of those that aren't here `regex` reads the same text.)
WRITTEN = [
    (r"^\d\D$", r"^[0-9][^0-9]$"),
    (r"\w\W", r"[0-9A-Z_a-z][^0-9A-Z_a-z]"),
    (r"[\s]", r"[\x{9}-\x{D} \x{A0}\x{1680}\x{2000}-\x{200A}\x{2028}\x{2029}\x{202F}\x{205F}\x{3000}\x{FEFF}]"),
    (".", r"[^\x{A}\x{D}\x{2028}\x{2029}]"),
    (r"\bx\B", r"(?-u:\b)x(?-u:\B)"),
    (r"\cC\cz\0", r"\x{3}\x{1A}\x{0}"),
    (r"[^]|[]", r"(?s:.)|[^\x{0}-\x{10FFFF}]"),
    ("[[a&&b][~~]", r"[\&\[ab]\~".replace(r"]\~", "]~")),
    (r"\uD83D\uDE00", r"\x{1F600}"),
    (r"[\uD800-\uDFFF]", r"[^\x{0}-\x{10FFFF}]"),
    (r"[\w-.]", r"[\-.0-9A-Z_a-z]"),
    (r"[\p{L}-_]", r"[\-_\p{L}]"),
    (r"a{", r"a\{"),
    (r"\<", "<"),
    (r"a\Z", "a$"),
    ("(?<$a>b)", "(?:b)"),
    (r"(?i)\d|x", "(?i:[0-9])|(?i:[x])"),
    (r"(?i:a\d)b", "(?:(?i:[a][0-9]))b"),
]
THE_SAME = ["^abc$", r"\t\x41A\/\-\_", r"\p{Lu}", "[a-z_-]", "(?<n>a)|b{2,3}?", "(?i)a", r"\Aa\z", "]"]
LEFT = [r"(a)\1", r"(?<n>a)\k<n>", "(?=.{1,1024}$)a[^/]+/b", "^a*(?!.*bd{900})[a-z]+$", "(?:(?=.*b)[ab])*c", "a**",
        "[b-a]", "(?s).", "[[:alpha:]]", "(", r"\q",
        "a{,2}", r"\b{start}a", r"\x{41}", r"\pL"]

# The forms of look-around that are rewritten, each with texts that match, and texts that don't.
FORMS = [
    ("at the start", r"^(?!aws:)[a-z:]+$", ["aw", "saws:"], ["aws:x", "A", ""]),
    ("several", r"^(?=.*[0-9])(?!.*--).{3,}$", ["a-1", "123"], ["abc", "1--", "12"]),
    ("one in another", r"^(?!a(?!b)).*$", ["ab", "b", ""], ["a", "ac"]),
    ("at the end", r"^[a-z.]*(?<!\.)$", ["", "a", ".a"], ["a.", "."]),
    ("at the end, without a start", r"b[a-z.]*(?<!\.git)$", ["b", "ab.gi"], ["b.git", "a"]),
    ("before the end", r"(?<!\.)[0-9]{2}$", ["a12", "12"], [".12", "1"]),
    ("alternatives", r"^x$|^(?!ab)a\w*$", ["x", "ac"], ["ab", "b"]),
    ("behind a prefix of fixed width", r"^[a-z]{2}(?!--)[a-z-]*$", ["ab", "ab-"], ["ab--", "a"]),
    ("a look-behind of fixed width", r"^..(?<!ab)c", ["aac"], ["abc", "ab"]),
    ("in a group", r"^((?!aws)[a-z]+)$", ["aw"], ["aws", ""]),
    ("before the sign of the start", r"(?!\.\.)^[.a]+$", [".a", "a."], ["..a", "b"]),
    ("of the start alone", r"(?!^[0-9]+$)[a-z0-9]+", ["12", "a"], ["1", "", "-"]),
    ("of one character", r"^(?:(?![:*])[\x00-\x7F])+$", ["a"], ["a:", "*", ""]),
    ("of one character, behind", r"^[a-z-]+(?<!-)x?$", ["a", "-a", "a-x"], ["a-"]),
    ("distributed", r"^(?:(?!--)[a-z-]+|[0-9])x$", ["-x", "ab-x", "1x"], ["--x", "x"]),
    ("in all places", r"^((?!foo).)*$", ["", "fofo"], ["foo", "xfoox", "a\nb"]),
    ("in all places, behind", r"^((?<!ab)[abc])*$", ["", "ab", "cba"], ["abc", "aba", "d"]),
    ("of a word, anywhere", r"foo(?!bar)", ["foo", "foobaz", "foobarfoo"], ["foobar"]),
    ("behind a word, anywhere", r"(?<!\$)\b[0-9]+", ["1", "a 1"], ["$1", "a"]),
    ("of a word that must be there", r"a(?=bc)", ["abc", "xabcd"], ["ab", "a"]),
    ("of any length", r"^a*(?=.*:)[a-z:]+$", ["a:", ":", "ab:c"], ["ab", "a:B", "", "a\n:"]),
    ("of any length, which isn't there", r"(?!\s*$).+", ["a", " a", "a "], ["", " ", "\n \n"]),
    ("of any length, which isn't there before a sign", r"^a*(?!b+c)[abc]+$", ["bb", "aca", "abbcc"], ["bc", "bbcb"]),
    ("of any length, which is nowhere", r"^[a-z]+\.(?!.*--)[a-z-]+$", ["a.b", "a.-b-"], ["a.b--", "a.", "a--.b"]),
    ("of any length, and in a name", r"^(?!.*--)[a-z-]+$", ["a", "-a-b-"], ["a--b", "--", ""]),
    ("of any length, with another in it", r"^a*(?!b*(?!c+d))[bcd]+$", ["cd", "acd", "ccdb"], ["ab", "bc", "d"]),
    ("of any length, behind", r"^[a-z:]+(?<=:.*)a*$", [":a", "b:ba"], ["ab", "a", ""]),
    ("of a bounded length, anywhere", r"(?=.{1,4}$)[a-z](-*[a-z])*", ["a-b", "abcdef"], ["", "a----", "-"]),
    ("beyond its group", r"^(x+(?=.*1)[a-z]+|y)[0-9]+$", ["xa1", "xxb01", "y2"], ["xa2", "y", "x1"]),
    ("repeated, which isn't of the flag u", r"^(\/(?!\.)+[^\/]+){1,2}$", ["/a", "/a/b"], ["/.a", "/a/.", "/"]),
]

# A name that is no single pattern.
LONG = "^(?=.{3,500}$)[a-z]+(?:-[a-z]+)*$"


class Written(unittest.TestCase):
    def test_written(self):
        for pattern, text in WRITTEN:
            with self.subTest(pattern):
                self.assertEqual(patterns.schema_of(patterns.read(pattern)), {"pattern": text})

    def test_left(self):
        """What the validator reads alike, and what can't be rewritten."""
        for pattern in THE_SAME + LEFT:
            with self.subTest(pattern):
                self.assertIsNone(patterns.read(pattern))

    def test_long_patterns(self):
        """They take no more than a moment, and nest without end nowhere."""
        for pattern in ("(" * 5000, "(?!a)" * 500 + "b", "^" + "(?!a|b)(c?)" * 40, "(?:a?(?!b))" * 30 + "$",
                        "(?!" * 60 + ")" * 60, "(?:(?!" * 40 + "a" + ")b)*" * 40, "[a-z]" * 5000):
            with self.subTest(pattern[:20]):
                patterns.read(pattern)
                patterns.read_single(pattern)


class Matches(unittest.TestCase):
    def test_forms(self):
        documents = {URI: {"$defs": {name: {"pattern": it} for name, it, _, _ in FORMS}}}
        with jschema.Schemas(documents, patterns="ecma") as schemas:
            for name, pattern, good, bad in FORMS:
                with self.subTest(name):
                    entry = f"{URI}#/$defs/{name.replace(' ', '%20')}"
                    found = [it for it in good + bad if schemas.is_valid(entry, json.dumps(it))]
                    self.assertEqual(found, good)
                    self.assertTrue(schemas.is_valid(entry, "7"))

    def test_forms_in_node(self):
        """Node says the same of these texts. (The last pattern is none with the flag `u`.)"""
        node = shutil.which("node")
        if node is None:
            self.skipTest("node isn't installed")
        wanted = [[True] * len(good) + [False] * len(bad) for _, _, good, bad in FORMS]
        found = judged_by_node(node, [(it, good + bad) for _, it, good, bad in FORMS])
        self.assertEqual(found, [*wanted[:-1], None])

    def test_random(self):
        node = shutil.which("node")
        if node is None:
            self.skipTest("node isn't installed")
        if os.environ.get("JSCHEMA_LIBRARY") != "off":
            self.skipTest("with the program alone")
        counts, failed = compared(os.environ["JSCHEMA"], node, 1, 300)
        self.assertEqual(failed, [])
        self.assertGreater(counts["texts compared"], 2000)
        self.assertGreater(counts["matches"], 400)

    def test_only_where_asked(self):
        with jschema.Schemas({URI: {"pattern": r"^\d$"}}) as schemas:
            self.assertTrue(schemas.is_valid(URI, '"٣"'))
        with jschema.Schemas({URI: {"pattern": r"^\d$"}}, patterns="ecma") as schemas:
            self.assertFalse(schemas.is_valid(URI, '"٣"'))
        with self.assertRaises(jschema.Refused):
            jschema.Schemas({URI: {"pattern": "(?!a)b"}})
        with self.assertRaises(ValueError):
            jschema.Schemas({URI: True}, patterns="perl")

    def test_values_stay(self):
        """What only looks like a pattern isn't one."""
        schema = {"const": {"pattern": r"\d"}, "examples": [{"patternProperties": {r"\d": 1}}],
                  "properties": {"pattern": {"const": 1}}, "x": {"pattern": r"\d"}, "pattern": "^[a-z]+$"}
        given = [(URI, json.dumps(schema, indent=1).encode())]
        self.assertEqual(Rewriting("ecma", "exact").texts(given, 5), given)


class Names(unittest.TestCase):
    def verdicts(self, schema, good, bad):
        with jschema.Schemas({URI: schema}, patterns="ecma") as schemas:
            self.assertEqual([it for it in good + bad if schemas.is_valid(URI, it)], good)

    def test_open(self):
        """One pattern is enough unless the look-around counts far."""
        self.verdicts({"patternProperties": {"^(?!x-).+$": {"type": "null"}}},
                      [{"a": None, "x-a": 1}, {"x": None, "": 1}], [{"a": 1}, {"x": 1}, {"y-": 1}])
        self.verdicts({"patternProperties": {"^(?!.*--)[a-z-]+$": {"type": "null"}}},
                      [{"a-b": None, "a--b": 1}], [{"a-b": 1}, {"-": 1}])

    def test_closed(self):
        """Else `propertyNames` says it, where each other name is refused."""
        schema = {"properties": {"ID": True}, "patternProperties": {LONG: {"type": "null"}},
                  "additionalProperties": False}
        self.verdicts(schema, [{"a-b": None}, {"ID": 1}, {}],
                      [{"a" * 501: None}, {"a": None}, {"abc": 1}, {"ABC": None}])
        self.verdicts({**schema, "properties": {"a-b": True}}, [{"a-b": None}], [{"a-b": 1}, {"a--b": None}])
        self.verdicts({"patternProperties": {LONG: True}, "additionalProperties": False}, [{"abc": 1}], [{"a": 1}])
        with jschema.Schemas({URI: schema}, patterns="ecma") as schemas:
            [error] = schemas.errors(URI, b'{"b": null}')
            self.assertEqual((error.message, error.keyword, error.instance_location, error.is_about_name),
                             ("false schema", "additionalProperties", "/b", False))

    def test_left(self):
        """Where other names are allowed, or one is meant that the weaker pattern matches, it is refused as it was."""
        for more in ({}, {"additionalProperties": True}, {"properties": {"a": True}, "additionalProperties": False}):
            with self.subTest(more):
                with self.assertRaises(jschema.Refused) as caught:
                    jschema.Schemas({URI: {"patternProperties": {LONG: {}}, **more}}, patterns="ecma")
                self.assertEqual((caught.exception.kind, caught.exception.place),
                                 ("BadPattern", f"/patternProperties/{LONG}"))

    def test_entries(self):
        """Of an older draft, too: an entry has the places of the upgraded schema, an error those of the author's."""
        if find_library() is None:
            self.skipTest("no library")
        inner = {"patternProperties": {r"\s": {"minimum": 2}}}
        schema = {"definitions": {"a": {"patternProperties": {r"^\d$": inner}}}}
        with jschema.Schemas({URI: schema}, default_dialect="draft-07", patterns="ecma") as schemas:
            within = "a/patternProperties/%5E%5Cd$/patternProperties/%5Cs"
            entry = f"{URI}#/$defs/{within}"
            self.assertIn(entry, schemas.places())
            [error] = schemas.errors(entry, b"1")
            self.assertEqual((error.upgraded_location, error.absolute_keyword_location),
                             (f"{entry}/minimum", f"{URI}#/definitions/{within}/minimum"))

    def test_names_that_become_one(self):
        self.verdicts({"patternProperties": {r"^\d$": {"minimum": 2}, "^[0-9]$": {"maximum": 3}}},
                      [{"1": 2}, {"1": 3}], [{"1": 1}, {"1": 4}])

    def test_references(self):
        """They lead through names that are others now, in this document and in others."""
        other = "urn:y"
        schema = {"patternProperties": {r"^\d$": {"patternProperties": {r"\s": {"type": "null"}}}},
                  "properties": {"a": {"$ref": r"#/patternProperties/%5E%5Cd$/patternProperties/%5Cs"}}}
        documents = {URI: schema, other: {"$ref": f"{URI}#/patternProperties/^%5Cd$"}}
        with jschema.Schemas(documents, patterns="ecma") as schemas:
            self.assertTrue(schemas.is_valid(URI, b'{"a": null}'))
            self.assertFalse(schemas.is_valid(URI, b'{"a": 1}'))
            [error] = schemas.errors(other, rb'{" ": 1}')
            self.assertEqual(error.absolute_keyword_location,
                             f"{URI}#/patternProperties/%5E%5Cd$/patternProperties/%5Cs/type")
            self.assertEqual(error.keyword_location, r"/$ref/patternProperties/\s/type")
            inner = f"{URI}#/patternProperties/%5E%5Cd$/patternProperties/%5Cs"
            self.assertIn(inner, schemas.places())
            self.assertFalse(schemas.is_valid(inner, b"1"))


class Places(unittest.TestCase):
    def test_errors(self):
        """Of what one keyword became there is one error, at that keyword."""
        schema = {"allOf": [{"minLength": 3}], "pattern": r"^(?!x)(?=.*\d)\w+$", "not": {"pattern": "^(?!.*a)b"}}
        with jschema.Schemas({URI: schema}, patterns="ecma") as schemas:
            found = [(it.message, it.keyword_location, it.absolute_keyword_location)
                     for it in schemas.errors(URI, b'"x"')]
            self.assertEqual(found, [("1 characters, at least 3", "/allOf/0/minLength", f"{URI}#/allOf/0/minLength"),
                                     ("no match", "/pattern", f"{URI}#/pattern")])
            self.assertEqual([it.keyword for it in schemas.errors(URI, b'"bcd1"')], ["not"])
            self.assertEqual(schemas.places(), [f"{URI}#", f"{URI}#/allOf/0", f"{URI}#/not"])

    def test_refusals(self):
        for schema, place in (
                ({"patternProperties": {r"\d": {"pattern": r"(a)\1"}}}, r"/patternProperties/\d/pattern"),
                ({"pattern": r"^(?!\p{L}{9999}\s)\w+$"}, "/pattern"),
                ({"pattern": r"\d", "allOf": 1}, "/allOf"),
                ({"pattern": "^(?!.*a)b", "allOf": 1}, "/allOf")):
            with self.subTest(schema):
                with self.assertRaises(jschema.Refused) as caught:
                    jschema.Schemas({URI: schema}, patterns="ecma")
                self.assertEqual(caught.exception.place, place)
