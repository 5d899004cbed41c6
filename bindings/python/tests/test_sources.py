"""YAML, TOML and JSON with comments: the values, where they stand, and what is refused."""
import datetime
import json
import unittest
from unittest import mock

from jschema.extras import MissingLibrary
from jschema.locations import pointer
from jschema.sources import Unreadable, kind_of, read
from tests.support.rows import texts

try:
    import yaml
except ImportError:
    yaml = None
try:
    import tomllib
except ImportError:
    tomllib = None

LARGEST = 2**24

# Texts of YAML, and what they are: by YAML 1.2.2, section 10.3 (the core schema), and its chapters on each style.
VALUES = (
    ("null", None), ("~", None), ("Null", None), ("NULL", None), ("nULL", "nULL"), ('""', ""), ("!!str", ""),
    ("true", True), ("False", False), ("TRUE", True), ("tRUE", "tRUE"),
    ("yes", "yes"), ("No", "No"), ("on", "on"), ("y", "y"),
    ("0", 0), ("-19", -19), ("+12", 12), ("-0", 0), ("0x3A", 58), ("1_000", "1_000"), ("0b1", "0b1"),
    ("123456789012345678901234567890", 123456789012345678901234567890),
    ("0.", 0.0), ("-0.0", -0.0), (".5", 0.5), ("+12e03", 12e3), ("-2E+05", -2e5), ("1e3", 1e3), ("1.5.2", "1.5.2"),
    ("12:30:45", "12:30:45"), ("2020-01-01", "2020-01-01"), ("2001-12-14t21:59:43.10-05:00",) * 2,
    ("!!str 010", "010"), ("'010'", "010"), ('"0o7"', "0o7"), ("! 12", "12"), ("!!int 7", 7), ("!!float 7", 7),
    ("!!null ''", None), ("!!bool 'true'", True), ("!!map {}", {}), ("!!seq []", []),
    ("a: 1\n200: b\ntrue: c\n1.0: d", {"a": 1, "200": "b", "true": "c", "1.0": "d"}),
    ("? a\n: 1", {"a": 1}), ("'<<': 1", {"<<": 1}), ("=: 1", {"=": 1}),
    ("- &a [1, x]\n- *a\n- {k: *a}", [[1, "x"], [1, "x"], {"k": [1, "x"]}]),
    ("&k a: *k", {"a": "a"}), ("a: [!!str 1, ! [2]]", {"a": ["1", [2]]}),
    ("|\n a\n b\n", "a\nb\n"), (">-\n a\n b\n", "a b"), ("a\n b", "a b"), ('"\\u00e9\\x41\\U0001f600"', "éA😀"),
    ("%YAML 1.2\n---\na", "a"), ("\ufeffa: é", {"a": "é"}),
)
# Texts of YAML that are refused, a part of why, and the line and column.
REFUSED = (
    ("a: 010", "octal", 1, 4), ("a: 0o17", "octal", 1, 4), ("-07", "octal", 1, 1),
    ("a: 09", "begins with a zero", 1, 4),
    ("a: .inf", "no number", 1, 4), ("-.INF", "no number", 1, 1), (".nan", "no number", 1, 1),
    ("<<: {a: 1}", "merge", 1, 1), ("a: 1\n b: 2", "", 2, 3), ("a: 1\nb: 2\na: 3", "twice", 3, 1),
    ("a: !foo 1", "tag !foo", 1, 4), ("!!timestamp 2020-01-01", "tag timestamp", 1, 1), ("!!set {a}", "tag set", 1, 1),
    ("!!int x", "no int", 1, 1), ("!!bool 1", "no bool", 1, 1), ("é: *x", "no anchor", 1, 4),
    ("a: &x [*x]", "hold itself", 1, 8), ("[1, 2", "", 1, 6), ("", "no document", 1, 1), ("# c\n", "no document", 1, 1),
    ("? [1]\n: 2", "a string", 1, 3), ("a: &x k\nb: {*x : 1}", "a string", 2, 5), ("~: 1", "a string", 1, 1),
    ("!!int 1: 2", "a string", 1, 1), ("a: 0x" + "f" * 5000, "64 bits", 1, 4),
    ("[" * 128, "deeper than 127", 1, 128), ("- " * 128, "deeper than 127", 1, 255),
)


def value(text, kind):
    """The one value of a text, by the standard library's reader of JSON."""
    [source] = read(text.encode(), kind)
    return json.loads(source.json)


def no_name_twice(pairs):
    if len(dict(pairs)) < len(pairs):
        raise ValueError
    return dict(pairs)


def leaves(node, tokens=()):
    """Each scalar below a node, with its tokens."""
    if isinstance(node.content, str):
        yield tokens, node
    for token, child in node.children():
        yield from leaves(child, (*tokens, token))


@unittest.skipUnless(yaml, "needs PyYAML")
class Yaml(unittest.TestCase):
    def each_reader(self):
        """With PyYAML's reader in C, where it has one, and with that in Python."""
        yield "default"
        if hasattr(yaml, "CLoader"):
            with mock.patch.object(yaml, "CLoader", yaml.Loader):
                yield "Python"

    def test_values(self):
        for reader in self.each_reader():
            for text, expected in VALUES:
                with self.subTest(text, reader=reader):
                    found = value(text, "yaml")
                    self.assertEqual((found, type(found)), (expected, type(expected)))

    def test_refused(self):
        for reader in self.each_reader():
            for text, why, line, column in REFUSED:
                with self.subTest(text, reader=reader), self.assertRaises(Unreadable) as raised:
                    read(text.encode(), "yaml")
                begin = raised.exception.range.begin
                self.assertEqual(raised.exception.kind, "NotYaml")
                self.assertIn(why, raised.exception.meaning)
                self.assertEqual(begin.line, line)
                if reader == "default" and why:
                    self.assertEqual(begin.column, column)

    def test_json_is_yaml(self):
        """JSON texts are the same in YAML. PyYAML doesn't take tabs between tokens, `\\/`, and surrogates; and a name
        that is there twice is refused in YAML."""
        count = 0
        for name, text in texts():
            if len(text) > 2000 or text.count(b"[") > 127 or b"\t" in text or b"\\/" in text or b"\\ud" in text.lower():
                continue
            try:
                expected = json.loads(text, object_pairs_hook=no_name_twice)
            except (ValueError, RecursionError):
                continue
            with self.subTest(name):
                [source] = read(text, "yaml")
                self.assertEqual(json.loads(source.json), expected)
            count += 1
        self.assertGreater(count, 200)

    def test_places(self):
        text = "# é\nname: &n 'Ada'\nlist:\n- é: [1, \"x\"]\n  b: *n\n- |\n  two\n  lines\n"
        [source] = read(text.encode(), "yaml")
        data = text.encode()
        for place, shown, line, column in (
                ("/name", "&n 'Ada'", 2, 7), ("/list", "- é: [1, \"x\"]\n  b: *n\n- |\n  two\n  lines\n", 4, 1),
                ("/list/0", "é: [1, \"x\"]\n  b: *n", 4, 3), ("/list/0/é/1", '"x"', 4, 10), ("/list/0/b", "*n", 5, 6)):
            begin, end = source.value(place)
            self.assertEqual(data[begin.offset:end.offset].decode(), shown)
            self.assertEqual(begin[1:], (line, column))
        begin, end = source.name("/list/0/é")
        self.assertEqual((data[begin.offset:end.offset].decode(), begin[1:]), ("é", (4, 3)))
        self.assertEqual(source.name("/list/0"), source.value("/list/0"))
        self.assertRaises(LookupError, source.value, "/list/2")
        self.assertRaises(LookupError, source.value, "/list/00")

    def test_documents(self):
        sources = read(b"a: 1\n---\n# c\n- 2\n...\n---\n", "yaml")
        self.assertEqual([source.json for source in sources], [b'{"a":1}', b"[2]", b"null"])
        self.assertEqual([source.first_line for source in sources][:2], [1, 4])
        with self.assertRaises(Unreadable) as raised:
            read(b"a: 1\n---\n010\n---\nb", "yaml")
        self.assertEqual([source.json for source in raised.exception.before], [b'{"a":1}'])

    def test_anchors_within_the_limits(self):
        """What aliases stand for counts, before any of it is made."""
        laughs = "".join(f"a{i}: &a{i} [{', '.join([f'*a{i - 1}' if i else 'lol'] * 10)}]\n" for i in range(12))
        deep = "a0: &a0 [1]\n" + "".join(f"a{i}: &a{i} [*a{i - 1}]\n" for i in range(1, 200))
        half = "x" * (LARGEST // 2)
        for text, kind, why in ((laughs, "InputTooLarge", "more than 16,777,216"), (deep, "NotYaml", "deeper than 127"),
                                (f"- &a {half}\n- *a\n", "InputTooLarge", "more than 16,777,216")):
            with self.assertRaises(Unreadable) as raised:
                read(text.encode(), "yaml")
            self.assertEqual(raised.exception.kind, kind)
            self.assertIn(why, raised.exception.meaning)

    def test_encodings(self):
        for encoding in ("utf-8", "utf-8-sig", "utf-16", "utf-16-le", "utf-16-be"):
            mark = "\ufeff" if encoding.startswith("utf-16-") else ""
            [source] = read((mark + "é: ü\n").encode(encoding), "yaml")
            self.assertEqual(json.loads(source.json), {"é": "ü"})
            self.assertEqual(source.value("/é").begin.line, 1)
        with self.assertRaises(Unreadable) as raised:
            read(b"a: 1\nb: \xff", "yaml")
        self.assertEqual(raised.exception.range.begin[1:], (2, 4))

    def test_library_is_missing(self):
        with mock.patch.dict("sys.modules", yaml=None), self.assertRaisesRegex(MissingLibrary, "pip install PyYAML"):
            read(b"a", "yaml")


@unittest.skipUnless(tomllib, "needs tomllib (Python 3.11)")
class Toml(unittest.TestCase):
    TEXT = '''# c
title = "x"  # é
a.b."c d" = 1_000
'lit.eral' = 'C:\\a'
d = [1979-05-27 07:32:00Z, 1979-05-27T00:32:00.5-07:00, 1979-05-27, 07:32:00]
[owner]
name = """multi
"line""\\""""
long = \'\'\'
it''s\'\'\'
array = [ 1, [2, 0xff], {x = 1, y.z = "\\u00e9\\U0001f600"} , # c ]
  -4e+2 ]
[[products]]
name = "Hammer"
[[products.sub]]
k = true
[[products]]
[products.deep.er]
"x\\ty" = +1.5
'''

    def test_values(self):
        expected = tomllib.loads(self.TEXT)
        expected["d"] = ["1979-05-27T07:32:00Z", "1979-05-27T00:32:00.500000-07:00", "1979-05-27", "07:32:00"]
        self.assertEqual(value(self.TEXT, "toml"), expected)

    def test_places(self):
        """Where a scalar stands, the text is that value by the standard library's reader, and a name that name."""
        [source] = read(self.TEXT.encode(), "toml")
        found = 0
        for tokens, node in leaves(source.tree()):
            text = source.data[node.begin:node.end].decode()
            read_again = tomllib.loads(f"it = {text}")["it"]
            if isinstance(read_again, (datetime.datetime, datetime.date, datetime.time)):
                read_again = read_again.isoformat().replace("+00:00", "Z")
            self.assertEqual(read_again, json.loads(node.content), tokens)
            begin, end = source.name(pointer([*tokens]))
            if not tokens[-1].isdecimal():
                name = source.data[begin.offset:end.offset].decode()
                self.assertEqual(list(tomllib.loads(f"{name} = 1")), [tokens[-1]])
            found += 1
        self.assertEqual(found, 18)
        self.assertEqual(source.value("/products/1").begin[1:], (17, 1))
        self.assertEqual(source.value("/owner/array/2/y/z").begin[1:], (11, 39))

    def test_refused(self):
        deep = "a = " + "[" * 200 + "]" * 200
        for text, why, line, column in (
                ("a = ", "", 1, 5), ("a = 1\na = 2", "", 2, 6), ("a = [inf]", "no number inf", 1, 6),
                ("a = -nan", "no number -nan", 1, 5), (deep, "deeper than 127", 1, 131), ("é = 1", "", 1, 1),
                (".".join("a" * 300) + " = 1", "deeper than 127", 1, 1),
                ("[" + ".".join("a" * 300) + "]", "deeper than 127", 1, 1),
                ("a = {b." + "'b'." * 200_000 + "c = 1}", "deeper than 127", 1, 5),
                ("a = " + "1" * 5000, "64 bits", 1, 1)):
            with self.subTest(text[:20]), self.assertRaises(Unreadable) as raised:
                read(text.encode(), "toml")
            self.assertEqual(raised.exception.kind, "NotToml")
            self.assertIn(why, raised.exception.meaning)
            self.assertEqual(raised.exception.range.begin[1:], (line, column))
        with self.assertRaises(Unreadable) as raised:
            read(b"a = 1\nb = '\xff'", "toml")
        self.assertEqual(raised.exception.range.begin[1:], (2, 6))


class Jsonc(unittest.TestCase):
    def test_values(self):
        for text, expected in (('// c\n{"a": /* é */ [1, 2,], "//": "/*,]",}', {"a": [1, 2], "//": "/*,]"}),
                               ("[1 /* a * b ** */]", [1]), ('"\\"// no"', '"// no'), ("\ufeff1", 1), ("[]//", [])):
            self.assertEqual(value(text, "jsonc"), expected)

    def test_no_values(self):
        for text in ("[,]", "[1,,]", "{,}", "[1 2]", '{"a":,}', "/* no end", ",", "[1],"):
            [source] = read(text.encode(), "jsonc")
            self.assertRaises(ValueError, json.loads, source.json)

    def test_places(self):
        [source] = read('{"a": /* é */ [1,\n// é\n 2,]}'.encode(), "jsonc")
        self.assertEqual(source.value("/a").begin[1:], (1, 15))
        self.assertEqual(source.value("/a/1").begin[1:], (3, 2))
        self.assertEqual(source.name("/a").begin[1:], (1, 2))


class Kinds(unittest.TestCase):
    def test_kinds(self):
        for name, kind in (("a.json", "json"), ("a.YAML", "yaml"), ("b/c.yml", "yaml"), ("a.toml", "toml"),
                           ("a.jsonc", "jsonc"), ("a", "json"), ("a.txt", "json"), (".yaml", "json"), ("-", "json")):
            self.assertEqual(kind_of(name), kind)

    def test_json_is_left_to_the_validator(self):
        [source] = read(b"no JSON", "json")
        self.assertEqual((source.json, source.data), (b"no JSON", b"no JSON"))
