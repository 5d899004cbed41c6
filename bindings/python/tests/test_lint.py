"""What lint finds in schemas, and where."""
import importlib.util
import json
import unittest
from unittest import mock

import jschema
from commands import Case
from jschema.errors import Refused
from jschema.library import find_library
from jschema.lint import RULES, lint, lint_all
from lsp_client import once
from random_patterns import Maker

URI = "https://example.com/s"
# A schema, and what is found: the rule, the severity, a part of the message, and the place.
FOUND = (
    # No dialect knows these.
    ({"requierd": ["a"]}, ("unknown-keyword", "warning", "is `required` meant?", "/requierd")),
    ({"minlength": 1}, ("unknown-keyword", "warning", "is `minLength` meant?", "/minlength")),
    ({"item": {}}, ("unknown-keyword", "warning", "is `items` meant?", "/item")),
    ({"additionalProperty": {}}, ("unknown-keyword", "note", "so it is an annotation", "/additionalProperty")),
    ({"discriminator": {}}, ("unknown-keyword", "note", "so it is an annotation", "/discriminator")),
    ({"own": 1, "items": {"own": 1, "properties": {"own": {"own": 1}}}},
     ("unknown-keyword", "note", "(here and 2 times more)", "/own")),
    ({"x-anything": 1, "properties": {"requierd": {}}, "default": {"requierd": 1}, "enum": [{"requierd": 1}]},),
    # These can't act.
    ({"additionalItems": False},
     ("inactive-keyword", "warning", "use `items` beside `prefixItems`", "/additionalItems")),
    ({"dependencies": {}}, ("inactive-keyword", "warning", "use `dependentRequired`", "/dependencies")),
    ({"then": True}, ("inactive-keyword", "warning", "without `if`", "/then")),
    ({"if": True}, ("inactive-keyword", "warning", "without `then` or `else`", "/if")),
    ({"if": True, "else": {}},),
    ({"minContains": 1}, ("inactive-keyword", "warning", "without `contains`", "/minContains")),
    ({"contains": True, "maxContains": 1},),
    ({"items": {}, "unevaluatedItems": False}, ("inactive-keyword", "warning", "leaves nothing", "/unevaluatedItems")),
    ({"type": ["string", "null"], "minimum": 1}, ("inactive-keyword", "warning", "string or null", "/minimum")),
    ({"type": ["string", "integer"], "minimum": 1},),
    ({"type": "number", "multipleOf": 2, "const": 4},),
    ({"format": "date"}, ("format", "note", "isn't asserted", "/format")),
    # Nothing refers to these.
    ({"type": "array", "$defs": {"a": {}}}, ("unused-definition", "warning", "`a`", "/$defs/a")),
    ({"$defs": {"a": {}}},),
    ({"$ref": "#/$defs/a", "$defs": {"a": {}}},),
    ({"$ref": "#/$defs/a/items", "$defs": {"a": {"items": {}}}},),
    ({"$ref": "#x", "definitions": {"a": {"$anchor": "x"}}},),
    ({"$ref": "t", "$defs": {"a": {"$id": "t"}}},),
    ({"type": "array", "$defs": {"a": {"$ref": "#/$defs/a"}}}, ("unused-definition", "warning", "`a`", "/$defs/a")),
    ({"$dynamicRef": "#x", "$defs": {"a": {"$dynamicAnchor": "x"}, "b": {"$dynamicAnchor": "y"}}},),
    # These lead nowhere.
    ({"$ref": "#/$defs/a"}, ("unresolved-reference", "error", "no schema has the URI", "/$ref")),
    ({"$ref": "#/properties"}, ("unresolved-reference", "error", "no schema has the URI", "/$ref")),
    ({"$ref": "other"},
     ("unresolved-reference", "error", "no document has the URI https://example.com/other", "/$ref")),
    ({"items": {"$id": "a/b", "$ref": "c"}},
     ("unresolved-reference", "error", "no document has the URI https://example.com/a/c", "/items/$ref")),
    ({"$dynamicRef": "#none"}, ("unresolved-reference", "error", "no schema has the URI", "/$dynamicRef")),
    # The validator doesn't read these.
    ({"pattern": "a(?=b)"}, ("pattern", "error", "`(?=` at 2 is a look-ahead", "/pattern")),
    ({"pattern": "[(?=](?<!b)"}, ("pattern", "error", "`(?<!` at 6 is a negative look-behind", "/pattern")),
    ({"pattern": r"(a)\\\1"}, ("pattern", "error", r"`\1` at 6 is a back-reference", "/pattern")),
    ({"pattern": r"(?<n>a)\k<n>"}, ("pattern", "error", "back-reference", "/pattern")),
    ({"patternProperties": {"a++(?>b)": {}, "ok": {}, "(": {}}},
     ("pattern", "error", "`(?>` at 4 is an atomic group", "/patternProperties/a++(?>b)"),
     ("pattern", "error", "isn't a regular expression", "/patternProperties/(")),
    ({"maximum": 1.5, "enum": [{"a": 2**64}, -2**63 - 1]}, ("number", "error", "whole", "/maximum"),
     ("number", "error", "2^64", "/enum/0/a"), ("number", "error", "2^64", "/enum/1")),
    ({"minimum": 10**300}, ("number", "error", "2^64", "/minimum")),
    ({"type": 1}, ("refused", "error", "the keyword's value has the wrong form (BadKeyword)", "/type")),
    ({"items": [{}]}, ("refused", "error", "a schema is an object or a boolean (NotASchema)", "/items")),
    # These accept nothing.
    ({"minimum": 2, "maximum": 1}, ("accepts-nothing", "warning", "`minimum` 2 is more than `maximum` 1", "/minimum")),
    ({"minimum": 1, "maximum": 1},),
    ({"minimum": 1, "exclusiveMaximum": 1}, ("accepts-nothing", "warning", "isn't below", "/minimum")),
    ({"type": "integer", "exclusiveMinimum": 1, "exclusiveMaximum": 2},
     ("accepts-nothing", "warning", "none is between", "/exclusiveMinimum")),
    ({"minLength": 2, "maxLength": 1}, ("accepts-nothing", "warning", "accepts no string", "/minLength")),
    ({"contains": {}, "minContains": 2, "maxContains": 1}, ("accepts-nothing", "warning", "no array", "/minContains")),
    ({"contains": {}, "minContains": 3, "maxItems": 2}, ("accepts-nothing", "warning", "no array", "/minContains")),
    ({"minItems": 2, "prefixItems": [{}], "items": False}, ("accepts-nothing", "warning", "prefixItems", "/minItems")),
    ({"required": ["a", "b"], "maxProperties": 1}, ("accepts-nothing", "warning", "2 names", "/required")),
    ({"required": ["a"], "properties": {"a": False}}, ("accepts-nothing", "warning", "is false", "/required")),
    ({"required": ["a"], "additionalProperties": False}, ("accepts-nothing", "warning", "`a`", "/required")),
    ({"required": ["a"], "additionalProperties": False, "patternProperties": {"^a": {}}},),
    ({"enum": []}, ("accepts-nothing", "warning", "is empty", "/enum")),
    ({"type": "string", "enum": [1, None]}, ("accepts-nothing", "warning", "of the type string", "/enum")),
    ({"type": "number", "enum": [1]},), ({"type": ["integer"], "const": True},
                                         ("accepts-nothing", "warning", "isn't of the type integer", "/const")),
)

OPTIONS = {"patterns": "ecma", "numbers": "exact"}
ALONE = "^(?=.{3,500}$)[a-z]+(?:-[a-z]+)*$"
TEXTS = "without `.` and `e`; `--numbers texts` makes a text of it"
# The same where patterns and numbers are rewritten.
REWRITTEN = (
    ({"pattern": r"^(?!aws:)\w+(?<!-)$", "minimum": 0.5, "maximum": 1e30, "multipleOf": 0.01, "enum": [1.0, 2.5]},),
    ({"patternProperties": {ALONE: {}}, "additionalProperties": False},),
    ({"patternProperties": {r"^\d+$": {"properties": {"a": {"maxLength": 2.0}}}, "^(?!x-)": {}}},),
    ({"pattern": "(?!b)b*(?=.{1,1024}$)c+d"},
     ("pattern", "error", "`(?=` at 8 is a look-ahead, which can't be rewritten exactly", "/pattern")),
    ({"pattern": "^(?!a)x+(?!c*(?=.{1,900}$)d+)[cd]+$"},
     ("pattern", "error", "`(?=` at 14 is a look-ahead, which can't be rewritten exactly", "/pattern")),
    ({"pattern": "(?<!(a|b+)c)(?<!.*d{900})e"},
     ("pattern", "error", "`(?<!` at 13 is a negative look-behind, which can't be rewritten exactly", "/pattern")),
    ({"pattern": r"^(?!a)(b)\1$"}, ("pattern", "error", r"`\1` at 10 is a back-reference", "/pattern")),
    ({"pattern": "^(?!a)x[b-a]"}, ("pattern", "error", "of ECMA-262 (see character 12)", "/pattern")),
    ({"pattern": r"^(?!a)\p{L}\p{Graph}"}, ("pattern", "error", r"`\p{Graph}` at 12 is a property", "/pattern")),
    ({"pattern": r"^(?:\p{L}{1000}){1000}$"}, ("pattern", "error", "takes too much memory", "/pattern")),
    ({"pattern": "a" * 5001 + r"\p{Graph}"}, ("pattern", "error", r"`\p{Graph}` at 5002 is a property", "/pattern")),
    ({"patternProperties": {ALONE: {}}},
     ("pattern", "error", "`(?=` at 2 is a look-ahead, which needs a name alone", f"/patternProperties/{ALONE}")),
    ({"patternProperties": {r"^\d$": {"pattern": "("}, ALONE: {}}, "additionalProperties": False},
     ("pattern", "error", "(see character 2)", r"/patternProperties/^\d$/pattern"),
     ("pattern", "error", "needs a name alone", f"/patternProperties/{ALONE}")),
    ({"patternProperties": {r"^(?=.{3,500}$)\p{L}+\p{Graph}": {}}, "additionalProperties": False},
     ("pattern", "error", "is a property", r"/patternProperties/^(?=.{3,500}$)\p{L}+\p{Graph}")),
    ({"default": 0.5}, ("number", "error", TEXTS, "/default")),
    ({"properties": {"a": {"minLength": 1.5, "examples": [1.0, {"b": -2.5}]}}},
     ("number", "error", "without `.` and `e`, and this can't be rewritten", "/properties/a/minLength"),
     ("number", "error", TEXTS, "/properties/a/examples/1/b")),
    ({"const": 0.5, "required": [2**70]}, ("number", "error", "2^64 - 1, and this can't be rewritten", "/required/0")),
)


def found(schema, **how):
    return lint(json.dumps(schema).encode(), URI, **how)


class Rules(unittest.TestCase):
    def test_rules(self):
        seen = {"not-json"}
        for schema, *expected in FOUND:
            with self.subTest(schema):
                findings = sorted(found(schema), key=lambda it: it.place)
                expected = sorted(expected, key=lambda it: it[-1])
                self.assertEqual([(it.rule, it.severity, it.place) for it in findings],
                                 [(rule, severity, place) for rule, severity, _, place in expected])
                for finding, (rule, _, message, _) in zip(findings, expected):
                    self.assertIn(message, finding.message)
                    seen.add(rule)
        self.assertEqual(seen, set(RULES))

    def test_rewritten(self):
        """What can be rewritten is no error; of what can't be, the part that can't is named."""
        for schema, *expected in REWRITTEN:
            with self.subTest(schema):
                findings = [it for it in found(schema, **OPTIONS) if it.severity == "error"]
                self.assertEqual([(it.rule, it.place) for it in sorted(findings, key=lambda it: it.place)],
                                 sorted((rule, place) for rule, _, _, place in expected))
                for rule, _, message, place in expected:
                    self.assertTrue(any(message in it.message for it in findings if it.place == place), findings)
        self.assertEqual(found({"default": 0.5, "examples": [1e30]}, numbers="texts"), [])
        with self.assertRaises(ValueError):
            found({}, patterns="perl")

    def test_numbers_as_they_are_written(self):
        """An integer with a minus before zero is none that the validator takes; rewritten it is 0."""
        [finding] = lint(b'{"maximum": -0}', URI)
        self.assertEqual((finding.rule, finding.message), ("number", "the validator takes no minus before zero"))
        self.assertEqual(lint(b'{"maximum": -0}', URI, numbers="exact"), [])
        # More digits than are computed with.
        [finding] = lint(b'{"maximum": 1.' + b"1" * 2000 + b"}", URI, numbers="exact")
        self.assertEqual((finding.rule, finding.place), ("number", "/maximum"))

    def test_rewritten_of_older_drafts(self):
        """Draft-03 has no `allOf`, to which look-around could be rewritten."""
        if find_library() is None:
            self.skipTest("no library")
        schema = {"$schema": "http://json-schema.org/draft-04/schema#", "pattern": "^(?!.*a)[^b]+$"}
        self.assertEqual(found(schema, **OPTIONS), [])
        schema["$schema"] = "http://json-schema.org/draft-03/schema#"
        [finding] = found(schema, **OPTIONS)
        self.assertEqual((finding.rule, finding.message[-39:]), ("pattern", "which can't be rewritten in this schema"))

    def test_random_patterns(self):
        """A pattern has an error, and one that says what of it isn't read, if and only if the validator refuses it."""
        once(self)
        maker, refused = Maker(1), 0
        for _ in range(300):
            schema = {maker.random.choice(["pattern", "patternProperties"]): maker.pattern()[0]}
            if "patternProperties" in schema:
                schema = {"patternProperties": {schema["patternProperties"]: True},
                          "additionalProperties": maker.random.choice([False, True])}
            with self.subTest(schema):
                errors = [it.rule for it in found(schema, **OPTIONS) if it.severity == "error"]
                try:
                    jschema.Schemas({URI: schema}, **OPTIONS).close()
                    self.assertEqual(errors, [])
                except jschema.Refused:
                    refused += 1
                    self.assertEqual(errors, ["pattern"])
        self.assertGreater(refused, 5)

    def test_older_drafts(self):
        """A keyword of the document's own dialect is none that can't act; one of a later dialect is."""
        for dialect, keyword in (("http://json-schema.org/draft-07/schema#", "dependencies"),
                                 ("http://json-schema.org/draft-04/schema", "id"),
                                 ("https://json-schema.org/draft/2019-09/schema", "$recursiveRef")):
            rules = [it.rule for it in found({"$schema": dialect, keyword: {} if keyword == "dependencies" else "#"})]
            self.assertNotIn("inactive-keyword", rules)
        findings = found({"$schema": "http://json-schema.org/draft-07/schema#", "prefixItems": [{}]})
        self.assertIn("`prefixItems` is of 2020-12, and can't act in draft-07", [it.message for it in findings])

    def test_places(self):
        text = '{\n "é": 1, "requierd": [],\n "properties": {"a": {"$ref": "gone"}}}'.encode()
        note, typed, reference = lint(text, URI)
        self.assertEqual((note.range.begin[1:], note.range.end[1:]), ((2, 2), (2, 5)))
        self.assertEqual((typed.range.begin[1:], typed.range.end[1:]), ((2, 10), (2, 20)))
        self.assertEqual((reference.range.begin[1:], reference.range.end[1:]), ((3, 31), (3, 37)))
        self.assertEqual(typed.suggestion, "required")

    def test_parts(self):
        """Of a pattern the part is meant that isn't read, as it is written."""
        for text, begin, end in (
                (r'{"pattern": "é\u00e9\ud83d\ude00(a)\\1b"}', 36, 39), (r'{"pattern": "\\p{Graph}"}', 14, 24),
                (r'{"patternProperties": {"(?>é)": {}}}', 25, 28), (r'{"pattern": "b\"[b-a]a"}', 21, 22),
                ('{"pattern": "(b"}', 13, 17), ('{"pattern": "😀(a)\\\\1"}', 18, 21)):
            with self.subTest(text):
                [finding] = lint(text.encode(), URI, **OPTIONS)
                self.assertEqual((finding.range.begin[1:], finding.range.end[1:]), ((1, begin), (1, end)))

    def test_broken(self):
        for text, line, column in ((b'{"a":\n }', 2, 2), (b"", 1, 1), (b'\n\xff', 2, 1)):
            with self.subTest(text):
                [finding] = lint(text, URI)
                self.assertEqual((finding.rule, finding.severity), ("not-json", "error"))
                self.assertEqual(finding.range.begin[1:], (line, column))

    def test_what_only_python_reads(self):
        """What else is found has its place too, and the text is refused where it ceases to be JSON."""
        for text, column in ((b'{"requierd": [], "title": "\\ud800"}', 27),
                             (b'{"requierd": [], "default": [1e999]}', 30)):
            with self.subTest(text):
                findings = lint(text, URI)
                self.assertEqual((findings[0].rule, findings[0].range.begin.column), ("unknown-keyword", 2))
                [refused] = [it for it in findings if it.rule == "refused"]
                self.assertEqual((refused.message[:15], refused.range.begin.column), ("not a JSON text", column))

    def test_other_documents(self):
        schema = {"$ref": "other#/$defs/a"}
        self.assertEqual(found(schema, others={"https://example.com/other": {"$defs": {"a": True}}}), [])
        [finding] = found(schema, others={"https://example.com/other": {}})
        self.assertEqual((finding.rule, finding.message[:22]), ("unresolved-reference", "no schema has the URI "))

    def test_several(self):
        """Each has its own findings, also where the validator refuses another one before."""
        texts = [("https://a.example/1", b'{"type": 1}', "json"), ("https://a.example/2", b'{"pattern": "("}', "json"),
                 ("https://a.example/3", b'{"$ref": "1"}', "json"), ("https://a.example/4", b"{", "json"),
                 ("https://a.example/5", b'{"type": "array", "$defs": {"a": {}}}', "json"),
                 ("https://a.example/6", b'{"$ref": "5#/$defs/a"}', "json")]
        self.assertEqual([[it.rule for it in findings] for findings in lint_all(texts)],
                         [["refused"], ["pattern"], [], ["not-json"], [], []])


    def test_many(self):
        """As of a few: what each is refused for, also for want of another one, and what others refer to in it."""
        kinds = [({"type": 1}, "refused"), ({"$ref": "absent"}, "unresolved-reference"), ({"pattern": "("}, "pattern"),
                 ({"$ref": "{}#/$defs/a"}, None), ({"type": "array", "$defs": {"a": {}}}, None),
                 ({"type": "array", "$defs": {"a": {}}}, "unused-definition")]
        texts, expected = [], []
        for number in range(40):
            for index, (schema, rule) in enumerate(kinds):
                text = json.dumps(schema).replace("{}#", f"https://a.example/{number}/{index + 1}#")
                texts.append((f"https://a.example/{number}/{index}", text.encode(), "json"))
                expected.append([] if rule is None else [rule])
        self.assertEqual([[it.rule for it in findings] for findings in lint_all(texts)], expected)


class Growth(unittest.TestCase):
    def test_questions(self):
        """However many are refused, the validator gets each document a few times."""
        given = []

        def judged(documents, options=None):
            given.append(len(documents))
            refused = next((index for index, (_, text) in enumerate(documents) if b"1" in text), None)
            return None if refused is None else Refused("document", "BadKeyword", "/type", index=refused)

        for count in (1, 30, 300):
            given.clear()
            texts = [(f"https://a.example/{it}", b'{"type": 1}' if it % 2 else b"{}", "json") for it in range(count)]
            with mock.patch("jschema.lint._judged", judged):
                found = lint_all(texts)
            self.assertEqual([len(it) for it in found], [it % 2 for it in range(count)])
            self.assertLessEqual(sum(given), 6 * count)


@unittest.skipUnless(importlib.util.find_spec("yaml") and importlib.util.find_spec("tomllib"),
                     "needs PyYAML and Python 3.11")
class OtherKinds(unittest.TestCase):
    def test_parts(self):
        for text, line, begin, end in (("patternProperties:\n  '(a)\\1':\n    title: a", 2, 7, 9),
                                       ("pattern: é(a)\\1", 1, 14, 16), (r'pattern: "\x41(a)\\1"', 1, 10, 22)):
            with self.subTest(text):
                [finding] = lint(text.encode(), URI, kind="yaml", **OPTIONS)
                self.assertEqual((finding.range.begin[1:], finding.range.end[1:]), ((line, begin), (line, end)))

    def test_broken(self):
        for text, kind, line in ((b"a: [", "yaml", 1), (b"a =", "toml", 1), (b"a: 1\n---\nb: 1", "yaml", 3)):
            with self.subTest(text):
                [finding] = lint(text, URI, kind=kind)
                self.assertEqual((finding.rule, finding.range.begin.line), ("not-json", line))


class Commands(Case):
    def test_text(self):
        self.write("lint/a.json", '{\n  "requierd": ["a"],\n  "$ref": "b.jsonc"}')
        self.write("lint/b.jsonc", '{"type": "string", /* not looked at */ "minimum": 1}\n')
        out, said, status = self.run_inside("lint", "lint/a.json")
        self.assertEqual((said, status), ("0 errors, 1 warning, 0 notes\n", 1))
        self.assertEqual(out, """warning[unknown-keyword]: no dialect knows the keyword `requierd`: is `required` meant?
 --> lint/a.json:2:3
  |
2 |   "requierd": ["a"],
  |   ^^^^^^^^^^ /requierd

""")

    def test_statuses(self):
        for text, status in (("{}", 0), ('{"format": "date"}', 0), ('{"then": {}}', 1), ('{"type": 1}', 3), ("{", 3)):
            self.write("status.json", text)
            self.assertEqual(self.run_inside("lint", "--format", "short", "status.json")[2], status)
        said = "failed: nowhere.json: No such file or directory\n\n0 errors, 0 warnings, 0 notes, 1 failed\n"
        self.assertEqual(self.run_inside("lint", "nowhere.json"), ("", said, 4))

    def test_options(self):
        """They are those of the validation, with its defaults."""
        self.write("people.json", r'{"pattern": "^(?!a)\\w", "minimum": 0.5, "examples": [0.5]}')
        for options, rules in (((), ["number"]), (("--numbers", "texts"), []),
                               (("--patterns", "regex", "--numbers", "texts"), ["pattern"]),
                               (("--numbers", "whole"), ["number", "number"])):
            out, _, status = self.run_inside("lint", "--format", "json", "people.json", *options)
            with self.subTest(options):
                self.assertEqual([it["rule"] for it in json.loads(out)[0]["findings"]], rules)
                self.assertEqual(status, 3 if rules else 0)
        self.assertEqual(self.run_inside("lint", "people.json", "--patterns", "perl")[2], 2)

    def test_formats(self):
        self.write("f.json", '{"then": {}}')
        problem = "`then` can't act without `if` (/then; inactive-keyword)\n"
        self.assertEqual(self.run_inside("lint", "--format", "short", "f.json")[0], f"f.json:1:2: warning: {problem}")
        self.assertEqual(self.run_inside("lint", "--format", "github", "f.json")[0],
                         f"::warning file=f.json,line=1,col=2::{problem}")
        [shown] = json.loads(self.run_inside("lint", "--format", "json", "f.json")[0])
        self.assertEqual(shown, {"file": "f.json", "findings": [{
            "rule": "inactive-keyword", "severity": "warning", "line": 1, "column": 2, "endLine": 1, "endColumn": 8,
            "message": "`then` can't act without `if`", "place": "/then", "suggestion": None}]})

    def test_folder(self):
        self.write("many/a.json", '{"$ref": "b.json"}')
        self.write("many/b.json", '{"type": "array", "$defs": {"x": {}}}')
        self.write("many/c.json", '{"$ref": "b.json#/$defs/x"}')
        self.assertEqual(self.run_inside("lint", "many"), ("", "0 errors, 0 warnings, 0 notes\n", 0))
