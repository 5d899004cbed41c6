"""The reports: the line of each problem, a page, and what other programs read."""
import html.parser
import importlib.util
import json
import os
import re
import shutil
import subprocess
import unittest
from xml.etree import ElementTree

import sarif
from commands import AGE, NAME, Case
from jschema.command.snippets import WIDTH, snippet, width
from jschema.interface import MEANINGS
from jschema.positions import Text
from jschema.sources import JsonSource, Range

ALL = ("two.json", "data/ada.json", "half.json", "none.json", "data/sub/bob.json")
VOID = {"meta"}


def run_browser(page, *words):
    """What Chromium writes of a page without a window."""
    with open(os.devnull, "wb") as nowhere:
        return subprocess.run([shutil.which("chromium"), "--headless", "--no-sandbox", "--disable-gpu",
                               "--virtual-time-budget=2000", *words, f"file://{page}"], check=True, stderr=nowhere,
                              stdout=subprocess.PIPE, timeout=60).stdout.decode()


class TextReport(Case):
    def test_place(self):
        out, said, status = self.run_inside("validate", "schema.json", "two.json")
        self.assertEqual((said, status), ("0 valid, 1 invalid (2 errors)\n", 1))
        self.assertEqual(out, f"""error[minimum]: less than 0
 --> two.json:3:37
  |
3 |   "friends": [{{"name": "Bé", "age": -2}}],
  |                                     ^^ /friends/0/age
  = schema.json:4:54: minimum
  = {AGE}

error[minimum]: less than 0
 --> two.json:2:10
  |
2 |   "age": -1,
  |          ^^ /age
  = schema.json:4:54: minimum
  = {AGE}

""")

    def test_refusals_and_failures(self):
        out, said, status = self.run_inside("validate", "schema.json", "half.json", "none.json")
        self.assertEqual((out, status), ("", 4))
        self.assertEqual(said, f"""refused[NotWhole]: {MEANINGS['NotWhole']}
 --> half.json:2:9
  |
2 |  "age": 0.5}}
  |         ^^^ /age

failed: none.json: No such file or directory

0 valid, 0 invalid, 1 refused, 1 failed
""")

    def test_refused_schema(self):
        out, said, status = self.run_inside("validate", "bad.json", "two.json")
        self.assertEqual((out, status), ("", 3))
        self.assertIn('--> bad.json:3:14\n  |\n3 |     {"type": 1}]}\n  |              ^ /allOf/1/type\n', said)

    def test_lines(self):
        """Lines are those of the file, and what is underlined is what stands there."""
        self.write("rows.jsonl", '\n{"name": "A"}\n{"name": "A", "age": -1}\n')
        out = self.run_inside("validate", "--lines", "schema.json", "rows.jsonl")[0]
        self.assertIn('\n --> rows.jsonl:3:22\n  |\n3 | {"name": "A", "age": -1}\n'
                      '  |                      ^^ /age\n', out)

    def test_comments(self):
        """A comment takes as many columns as it has characters; the schema may have some too."""
        self.write("age.jsonc", '// é\n{"minimum": 0, /* é */ "type": "integer",}\n')
        self.write("minus.jsonc", '\ufeff[\n] // not read: "\n')
        self.assertIn(f"\n --> minus.jsonc:1:2\n  |\n1 | \\ufeff[\n  | {' ' * 6}^ root\n  = age.jsonc:2:24: type\n",
                      self.run_inside("validate", "age.jsonc", "minus.jsonc")[0])
        self.write("less.jsonc", '/* é\n*/ /* é */ -1')
        out = self.run_inside("validate", "--format", "short", "age.jsonc", "less.jsonc")[0]
        self.assertEqual(out.partition(" ")[0], "less.jsonc:2:12:")
        self.assertEqual(self.run_inside("validate", "--input", "jsonc", "age.jsonc", "less.jsonc")[2], 1)
        self.write("less.txt", "// é\n7,")
        self.assertEqual(self.run_inside("validate", "--input", "jsonc", "age.jsonc", "less.txt")[1],
                         "refused[NotJson]: not a JSON text, or nested deeper than 127\n --> less.txt:2:2\n"
                         "  |\n2 | 7,\n  |  ^ root\n\n0 valid, 0 invalid, 1 refused\n")

    def test_wide_characters(self):
        """What is underlined stands below the value, as a terminal shows it; control characters have signs."""
        self.write("wide.json", '{"日本": "e\u0301", "😀\\u0000": 1}\n')
        self.write("none.schema.json", '{"additionalProperties": false}')
        out = self.run_inside("validate", "none.schema.json", "wide.json")[0]
        self.assertIn(f'1 | {{"日本": "e\u0301", "😀\\u0000": 1}}\n  | {" " * 9}^^^ /日本\n', out)
        self.assertIn(f"  | {' ' * 26}^ /😀\\u0000\n", out)

    def test_colours(self):
        shown = self.on_terminal("validate", "schema.json", "data/sub/bob.json", TERM="xterm", NO_COLOR="")
        self.assertIn("\x1b[31merror[type]\x1b[0m: \x1b[1mtype is integer\x1b[0m\r\n"
                      " \x1b[34m-->\x1b[0m data/sub/bob.json:2:2\r\n  \x1b[34m|\x1b[0m\r\n"
                      "\x1b[34m2\x1b[0m \x1b[34m|\x1b[0m  1}\r\n  \x1b[34m|\x1b[0m  \x1b[31m^\x1b[0m /name\r\n"
                      "  \x1b[34m=\x1b[0m schema.json:4:27: type\r\n", shown)
        shown = self.on_terminal("validate", "schema.json", "half.json", "none.json", TERM="xterm", NO_COLOR="")
        self.assertIn("\x1b[31mrefused[NotWhole]\x1b[0m: ", shown)
        self.assertIn("\x1b[31mfailed\x1b[0m: none.json: ", shown)


@unittest.skipUnless(importlib.util.find_spec("yaml"), "needs PyYAML")
class TextOfYaml(Case):
    def test_place(self):
        self.write("rows.yaml", "name: A\n---\nname: B\nfriends:\n- age: 1\n  é: 1\n")
        out = self.run_inside("validate", "schema.json", "rows.yaml")[0]
        self.assertIn("\n --> rows.yaml:5:3\n  |\n5 | - age: 1\n  |   ^^^^^^ /friends/0\n", out)


class Snippets(unittest.TestCase):
    def width(self, text):
        return width(text)

    def shown(self, text, begin, end):
        """The three parts of a line for what stands between two characters of a text."""
        data = text.encode()
        lines = Text(data)
        at = [lines.at(len(text[:index].encode())) for index in (begin, end)]
        return snippet(data, Range(*at))

    def test_short(self):
        self.assertEqual(self.shown("a\nbcd\ne", 3, 4), ("b", "c", "d"))
        self.assertEqual(self.shown("a\nbcd\ne", 3, 7), ("b", "cd", ""))
        self.assertEqual(self.shown("", 0, 0), ("", "", ""))
        self.assertEqual(self.shown("ab\r\nc", 1, 4), ("a", "b", ""))
        self.assertEqual(self.shown("é日\tx", 1, 2), ("é", "日", "    x"))
        self.assertEqual(self.shown("a\x1b[2Jb\u202ec", 5, 6), ("a\\u001b[2J", "b", "\\u202ec"))

    def test_long(self):
        """Of a long line no more is looked at than is shown."""
        for character in "x", "é", "日", "😀", "\t":
            for begin, end in ((0, 1), (500_000, 500_003), (10, 900_000), (999_999, 1_000_000)):
                before, meant, after = self.shown(character * 1_000_000, begin, end)
                self.assertLessEqual(width(before + meant + after), WIDTH + 2)
                self.assertEqual(before.startswith("…"), begin > 10, (character, begin))
                self.assertEqual((meant + after).endswith("…"), begin < 999_999)

    def test_width(self):
        self.assertEqual([self.width(it) for it in ("", "abc", "é", "e\u0301", "日本", "\u0345ａ😀\u200d")],
                         [0, 3, 1, 1, 4, 5])


class Page(html.parser.HTMLParser):
    """Reads a page; whatever is open must be closed, in order."""

    def __init__(self):
        super().__init__()
        self.open, self.names, self.attributes = [], [], []

    def handle_starttag(self, tag, attrs):
        self.names.append(tag)
        self.attributes += attrs
        if tag not in VOID:
            self.open.append(tag)

    def handle_endtag(self, tag):
        assert self.open.pop() == tag, tag


class Html(Case):
    def page(self, *words):
        out, _, _ = self.run_inside("validate", "--format", "html", *words)
        page = Page()
        page.feed(out)
        self.assertEqual(page.open, [])
        return out, page

    def test_self_contained(self):
        out, page = self.page("schema.json", *ALL)
        self.assertFalse({"script", "link", "img", "iframe", "object"} & set(page.names))
        self.assertFalse({"src", "href", "onclick"} & {name for name, _ in page.attributes})
        self.assertNotIn("url(", out)
        self.assertEqual(page.attributes.count(("class", "file")), len(ALL))

    def test_escapes(self):
        self.write("<b>&.json", '{"name": "</pre><script>alert(1)</script>", "age": -1}')
        out, page = self.page("schema.json", "<b>&.json")
        self.assertNotIn("script", page.names)
        self.assertIn("&lt;b&gt;&amp;.json", out)

    def test_tree(self):
        self.write("any.json", '{"anyOf": [{"type": "string"}, {"allOf": [{"minimum": 2}, {"maximum": 0}]}]}')
        self.write("one.json", "1")
        out, _ = self.page("any.json", "one.json")
        keywords = re.findall('<span class="keyword">(.*?)</span>', out)
        self.assertEqual(keywords, ["anyOf", "type", "allOf", "minimum", "maximum"])
        self.assertEqual(out.count("<mark>1</mark>"), 4)

    def test_refused_schema(self):
        out, _ = self.page("bad.json", "two.json")
        self.assertIn("BadKeyword", out)

    @unittest.skipUnless(shutil.which("chromium"), "needs chromium")
    def test_browser(self):
        """What a browser makes of the page: the counts come first, and a problem is below its file."""
        out, _ = self.page("schema.json", *ALL)
        page = self.write("page.html", out)
        shown = run_browser(self.folder / page, "--dump-dom")
        self.assertIn("1 valid, 2 invalid (3 errors), 1 refused, 1 failed", shown)
        self.assertEqual(shown.count('<details class="file"'), len(ALL))
        picture = self.folder / "page.png"
        run_browser(self.folder / page, f"--screenshot={picture}", "--window-size=900,1200")
        self.assertEqual(picture.read_bytes()[:8], b"\x89PNG\r\n\x1a\n")
        self.assertGreater(picture.stat().st_size, 20_000)


class Sarif(Case):
    #: What lint is asked for.
    LINTS = (("lint", "schema.json"), ("lint", "lint.json", "bad.json", "none.json"))

    def logs(self):
        """What the report may have: problems of each kind, of lines, of lint, of a refused schema; and nothing."""
        self.write("rows.jsonl", '{"name": "A"}\n{"name": "é", "age": -1}\n{\n')
        self.write("lint.json", '{"requierd": 1, "format": "date", "$ref": "#/nowhere"}')
        self.write("é [x].json", "1")
        for words in (("validate", "schema.json", *ALL, "é [x].json"), ("validate", "bad.json", "two.json"),
                      ("validate", "--lines", "schema.json", "rows.jsonl"),
                      ("validate", "schema.json", "data/ada.json"),
                      ("validate", "schema.json", str(self.folder / "two.json")), *self.LINTS):
            yield words, self.run_inside(words[0], "--format", "sarif", *words[1:])[0]

    def test_structure(self):
        """What the standard asks of each object, by hand."""
        self.write("sarif.json", json.dumps(sarif.SCHEMA))
        for words, log in self.logs():
            with self.subTest(words):
                self.write("log.json", log)
                self.assertEqual(self.run_inside("validate", "sarif.json", "log.json"),
                                 ("", "1 valid, 0 invalid\n", 0))
        for wrong in ('{"runs": []}', '{"version": "2.1.0", "runs": [{}]}',
                      '{"version": "2.1.0", "runs": [{"tool": {"driver": {"name": "x"}}, "results": [{}]}]}'):
            self.write("log.json", wrong)
            self.assertEqual(self.run_inside("validate", "sarif.json", "log.json")[2], 1)

    def test_published_schema(self):
        """The same by the schema that OASIS publishes, of a package of pip or Debian that has it."""
        path = sarif.published()
        if path is None or importlib.util.find_spec("jsonschema") is None:
            self.skipTest("no package with SARIF's published schema, or pip's jsonschema isn't installed")
        import jsonschema
        validator = jsonschema.Draft7Validator(json.loads(path.read_text("utf-8")))
        for words, log in self.logs():
            with self.subTest(words):
                self.assertEqual([it.message for it in validator.iter_errors(json.loads(log))], [])

    def test_results(self):
        out, _, status = self.run_inside("validate", "--format", "sarif", "schema.json", *ALL)
        log = json.loads(out)
        [run] = log["runs"]
        self.assertEqual((log["version"], status), ("2.1.0", 4))
        driver = run["tool"]["driver"]
        self.assertEqual((driver["name"], [it["id"] for it in driver["rules"]]),
                         ("jschema", ["minimum", "refused/NotWhole", "type"]))
        places = []
        for it in run["results"]:
            self.assertEqual(driver["rules"][it["ruleIndex"]]["id"], it["ruleId"])
            self.assertEqual((it["level"], len(it["locations"])), ("error", 1))
            place = it["locations"][0]["physicalLocation"]
            places.append((place["artifactLocation"]["uri"], *place["region"].values()))
        self.assertEqual(places, [("two.json", 3, 37, 3, 39), ("two.json", 2, 10, 2, 12), ("half.json", 2, 9, 2, 12),
                                  ("data/sub/bob.json", 2, 2, 2, 3)])
        related = run["results"][0]["relatedLocations"][0]["physicalLocation"]
        self.assertEqual((related["artifactLocation"]["uri"], related["region"]),
                         ("schema.json", {"startLine": 4, "startColumn": 54}))
        [invocation] = run["invocations"]
        self.assertFalse(invocation["executionSuccessful"])
        self.assertEqual([it["message"]["text"] for it in invocation["toolExecutionNotifications"]],
                         ["No such file or directory"])
        self.assertEqual(run["columnKind"], "unicodeCodePoints")

    def test_names(self):
        self.write("é x.json", "1")
        out, _, _ = self.run_inside("validate", "--format", "sarif", "string.json", "é x.json",
                                    str(self.folder / "torn.json"))
        uris = [it["locations"][0]["physicalLocation"]["artifactLocation"]["uri"]
                for it in json.loads(out)["runs"][0]["results"]]
        self.assertEqual(uris, ["%C3%A9%20x.json", (self.folder / "torn.json").as_uri()])

    def test_nothing(self):
        for words in (("validate", "schema.json", "data/ada.json"), *self.LINTS[:1]):
            out, _, status = self.run_inside(words[0], "--format", "sarif", *words[1:])
            [run] = json.loads(out)["runs"]
            self.assertEqual((run["results"], run["invocations"][0]["executionSuccessful"], status), ([], True, 0))


class Junit(Case):
    def test_cases(self):
        out, _, _ = self.run_inside("validate", "--format", "junit", "schema.json", *ALL)
        [suite] = ElementTree.fromstring(out)
        self.assertEqual([suite.get(name) for name in ("tests", "failures", "errors")], ["5", "2", "2"])
        self.assertEqual([(case.get("name"), [it.tag for it in case]) for case in suite],
                         list(zip(ALL, (["failure"], [], ["error"], ["error"], ["failure"]))))
        self.assertEqual(suite[4][0].text, f"data/sub/bob.json:2:2: error: type is integer (/name; type; {NAME})\n")
        self.assertEqual((suite[0][0].get("type"), suite[0][0].get("message")), ("minimum", "less than 0"))

    def test_escapes(self):
        self.write("<&\">.json", json.dumps({"\x00\x1b<&]]>\ufffe\n\t": 1}))
        out, _, _ = self.run_inside("validate", "--format", "junit", "no_names.json", "<&\">.json")
        [[case]] = ElementTree.fromstring(out)
        self.assertEqual(case.get("name"), "<&\">.json")
        self.assertIn("(/\ufffd\ufffd<&]]>\ufffd\n\t; propertyNames; ", case[0].text)


class RefusedSchema(Case):
    def test_reports(self):
        """Whoever reads a report gets it whole, also where the schema is refused."""
        for format, reads in (("json", json.loads), ("sarif", json.loads), ("junit", ElementTree.fromstring)):
            out, said, status = self.run_inside("validate", "--format", format, "bad.json", "two.json")
            reads(out)
            self.assertIn("BadKeyword", out)
            self.assertEqual((said.count("\n"), status), (1, 3))


class Sources(unittest.TestCase):
    def test_place_of_a_document(self):
        """A refusal of a document that was never read is at its beginning."""
        from jschema import Refused
        source = JsonSource("json", b" no JSON", b" no JSON")
        self.assertEqual(source.refusal(Refused("document", "BadUri", "", 0, "x")).begin[1:], (1, 2))
