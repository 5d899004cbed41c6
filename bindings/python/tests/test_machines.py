"""The formats for machines: a line or an object for each instance, in UTF-8 whatever the locale is."""
import json
import os

from commands import NAME, SOME, Case

HALF = "a number with a fraction, an exponent or a minus before zero, or beyond 64 bits"


class Lines(Case):
    def test_line_for_each_instance(self):
        for format in ("flag", "basic", "detailed", "verbose", "merged"):
            with self.subTest(format):
                out, _, status = self.run_command(*SOME, "--format", format, "half.json", "data/ada.json", "none.json",
                                                  "data/sub/bob.json")
                half, ada, none, bob = map(json.loads, out.splitlines())
                self.assertEqual(status, 4)
                self.assertEqual((ada["valid"], bob["valid"]), (True, False))
                self.assertEqual(half, {"file": "half.json", "line": 1, "valid": None, "refused": {
                    "line": 2, "column": 9, "subject": "instance", "kind": "NotWhole", "place": "/age",
                    "message": HALF}})
                self.assertEqual(none, {"file": "none.json", "line": 1, "valid": None,
                                        "failed": "No such file or directory"})

    def test_lines_of_a_stream(self):
        out, _, status = self.run_command(*SOME, "--format", "flag", "--lines", "-", given='1.5\n\n2\n{\n{}')
        self.assertEqual([json.loads(line)["valid"] for line in out.splitlines()], [None, True, None, False])
        self.assertEqual([json.loads(line).get("line") for line in out.splitlines()], [1, None, 4, None])
        self.assertEqual(status, 3)


class RefusedSchema(Case):
    REFUSED = {"line": 3, "column": 14, "subject": "document", "kind": "BadKeyword", "place": "/allOf/1/type",
               "message": "the keyword's value has the wrong form"}
    LINE = "bad.json:3:14: refused: the keyword's value has the wrong form (/allOf/1/type; BadKeyword)\n"

    def test_json(self):
        out, said, status = self.run_command(*SOME, "--ref", "bad.json", "--format", "json", "data/ada.json")
        self.assertEqual((json.loads(out), said, status),
                         ([{"file": "bad.json", "line": 1, "valid": None, "refused": self.REFUSED}], self.LINE, 3))

    def test_github(self):
        out, said, status = self.run_command(*SOME, "--ref", "bad.json", "--format", "github", "data/ada.json")
        self.assertRegex(out, r"\A::error file=bad\.json,line=3,col=14::document file:///.*/bad\.json at "
                              r"/allOf/1/type: BadKeyword: the keyword's value has the wrong form\n\Z")
        self.assertEqual((said, status), (self.LINE, 3))

    def test_others(self):
        for format in ("short", "flag", "basic", "merged"):
            self.assertEqual(self.run_command(*SOME, "--ref", "bad.json", "--format", format, "data/ada.json"),
                             ("", self.LINE, 3))

    def test_no_document(self):
        """A refusal of all documents together is at the first."""
        words = [word for _ in range(1000) for word in ("--ref", "string.json")]
        out, said, status = self.run_command(*SOME, *words, "--format", "json", "data/ada.json")
        [found] = json.loads(out)
        self.assertEqual((found["file"], found["refused"]["kind"], status), ("string.json", "TooManyDocuments", 3))
        self.assertEqual(said.count("\n"), 1)


class Encodings(Case):
    FORMATS = ("flag", "basic", "json", "github", "html", "sarif", "junit")
    ENVIRONMENTS = ({"PYTHONIOENCODING": "utf-16"},
                    {"LC_ALL": "POSIX", "PYTHONCOERCECLOCALE": "0", "PYTHONUTF8": "0"})

    def test_encodings(self):
        (self.folder / "é.json").write_text('{"/é\U0001f600": 1}', "utf-8")
        (self.folder / "odd.json").write_text('{"additionalProperties": false}', "utf-8")
        for format in self.FORMATS:
            words = ["--schema", "odd.json", "--format", format, "é.json", "torn.json"]
            expected = self.output({"PYTHONIOENCODING": "utf-8"}, *words)
            if format in ("basic", "github", "html", "junit"):
                self.assertIn("é\U0001f600", expected.decode())
            if format in ("flag", "basic", "json", "sarif"):
                for text in [expected] if format in ("json", "sarif") else expected.splitlines():
                    json.loads(text)
            for environment in self.ENVIRONMENTS:
                with self.subTest(format, **environment):
                    self.assertEqual(self.output(environment, *words), expected)

    def test_people(self):
        """People get what their terminal shows, and signs for the rest."""
        out = self.output({"PYTHONIOENCODING": "ascii"}, *SOME[1:], "data/sub/bob.json")
        self.assertEqual(out.decode("ascii"), f"data/sub/bob.json:2:2: type is integer (/name; type, {NAME})\n")


class Names(Case):
    def test_name_that_is_not_utf_8(self):
        name = os.fsencode(self.folder) + b"/\xff.json"
        with open(name, "wb") as file:
            file.write(b"{}")
        for format in ("flag", "json", "github"):
            out = self.output({}, *SOME[1:], "--format", format, os.fsdecode(name))
            self.assertIn(b"\xff" if format == "github" else b"\\udcff" if format == "json" else b"false", out)
