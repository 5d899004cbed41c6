"""The command: what it writes, its exit statuses, and what it says of a misuse."""
import json
import os
import subprocess
import sys

from commands import AGE, NAME, SOME, TWO_LINES, Case

MISUSES = (
    (["validate"], "the following arguments are required: SCHEMA and INSTANCE\n"),
    (["validate", "schema.json"], "the following arguments are required: INSTANCE\n"),
    (SOME, "the following arguments are required: INSTANCE\n"),
    ([*SOME, "--format", "xml", "two.json"], "argument --format: invalid choice: 'xml' (choose from "),
    ([*SOME, "--input", "xml", "two.json"], "argument --input: invalid choice: 'xml' (choose from "),
    ([*SOME, "--lines", "--input", "yaml", "two.json"], "--lines is for JSON: no line of yaml is a document\n"),
    ([*SOME, "--jobs", "0", "two.json"], "argument --jobs: '0' isn't a number from 1 to 256\n"),
    (["validate", "--schema", "data", "two.json"], "data is a folder: name the file of one schema"),
    (["validate", "data", "two.json"], "data is a folder: name the file of one schema"),
    (["validate", "--schema", "https://example.com/s.json", "two.json"], "nothing is fetched: save "),
    ([*SOME, "empty"], "empty has no file .json, .jsonc, .yaml, .yml or .toml: name its files one by one\n"),
    ([*SOME, "--input", "toml", "empty"], "empty has no file .toml: name its files one by one\n"),
    ([*SOME, "--schema", "other.json", "two.json"], "--schema is given 2 times: it names one file"),
    ([*SOME, ""], "an INSTANCE has an empty name"),
    (["validate", "--schema", "", "two.json"], "--schema has an empty name"),
    ([*SOME, "--ref", "urn:x=", "two.json"], "--ref has an empty name"),
    ([*SOME, "-", "-"], "- is named 2 times: standard input"),
    (["validate", "--bad", "x"], "unrecognized arguments: --bad\n"),
    (["validate", "--schema"], "argument --schema: expected one argument\n"),
    (["validate", "--jobs=999", "x"], "argument --jobs: '999' isn't a number from 1 to 256\n"),
    (["validate", "--ref", "urn:x=data", "schema.json", "two.json"],
     "data is a folder: name the file of one schema after --ref\n"),
    ([*SOME, "--patterns", "pcre", "two.json"], "argument --patterns: invalid choice: 'pcre' (choose from "),
    ([*SOME, "--numbers=all", "two.json"], "argument --numbers: invalid choice: 'all' (choose from "),
    ([], "name the command: validate or lint\n"),
    (["check"], "no command 'check': there are validate and lint\n"),
    (["lint"], "the following arguments are required: SCHEMA\n"),
    (["lint", "--format", "basic", "schema.json"], "argument --format: invalid choice: 'basic' (choose from "),
    (["lint", "--lines", "schema.json"], "unrecognized arguments: --lines\n"),
    (["lint", ""], "a SCHEMA has an empty name"),
)
# Those of this command alone.
OWN_MISUSES = (
    ([*SOME, "--ref", "urn:\udcff=string.json", "two.json"], "the URI 'urn:\\udcff' isn't UTF-8"),
)
NO_INPUT = "<stdin>: failed: standard input is closed\n0 valid, 0 invalid, 1 failed\n"


class Files(Case):
    def test_valid(self):
        self.judge(["data/ada.json"], "", "1 valid, 0 invalid\n", 0)

    def test_deepest_error_first(self):
        self.judge(["two.json", "data/ada.json"], TWO_LINES, "1 valid, 1 invalid (2 errors)\n", 1)

    def test_folder_and_jobs(self):
        self.judge(["--jobs", "3", "data", "two.json"],
                   f"data/sub/bob.json:2:2: type is integer (/name; type, {NAME})\n{TWO_LINES}",
                   "1 valid, 2 invalid (3 errors)\n", 1)

    def test_standard_input(self):
        self.judge(["-"], '<stdin>:1:1: missing: ["name"] (root; required, https://example.com/person#/required)\n',
                   "0 valid, 1 invalid (1 error)\n", 1, given="{}")

    def test_names(self):
        url = (self.folder / "no_names.json").resolve().as_uri()
        self.judge(["names.json"], f"names.json:1:2: false schema (/a; propertyNames, {url}#/propertyNames)\n",
                   "0 valid, 1 invalid (1 error)\n", 1, schema="no_names.json")

    def test_references(self):
        self.judge(["--ref", "urn:name=string.json", "-"],
                   "<stdin>:1:1: type is integer (root; type, urn:name#/type)\n",
                   "0 valid, 1 invalid (1 error)\n", 1, given="1", schema="other.json")
        self.judge(["-", "--ref", "schema.json", "--ref", "urn:name=string.json"], "", "1 valid, 0 invalid\n", 0,
                   given='"A"', schema="other.json")

    def test_name_of_a_file_with_the_sign(self):
        self.judge(["-"], "", "1 valid, 0 invalid\n", 0, given='"A"', schema="a=b.json")
        for words in (["--schema", "v=2/other.json"], [*SOME[1:], "--ref", "v=2/other.json"]):
            with self.subTest(words):
                self.assertEqual(self.run_command("validate", *words, "-", given="1"),
                                 ("", "jschema: v=2/other.json: No such file or directory\n", 4))

    def test_relative_id(self):
        url = (self.folder / "schema.json").resolve().as_uri()
        self.judge(["--ref", f"{url}=schema.json", "data/ada.json"], "", "1 valid, 0 invalid\n", 0,
                   schema="relative.json")


class Lines(Case):
    def test_lines(self):
        self.judge(["--lines", "-"],
                   f"<stdin>:4:22: less than 0 (/age; minimum, {AGE})\n",
                   "<stdin>:3:6: refused: not a JSON text, or nested deeper than 127 (root; NotJson)\n"
                   "1 valid, 1 invalid (1 error), 1 refused\n",
                   3, given='{"name": "A"}\n\n{"x" \n{"name": "B", "age": -1}')

    def test_order(self):
        """The results stay in the order of the lines, also when more wait than run."""
        out, _, status = self.run_command(*SOME, "--lines", "--jobs", "2", "-", given="1\n" * 20)
        self.assertEqual(status, 1)
        self.assertEqual([int(line.split(":")[1]) for line in out.splitlines()], list(range(1, 21)))

    def test_folder(self):
        self.judge(["--lines", "--jobs", "2", "data"], f"data/rows.jsonl:3:22: less than 0 (/age; minimum, {AGE})\n",
                   "1 valid, 1 invalid (1 error)\n", 1)


class Refusals(Case):
    def test_instances(self):
        self.judge(["half.json", "torn.json", "data/ada.json"], "",
                   "half.json:2:9: refused: a number with a fraction, an exponent or a minus before zero, or beyond 64 "
                   "bits (/age; NotWhole)\n"
                   "torn.json:3:5: refused: not a JSON text, or nested deeper than 127 (root; NotJson)\n"
                   "1 valid, 0 invalid, 2 refused\n", 3)

    def test_schema(self):
        self.judge(["--ref", "bad.json", "data/ada.json"], "",
                   "bad.json:3:14: refused: the keyword's value has the wrong form (/allOf/1/type; BadKeyword)\n", 3)

    def test_missing_files(self):
        self.judge(["none.json", "two.json"], TWO_LINES,
                   "none.json: failed: No such file or directory\n0 valid, 1 invalid (2 errors), 1 failed\n", 4)
        self.judge(["two.json"], "", "jschema: none.json: No such file or directory\n", 4, schema="none.json")


class Engines(Case):
    def test_engine_is_missing(self):
        for environment, said in (({"JSCHEMA": "/nowhere", "JSCHEMA_LIBRARY": "off"},
                                   "JSCHEMA names /nowhere, which is no program"),
                                  ({"JSCHEMA_LIBRARY": "/nowhere"},
                                   "JSCHEMA_LIBRARY names /nowhere, which is no file")):
            done = subprocess.run([sys.executable, "-m", "jschema", "validate", "--schema", "schema.json", "two.json"],
                                  cwd=self.folder, check=False, stderr=subprocess.PIPE, text=True,
                                  env={**os.environ, **environment})
            self.assertEqual((done.stderr, done.returncode), (f"jschema: {said}\n", 2))


class Streams(Case):
    #: Streams that are closed, what is said then, and the status.
    CLOSED = (("two.json >&-", "jschema: standard output is closed\n", 4),
              ("- <&-", NO_INPUT, 4), ("--lines - <&-", NO_INPUT, 4))

    def test_closed_streams(self):
        for words, said, status in self.CLOSED:
            with self.subTest(words):
                self.assertEqual(self.run_in_shell(f'"$@" {words}', *SOME), ("", said, status))

    def test_closed_error_stream(self):
        for words, status in (("two.json", 1), ("none.json", 4), ("", 2)):
            out, _, ended = self.run_in_shell(f'"$@" --format flag {words} 2>&-', *SOME)
            self.assertEqual(ended, status)
            self.assertNotIn("jschema:", out)

    def test_full_streams(self):
        """A write that fails ends with 4, and so does a message of this that can't be written."""
        said = "jschema: standard output: No space left on device\n"
        self.assertEqual(self.run_in_shell('"$@" two.json >/dev/full', *SOME), ("", said, 4))
        for words, status in (("two.json", 4), ("none.json", 4), ("", 2)):
            self.assertEqual(self.run_in_shell(f'"$@" {words} 2>/dev/full', *SOME)[1:], ("", status))

    def test_closed_pipe(self):
        self.assertEqual(self.run_in_shell('{ sleep 0.5; "$@"; echo "$?" >&2; } | true', *SOME, "two.json"),
                         ("", "4\n", 0))


class Exceptions(Case):
    #: What is raised.
    RAISED = ("ZeroDivisionError('a\\nb')", "RecursionError()", "MemoryError()", "AssertionError()")

    def raising(self, raised):
        """A command that raises this."""
        return [sys.executable, "-c", f"""
import sys
from unittest import mock
from jschema import command
with mock.patch.object(command, "validate", side_effect={raised}):
    sys.exit(command.main(sys.argv[1:]))
"""]

    def test_any_exception(self):
        """Whatever is raised, a run doesn't end like one with an invalid instance."""
        for raised in self.RAISED:
            with self.subTest(raised):
                done = subprocess.run([*self.raising(raised), *SOME, "two.json"], cwd=self.folder, check=False,
                                      stdout=subprocess.PIPE, stderr=subprocess.PIPE, text=True)
                self.assertEqual((done.stdout, done.returncode), ("", 4))
                self.assertRegex(done.stderr, r"\Ajschema: \w.*\n\Z")


class Formats(Case):
    def test_formats_of_the_validator(self):
        error = {"absoluteKeywordLocation": NAME, "error": "type is integer", "instanceLocation": "/name",
                 "keywordLocation": "/properties/name/type", "valid": False}
        basic = json.dumps({"errors": [error], "valid": False}, separators=(",", ":"))
        merged = json.dumps({"absoluteKeywordLocation": "https://example.com/person#", "errors": [error],
                             "instanceLocation": "", "keywordLocation": "", "valid": False}, separators=(",", ":"))
        for format, valid, invalid in (("flag", '{"valid":true}', '{"valid":false}'),
                                       ("basic", '{"valid":true}', basic),
                                       ("merged", None, merged)):
            with self.subTest(format):
                out, said, status = self.run_command("validate", "--schema", "schema.json", "--format", format, "-",
                                                     "data/sub/bob.json", given='{"name": "A"}')
                self.assertEqual((said, status), ("", 1))
                first, second = out.splitlines()
                self.assertEqual(second, invalid)
                self.assertTrue(json.loads(first)["valid"])
                if format == "flag":
                    self.assertEqual(first, valid)

    def test_json(self):
        out, said, status = self.run_command("validate", "--schema", "schema.json", "--format", "json",
                                             "data/ada.json", "data/sub/bob.json", "half.json", "none.json")
        self.assertEqual((said, status), ("", 4))
        self.assertEqual(json.loads(out), [
            {"file": "data/ada.json", "line": 1, "valid": True, "errors": []},
            {"file": "data/sub/bob.json", "line": 1, "valid": False, "errors": [
                {"line": 2, "column": 2, "endLine": 2, "endColumn": 3, "error": "type is integer",
                 "instanceLocation": "/name", "keywordLocation": "/properties/name/type",
                 "absoluteKeywordLocation": NAME, "schema": {"file": "schema.json", "line": 4, "column": 27}}]},
            {"file": "half.json", "line": 1, "valid": None,
             "refused": {"line": 2, "column": 9, "subject": "instance", "kind": "NotWhole", "place": "/age",
                         "message": "a number with a fraction, an exponent or a minus before zero, or beyond 64 bits"}},
            {"file": "none.json", "line": 1, "valid": None, "failed": "No such file or directory"}])
        self.assertEqual(self.run_command("validate", "--schema", "schema.json", "--format", "json", "--lines", "-"),
                         ("[]\n", "", 0))

    def test_github(self):
        half = "a number with a fraction, an exponent or a minus before zero, or beyond 64 bits"
        self.judge(["--format", "github", "data/sub/bob.json", "half.json"],
                   f"::error file=data/sub/bob.json,line=2,col=2::type is integer (/name; {NAME})\n"
                   f"::error file=half.json,line=2,col=9::instance at /age: NotWhole: {half}\n",
                   f"half.json:2:9: refused: {half} (/age; NotWhole)\n0 valid, 1 invalid (1 error), 1 refused\n", 3)

    def test_control_characters(self):
        url = (self.folder / "no_names.json").resolve().as_uri()
        name = '{"\\u001b[2J%\\n": 1}'
        self.judge(["-"], f"<stdin>:1:2: false schema (/\\u001b[2J%\\u000a; propertyNames, {url}#/propertyNames)\n",
                   "0 valid, 1 invalid (1 error)\n", 1, given=name, schema="no_names.json")
        out, _, _ = self.run_command("validate", "--schema", "no_names.json", "--format", "github", "-", given=name)
        self.assertIn("(/\x1b[2J%25%0A; ", out)


class Misuse(Case):
    OWN = OWN_MISUSES

    def test_misuse(self):
        for words, said in (*MISUSES, *self.OWN):
            with self.subTest(words):
                out, errors, status = self.run_command(*words)
                self.assertEqual((out, status), ("", 2))
                self.assertTrue(errors.startswith(f"jschema: {said}"), errors)

    def test_example_in_the_message(self):
        _, errors, _ = self.run_command("validate", "two.json")
        self.assertIn(f"\nfor example: {self.NAME} validate person.schema.json ada.json\n", errors)

    def test_help(self):
        out, errors, status = self.run_command("--help")
        self.assertTrue(out.startswith(f"usage: {self.NAME} validate"))
        self.assertEqual((errors, status), ("", 0))


class Terminal(Case):
    def shown(self, *words, **environment):
        """What a terminal gets of a validation."""
        return self.on_terminal(*SOME, *words, **environment)

    def test_colours(self):
        line = "\x1b[1mdata/sub/bob.json:2:2:\x1b[0m \x1b[31mtype is integer\x1b[0m " \
               f"\x1b[2m(/name; type, {NAME})\x1b[0m"
        self.assertEqual(self.shown("data/sub/bob.json", TERM="xterm", NO_COLOR=""),
                         f"{line}\r\n0 valid, 1 invalid (1 error)\r\n")
        for environment in ({"TERM": "xterm", "NO_COLOR": "1"}, {"TERM": "dumb", "NO_COLOR": ""}):
            self.assertNotIn("\x1b", self.shown("data/sub/bob.json", **environment))

    def test_progress(self):
        shown = self.shown(*["data/ada.json"] * 30, "data/sub/bob.json", TERM="xterm", NO_COLOR="1")
        self.assertIn("\r[..............................] 1 of 31\x1b[K", shown)
        # The bar is gone before a line is written.
        self.assertIn("\r\x1b[Kdata/sub/bob.json:2:2: ", shown)
        self.assertTrue(shown.endswith("30 valid, 1 invalid (1 error)\r\n"))
