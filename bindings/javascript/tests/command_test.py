"""The command on JSON files: the expectations of the Python package's command, on the command of this package."""
import re
import subprocess
import unittest
from pathlib import Path
from unittest import mock

from this_command import NODE, PYTHON, SCRIPT, OnThisCommand, evaluated

import test_command as expectations  # isort: skip
import test_lookup as lookup  # isort: skip
import test_originals as originals  # isort: skip
import test_reports as reports  # isort: skip
import test_upgrade as upgrade  # isort: skip

PACKAGE = Path(__file__).resolve().parents[1] / "package.json"


class Files(OnThisCommand, expectations.Files):
    pass


class Lines(OnThisCommand, expectations.Lines):
    pass


class Refusals(OnThisCommand, expectations.Refusals):
    pass


class Streams(OnThisCommand, expectations.Streams):
    # Node opens /dev/null in place of a stream that is closed. Callers who have nothing to say open it in the same way,
    # for reading and writing (Python's DEVNULL), so there are no lines then, and one instance isn't JSON.
    CLOSED = (("two.json >&-", "0 valid, 1 invalid (2 errors)\n", 1),
              ("- <&-", "<stdin>:1:1: refused: not a JSON text, or nested deeper than 127 (root; NotJson)\n"
                        "0 valid, 0 invalid, 1 refused\n", 3),
              ("--lines - <&-", "0 valid, 0 invalid\n", 0))


class Exceptions(OnThisCommand, expectations.Exceptions):
    RAISED = ("new RangeError('a\\nb')", "new Error()", "new TypeError('x')", "'text'", "null", "undefined")

    def raising(self, raised):
        code = f"data:text/javascript,WebAssembly.Instance = function () {{ throw {raised}; }}"
        return [NODE, "--import", code, SCRIPT]


class Formats(OnThisCommand, expectations.Formats):
    pass


class Misuse(OnThisCommand, expectations.Misuse):
    OWN = ()


class Terminal(OnThisCommand, expectations.Terminal):
    pass


class TextReport(OnThisCommand, reports.TextReport):
    pass


class Html(OnThisCommand, reports.Html):
    def test_begin(self):
        """The page looks as that of the Python package's command."""
        source = (PYTHON / "jschema" / "command" / "reports" / "html.py").read_text("utf-8")
        head = re.search(r'_HEAD = """(.*?)"""', source, re.S)[1]
        self.assertTrue(self.page("schema.json", "two.json")[0].startswith(head.format(title="Validation")))
        out, _, _ = self.run_command("lint", "--format", "html", "schema.json", "bad.json")
        self.assertTrue(out.startswith(head.format(title="Lint")))
        for word in ("clean", "refused"):
            self.assertIn(f'<span class="{word}">{word}</span>', out)


class Sarif(OnThisCommand, reports.Sarif):
    pass


class Junit(OnThisCommand, reports.Junit):
    pass


class RefusedSchema(OnThisCommand, reports.RefusedSchema):
    pass


class Snippets(reports.Snippets):
    def width(self, text):
        return evaluated("width.js", "it.width(given)", text)

    def shown(self, text, begin, end):
        ends = [len(text[:index].encode()) for index in (begin, end)]
        return tuple(evaluated("snippets.js", """(() => {
            const [begin, end] = given.ends.map((offset) => ({ offset }));
            const { before, meant, after } = it.snippet(new TextEncoder().encode(given.text), { begin, end });
            return [before, meant, after];
        })()""", {"text": text, "ends": ends}))


class Uris(lookup.Uris):
    def joined(self, base, references):
        return evaluated("../uris.js", "given.references.map((reference) => it.joined(given.base, reference))",
                         {"base": base, "references": references})

    def written(self, uris):
        return evaluated("../uris.js", "given.map(it.documentOf)", uris)


class References(OnThisCommand, lookup.Commands):
    pass


class OfOlderDrafts(OnThisCommand):
    def setUp(self):
        # (It isn't the library that upgrades here.)
        for module in (upgrade, originals):
            patch = mock.patch.object(module, "find_library", return_value="the module")
            patch.start()
            self.addCleanup(patch.stop)
        super().setUp()


class Upgraded(OfOlderDrafts, upgrade.Command):
    pass


class Originals(OfOlderDrafts, originals.Command):
    pass


class Elsewhere(OnThisCommand, expectations.Case):
    """What the Python package's command reads, and this one doesn't: YAML and TOML."""

    def test_other_kinds(self):
        said = "isn't read here: the command of the Python package reads it (--input json takes the JSON files of a " \
               "folder alone)\n"
        self.write("kinds/a.json", '{"name": "A"}')
        self.write("kinds/b.yaml", "name: A\n")
        self.write("kinds/c.toml", 'name = "A"\n')
        self.judge(["kinds"], "", f"kinds/b.yaml: failed: YAML {said}kinds/c.toml: failed: TOML {said}"
                   "1 valid, 0 invalid, 2 failed\n", 4)
        self.judge(["--input", "json", "kinds"], "", "1 valid, 0 invalid\n", 0)
        self.judge(["two.json"], "", f"jschema: YAML {said}", 4, schema="kinds/b.yaml")
        out, found, status = self.run_command("lint", "--format", "short", "kinds")
        self.assertEqual((found.count("isn't read here"), status), (2, 4))
        self.assertIn("kinds/a.json:1:2: note: no dialect knows the keyword `name`", out)

    def test_version(self):
        version = re.search('"version": "(.*)"', PACKAGE.read_text("utf-8"))[1]
        self.assertEqual(self.run_command("--version"),
                         (f"jschema {version}\nengine: the WebAssembly module, version {version}\n", "", 0))
        for command in ("validate", "lint"):
            self.assertEqual(self.run_command(command, "--version"), self.run_command("--version"))

    def test_commands_alone(self):
        """Each command has a name of its own."""
        for command, words in (("validate", "person.schema.json ada.json"), ("lint", "person.schema.json")):
            done = subprocess.run([NODE, str(PACKAGE.parent / "bin" / f"{command}.js"), "--bad"], check=False,
                                  stdout=subprocess.PIPE, stderr=subprocess.PIPE, encoding="utf-8")
            self.assertEqual((done.stdout, done.returncode), ("", 2))
            self.assertTrue(done.stderr.endswith(f"\nfor example: jschema-{command} {words}\n"), done.stderr)
            self.assertIn(f"\nusage: jschema-{command} ", done.stderr)


if __name__ == "__main__":
    unittest.main()
