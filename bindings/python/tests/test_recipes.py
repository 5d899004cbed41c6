"""The recipes of docs/USING.md for commits and builds, run by their tools where they are installed."""
import json
import os
import re
import shutil
import subprocess
import sys
import unittest
from pathlib import Path

from lsp_client import folder_of, once

try:
    import yaml
except ImportError:
    yaml = None

HOME = Path(__file__).resolve().parents[3]
PAGE = (HOME / "docs" / "USING.md").read_text("utf-8")
SECONDS = 100
PERSON = (HOME / "examples" / "person.schema.json").read_text("utf-8")
MINIMUM = "people/ada.json:1:24: less than 0"


def blocks(language):
    """The blocks of a language on the page."""
    return re.findall(rf"^```{language}\n(.*?)^```$", PAGE, re.M | re.S)


def installed(name):
    return unittest.skipUnless(shutil.which(name), f"{name} isn't installed")


class Recipes(unittest.TestCase):
    def setUp(self):
        once(self)
        self.folder = folder_of(self)
        for name in ("validate", "lint"):
            self.write(f"bin/jschema-{name}", f'#!/bin/sh\nexec {sys.executable} -m jschema {name} "$@"\n')
            (self.folder / f"bin/jschema-{name}").chmod(0o755)
        self.write("schemas/person.schema.json", PERSON)
        self.write("people/ada.json", (HOME / "examples" / "ada.json").read_text("utf-8"))
        self.write("people/bob.json", '{"name": "Bob"}')
        self.environment = {**os.environ, "HOME": str(self.folder), "PATH": f"{self.folder}/bin:{os.environ['PATH']}"}

    def write(self, name, text):
        path = self.folder / name
        path.parent.mkdir(parents=True, exist_ok=True)
        path.write_text(text, "utf-8")

    def run_words(self, *words, cwd="."):
        """What a command writes, and its exit status."""
        done = subprocess.run(words, cwd=self.folder / cwd, check=False, env=self.environment, stdin=subprocess.DEVNULL,
                              stdout=subprocess.PIPE, stderr=subprocess.STDOUT, encoding="utf-8", timeout=SECONDS)
        return done.stdout, done.returncode

    def run_all(self, lines):
        """The same of each line of a shell."""
        return [self.run_words("bash", "-c", line) for line in lines]

    @installed("make")
    def test_make(self):
        self.write("Makefile", blocks("make")[0])
        out, status = self.run_words("make", "--keep-going")
        self.assertIn("less than 0", out)
        self.assertNotEqual(status, 0)
        self.assertTrue((self.folder / "out/bob.valid").exists())
        self.write("people/ada.json", '{"name": "Ada", "age": 1}')
        out, status = self.run_words("make")
        self.assertEqual((status, "bob.json" in out, "ada.json" in out), (0, False, True))

    @unittest.skipUnless(yaml, "PyYAML isn't installed")
    def test_github_actions(self):
        [steps] = [it["steps"] for it in map(yaml.safe_load, blocks("yaml")) if "steps" in it]
        matcher, lint, validate = [it["run"] for it in steps if "run" in it]
        self.assertTrue((HOME / re.search("::add-matcher::(.*)\"", matcher)[1]).is_file())
        (_, passes), (out, fails) = self.run_all([lint, validate])
        self.assertEqual((passes, fails), (0, 1))
        self.assertIn("::error file=people/ada.json,line=1,col=24", out)

    @unittest.skipUnless(yaml, "PyYAML isn't installed")
    def test_gitlab(self):
        [job] = [it["schemas"] for it in map(yaml.safe_load, blocks("yaml")) if "schemas" in it]
        self.assertEqual([status for _, status in self.run_all(job["script"])], [0, 1])
        report = job["artifacts"]["reports"]["junit"]
        self.assertIn("less than 0", (self.folder / report).read_text("utf-8"))

    def test_problem_matchers(self):
        """Both matchers find the file, the line, the column, the severity and the message."""
        task = json.loads(next(it for it in blocks("json") if "problemMatcher" in it))
        [matcher] = json.loads((HOME / "examples" / "problem-matcher.json").read_text("utf-8"))["problemMatcher"]
        self.assertEqual(matcher["pattern"], [task["problemMatcher"]["pattern"]])
        pattern = task["problemMatcher"]["pattern"]
        out, status = self.run_words("bash", "-c", task["command"])
        self.assertEqual(status, 1)
        self.write("schemas/odd.schema.json", '{\n "requierd": []}')
        out += self.run_words("jschema-lint", "--format", "short", "schemas/odd.schema.json")[0]
        found = [[it[pattern[name]] for name in ("file", "line", "column", "severity")] for line in out.splitlines()
                 if (it := re.match(pattern["regexp"], line))]
        self.assertEqual(found, [["people/ada.json", "1", "24", None],
                                 ["schemas/odd.schema.json", "2", "2", "warning"]])

    @installed("pre-commit")
    @installed("git")
    def test_pre_commit(self):
        self.environment.update(PRE_COMMIT_HOME=str(self.folder / "cache"), GIT_CONFIG_GLOBAL="/dev/null",
                                GIT_AUTHOR_NAME="A", GIT_AUTHOR_EMAIL="a@example.com", GIT_COMMITTER_NAME="A",
                                GIT_COMMITTER_EMAIL="a@example.com")
        self.write("hooks/.pre-commit-hooks.yaml", (HOME / ".pre-commit-hooks.yaml").read_text("utf-8"))
        for words in (["init", "-q"], ["add", "-A"], ["commit", "-qm", "hooks"], ["tag", "v0.2.0"]):
            self.assertEqual(self.run_words("git", *words, cwd="hooks"), ("", 0))
        config = next(it for it in blocks("yaml") if it.startswith("repos:"))
        hooks = str(self.folder / "hooks")
        self.write(".pre-commit-config.yaml", config.replace("https://example.com/jschema.git", hooks))
        self.run_words("git", "init", "-q")
        self.run_words("git", "add", "people", "schemas", ".pre-commit-config.yaml")
        out, status = self.run_words("pre-commit", "run", "--all-files")
        self.assertNotEqual(status, 0)
        self.assertIn(MINIMUM, out)
        self.assertNotIn("bob.json", out)
        self.assertRegex(out, r"lint JSON Schemas\.*Passed")
        self.write("people/ada.json", '{"name": "Ada"}')
        self.run_words("git", "add", "people")
        out, status = self.run_words("pre-commit", "run", "--all-files")
        self.assertEqual(status, 0, out)
        self.assertRegex(out, r"against a schema\.*Passed")
