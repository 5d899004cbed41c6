"""The files that the tests of the command validate, and how they run it."""
import io
import os
import pty
import subprocess
import sys
import tempfile
import unittest
from pathlib import Path
from unittest import mock

from jschema import command

SCHEMA = """{
  "$id": "https://example.com/person",
  "not": {"const": 1},
  "properties": {"name": {"type": "string"}, "age": {"minimum": 0}, "friends": {"items": {"$ref": "person"}}},
  "required": ["name"]
}"""
NAME = "https://example.com/person#/properties/name/type"
AGE = "https://example.com/person#/properties/age/minimum"
TWO = '{\n  "age": -1,\n  "friends": [{"name": "Bé", "age": -2}],\n  "name": "A"\n}\n'
TWO_LINES = (f"two.json:3:37: less than 0 (/friends/0/age; minimum, {AGE})\n"
             f"two.json:2:10: less than 0 (/age; minimum, {AGE})\n")
FILES = {
    "schema.json": SCHEMA,
    "relative.json": '{"$id": "x", "$ref": "schema.json"}',
    "other.json": '{"$ref": "urn:name"}',
    "string.json": '{"type": "string"}',
    "bad.json": '{\n  "allOf": [true,\n    {"type": 1}]}',
    "data/ada.json": '{"name": "Ada"}',
    "data/sub/bob.json": '{"name":\n 1}',
    "data/notes.txt": "none",
    "data/rows.jsonl": '{"name": "A"}\n\n{"name": "B", "age": -1}\n',
    "two.json": TWO,
    "half.json": '{"name": "A",\n "age": 0.5}',
    "torn.json": '{"name":\n\n "A"',
    "names.json": '{"a": 1}',
    "no_names.json": '{"propertyNames": false}',
    "a=b.json": '{"type": "string"}',
    "empty/x": "",
}
SOME = ["validate", "--schema", "schema.json", "--format", "short"]


class Case(unittest.TestCase):
    #: The command, and how it is called. (The JavaScript package puts these expectations to its own.)
    COMMAND = [sys.executable, "-m", "jschema"]
    NAME = "python -m jschema"

    @classmethod
    def setUpClass(cls):
        folder = tempfile.TemporaryDirectory()
        cls.addClassCleanup(folder.cleanup)
        cls.folder = Path(folder.name)
        for name, text in FILES.items():
            path = cls.folder / name
            path.parent.mkdir(parents=True, exist_ok=True)
            path.write_text(text, "utf-8")

    def run_command(self, *words, given=""):
        """Standard output, standard error, and the exit status."""
        done = subprocess.run([*self.COMMAND, *words], input=given, cwd=self.folder, check=False,
                              stdout=subprocess.PIPE, stderr=subprocess.PIPE, encoding="utf-8")
        return done.stdout, done.stderr, done.returncode

    def run_in_shell(self, script, *words):
        """The same of a script for bash, whose arguments are the command and these words."""
        done = subprocess.run(["bash", "-c", script, "bash", *self.COMMAND, *words], cwd=self.folder, check=False,
                              stdin=subprocess.DEVNULL, stdout=subprocess.PIPE, stderr=subprocess.PIPE, text=True)
        return done.stdout, done.stderr, done.returncode

    def on_terminal(self, *words, **environment):
        """What a terminal gets of both streams."""
        ours, theirs = pty.openpty()
        environment = {name: it for name, it in {**os.environ, **environment}.items() if it}
        with subprocess.Popen([*self.COMMAND, *words], cwd=self.folder, stdin=subprocess.DEVNULL, stdout=theirs,
                              stderr=theirs, env=environment):
            os.close(theirs)
            found = b""
            while True:
                try:
                    found += os.read(ours, 1 << 16)
                except OSError:
                    break
        os.close(ours)
        return found.decode()

    def output(self, environment, *words):
        """The bytes of standard output, in an environment."""
        return subprocess.run([*self.COMMAND, "validate", *words], cwd=self.folder, check=False,
                              stdout=subprocess.PIPE, stderr=subprocess.DEVNULL,
                              env={**os.environ, **environment}).stdout

    def run_inside(self, *words):
        """The same, in this process: without standard input, and sooner."""
        out, said = (io.TextIOWrapper(io.BytesIO(), "utf-8", write_through=True) for _ in range(2))
        before = os.getcwd()
        os.chdir(self.folder)
        try:
            with mock.patch.multiple(sys, stdout=out, stderr=said):
                status = int(command.main([*words]))
        finally:
            os.chdir(before)
        return out.buffer.getvalue().decode(), said.buffer.getvalue().decode(), status

    def write(self, name, text, mode=0o644):
        """Makes a file, and returns its name."""
        path = self.folder / name
        path.parent.mkdir(parents=True, exist_ok=True)
        path.write_text(text, "utf-8")
        path.chmod(mode)
        return name

    def judge(self, words, out, said, status, given="", schema="schema.json"):
        """What a validation writes: all of standard output, and all of standard error. It is in the format `short`
        unless the words name another."""
        format = () if "--format" in words else ("--format", "short")
        self.assertEqual(self.run_command("validate", "--schema", schema, *format, *words, given=given),
                         (out, said, status))
