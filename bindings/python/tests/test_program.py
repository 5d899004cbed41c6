"""The engine that runs the program: which program it takes, and which answers it believes."""
import os
import stat
import subprocess
import sys
import tempfile
import unittest
import warnings
from pathlib import Path
from unittest import mock

import jschema
from jschema import program
from jschema.program import find_program

URI = "https://example.com/s"

# Answers what is asked when the engine is made, as the program does. What it is asked afterwards is in $1 and $2.
ANSWERS_AT_FIRST = """
if [ $# = 0 ]; then
    read -r schema
    echo "{\\"valid\\":$schema}"
    [ "$schema" = true ]
    exit
fi
[ "$1" = places ] && exit 0
"""


class Case(unittest.TestCase):
    def setUp(self):
        folder = tempfile.TemporaryDirectory()
        self.addCleanup(folder.cleanup)
        self.folder = folder.name

    def write(self, script, name="jschema"):
        """A program in the folder of this test."""
        path = os.path.join(self.folder, name)
        os.makedirs(os.path.dirname(path), exist_ok=True)
        with open(path, "w", encoding="utf-8") as file:
            file.write(f"#!/bin/sh\n{script}\n")
        os.chmod(path, stat.S_IRWXU)
        return path

    def schemas(self, script):
        """Schemas over an engine that runs a script."""
        return jschema.Schemas({URI: "true"}, engine=jschema.ProgramEngine(self.write(script)))


class Found(Case):
    def test_named_program_is_missing(self):
        with mock.patch.dict(os.environ, JSCHEMA="/nowhere"), \
                self.assertRaisesRegex(jschema.EngineError, "JSCHEMA names /nowhere"):
            find_program()

    def test_program_on_the_path(self):
        path = self.write("")
        with mock.patch.dict(os.environ, JSCHEMA="", PATH=self.folder), mock.patch.object(program, "_BUILDS", ()):
            self.assertEqual(find_program(), path)

    def test_build_comes_before_the_path(self):
        built = self.write("", "out/jschema")
        self.write("")
        module = os.path.join(self.folder, "bindings", "python", "jschema", "program.py")
        with mock.patch.dict(os.environ, JSCHEMA="", PATH=self.folder), mock.patch.object(program, "__file__", module):
            self.assertEqual(os.path.realpath(find_program()), os.path.realpath(built))

    def test_no_program(self):
        with self.assertRaisesRegex(jschema.EngineError, "can't be run: No such file"):
            jschema.Schemas({}, engine=jschema.ProgramEngine("/nowhere"))


class Foreign(Case):
    """Programs that aren't the validator."""

    def test_is_no_validator(self):
        for script in ("exit 0", "exit 1", "echo 'jschema: a code generator'", "echo 'usage: x' >&2; exit 2",
                       """echo '{"valid":true}'""", """echo '{"valid":false}'; exit 1""",
                       """echo '{"valid":false}'""", "exit 4", "kill -9 $$"):
            with self.subTest(script), self.assertRaisesRegex(
                    jschema.EngineError, "jschema isn't the validator jschema: for the schema (true|false) it "):
                self.schemas(script)

    def validated(self, program):
        """What the command writes with a program, and its status."""
        schema = os.path.join(self.folder, "s.json")
        Path(schema).write_text("true", "utf-8")
        done = subprocess.run([sys.executable, "-m", "jschema", "validate", "--format", "short", schema, schema],
                              check=False, stdout=subprocess.PIPE, stderr=subprocess.PIPE, text=True,
                              env={**os.environ, "JSCHEMA": program, "JSCHEMA_LIBRARY": "off"})
        return done.stdout, done.stderr, done.returncode

    def test_command(self):
        out, said, status = self.validated("/bin/true")
        self.assertEqual((out, status), ("", 4))
        self.assertRegex(said, r"\Ajschema: /.*/true isn't the validator jschema: .*\n\Z")

    def test_command_is_told_no_verdict(self):
        """By a program that has answered what is known."""
        for script in ("exit 0", "exit 1", "echo hello", "kill -9 $$"):
            with self.subTest(script):
                out, said, status = self.validated(self.write(ANSWERS_AT_FIRST + script))
                self.assertEqual((out, status), ("", 4))
                self.assertRegex(said, r"\A/.*/s.json: failed: .*\n0 valid, 0 invalid, 1 failed\n\Z")

    def test_memory(self):
        with self.assertRaisesRegex(MemoryError, "failed: Memory"):
            self.schemas("echo 'failed: Memory' >&2; exit 4")


class Answers(Case):
    def test_failures(self):
        for script, error, message in (("echo 'failed: Memory' >&2; exit 4", MemoryError, "failed: Memory"),
                                       ("echo 'failed: Write' >&2; exit 4", jschema.EngineError, "failed: Write"),
                                       ("exit 4", jschema.EngineError, "ended with status 4: no message"),
                                       ("kill -9 $$", jschema.EngineError, "ended with status -9"),
                                       ("echo 'usage: x' >&2; exit 2", jschema.EngineError, "status 2: usage: x")):
            with self.subTest(script), self.schemas(ANSWERS_AT_FIRST + script) as schemas, \
                    self.assertRaisesRegex(error, message):
                schemas.is_valid(URI, 1)

    def test_status_and_text_disagree(self):
        for script in ("exit 0", "exit 1", """echo '{"valid":false}'""", """echo '{"valid":true}'; exit 1""",
                       """printf '{"valid":true}'""", """echo '"valid":true}'""", "echo hello",
                       """echo '{"valid":true}'; echo more"""):
            for format in jschema.FORMATS:
                with self.subTest(script, format=format), self.schemas(ANSWERS_AT_FIRST + script) as schemas, \
                        self.assertRaisesRegex(jschema.EngineError, "wrote no verdict: it ended with status [01]"):
                    schemas.output_text(URI, 1, format=format)

    def test_text_is_no_json(self):
        with self.schemas(ANSWERS_AT_FIRST + """echo '{"errors":[x],"valid":false}'; exit 1""") as schemas:
            for call in (schemas.errors, schemas.output, schemas.validate):
                with self.subTest(call), self.assertRaisesRegex(jschema.EngineError, "the output isn't as it should"):
                    call(URI, 1)

    def test_errors_without_their_members(self):
        with self.schemas(ANSWERS_AT_FIRST + """echo '{"errors":[{}],"valid":false}'; exit 1""") as schemas, \
                self.assertRaisesRegex(jschema.EngineError, "the output isn't as it should"):
            schemas.errors(URI, 1)


class Folder(Case):
    """The temporary folder with the documents."""

    def test_exit_of_a_child(self):
        """A child that ends leaves the documents of its parent."""
        code = f"""
import os, sys, jschema
schemas = jschema.Schemas({{"{URI}": "true"}}, engine=jschema.ProgramEngine())
child = os.fork()
if child == 0:
    schemas.close()
    sys.exit(0)
os.waitpid(child, 0)
print(schemas.is_valid("{URI}", 1))
"""
        self.assertEqual(subprocess.run([sys.executable, "-c", code], check=False, stdout=subprocess.PIPE,
                                        stderr=subprocess.STDOUT, text=True).stdout, "True\n")

    def test_no_warning(self):
        with warnings.catch_warnings(record=True) as caught, mock.patch.dict(os.environ, TMPDIR=self.folder), \
                mock.patch.object(tempfile, "tempdir", None):
            warnings.simplefilter("always")
            schemas = jschema.Schemas({URI: "true"}, engine=jschema.ProgramEngine())
            self.assertTrue(schemas.is_valid(URI, 1))
            self.assertEqual(len(os.listdir(self.folder)), 1)
            del schemas
            self.assertEqual(os.listdir(self.folder), [])
        self.assertEqual([str(it.message) for it in caught], [])
