"""The example over a Dask bag: examples/dask_validate.py."""
import contextlib
import json
import os
import re
import shlex
import shutil
import signal
import subprocess
import sys
import tempfile
import time
import unittest
from pathlib import Path
from unittest import mock

import jschema

HOME = Path(__file__).resolve().parents[3]
EXAMPLES = HOME / "examples"
SCHEMA = EXAMPLES / "person.schema.json"
URI = "https://example.com/person"
SECONDS = 100

# The lines of the large file that aren't like the others.
ODD = {11: b"", 13: b'{"name": ', 17: b'{"name": "A", "age": 0.5}', 19: b'{"name":\r "A"}', 23: b'{"name": "\xff"}'}


def line(number):
    """A line of the large file: each seventh age is negative, and each fiftieth name is missing."""
    age = -number if number % 7 == 0 else number
    person = {"age": age} if number % 50 == 0 else {"name": f"é{number}", "age": age}
    return ODD.get(number, json.dumps(person, ensure_ascii=False).encode())


FILES = {
    "people.jsonl": b"\n".join(map(line, range(1, 301))) + b"\n",
    "empty.jsonl": b"",
    "last.jsonl": b'{"name": "A"}\n{"name": "B", "age": "b"}',
}
# Of 300 lines one is blank, 42 have a negative age, six others no name, and three are refused. One of the last two is
# invalid, and so is the page's own.
SUMMARY = "249 valid, 50 invalid, 3 refused"


def rows(schemas, file):
    """The rows of a file, as the package answers in this process."""
    for number, text in enumerate(file.read_bytes().split(b"\n"), 1):
        if text:
            about = {"file": str(file), "line": number}
            try:
                for error in schemas.errors(URI, text):
                    yield {**about, "instance_location": error.instance_location,
                           "keyword_location": error.keyword_location, "message": error.message}
            except jschema.Refused as refused:
                yield {**about, "instance_location": refused.place or "", "keyword_location": None,
                       "message": f"refused: {refused}"}


def python_with_dask():
    """The Python of the tests, or else the system's, which Debian's packages are for; None where neither has Dask."""
    for python in (sys.executable, shutil.which("python3", path=os.defpath)):
        finds = "import importlib.util, sys; sys.exit(importlib.util.find_spec('distributed') is None)"
        if python and subprocess.run([python, "-c", finds], check=False).returncode == 0:
            return python
    return None


WITH_DASK = python_with_dask()


def words_of_page():
    """The arguments that docs/USING.md shows."""
    page = (HOME / "docs" / "USING.md").read_text("utf-8")
    return shlex.split(re.search(r"^PYTHONPATH=\S+ python3 examples/dask_validate\.py (.*)$", page, re.M)[1])


def processes(group):
    """The processes of a group that run."""
    for stat in Path("/proc").glob("[0-9]*/stat"):
        # It may end meanwhile.
        with contextlib.suppress(OSError):
            state, _, of = stat.read_text().rpartition(")")[2].split()[:3]
            if int(of) == group and state != "Z":
                yield stat.parent.name


def has_ended(group):
    """Whether no process of a group runs, within a few seconds."""
    end = time.monotonic() + 5
    while any(processes(group)):
        if time.monotonic() > end:
            return False
        time.sleep(0.05)
    return True


class Case(unittest.TestCase):
    python = sys.executable

    @classmethod
    def setUpClass(cls):
        folder = tempfile.TemporaryDirectory()
        cls.addClassCleanup(folder.cleanup)
        cls.folder = Path(folder.name).resolve()
        for name, text in FILES.items():
            (cls.folder / name).write_bytes(text)

    def run_example(self, *words, example=("examples/dask_validate.py",)):
        """Standard output, the last line of standard error, and the exit status. No process may be left."""
        with subprocess.Popen([self.python, *example, *map(str, words)], cwd=HOME, text=True, start_new_session=True,
                              env={**os.environ, "TMPDIR": str(self.folder)},
                              stdout=subprocess.PIPE, stderr=subprocess.PIPE) as job:
            try:
                out, said = job.communicate(timeout=SECONDS)
                self.assertTrue(has_ended(job.pid), "a process is left")
            finally:
                with contextlib.suppress(ProcessLookupError):
                    os.killpg(job.pid, signal.SIGKILL)
        return out, said.rstrip("\n").rpartition("\n")[2], job.returncode


@unittest.skipUnless(WITH_DASK, "needs Dask (python3-distributed)")
class Cluster(Case):
    python = WITH_DASK

    def test_errors(self):
        """What the page shows, with larger files after its own."""
        files = [self.folder / name for name in FILES]
        out, said, status = self.run_example(*words_of_page(), *files)
        with jschema.Schemas({URI: SCHEMA.read_bytes()}) as schemas:
            expected = [row for file in (EXAMPLES / "ada.json", *files) for row in rows(schemas, file)]
        self.assertEqual([json.loads(row) for row in out.splitlines()], expected)
        self.assertEqual((said, status), (SUMMARY, 3))

    def test_missing_file(self):
        out, said, status = self.run_example("--schema", SCHEMA, EXAMPLES / "ada.json", self.folder / "none.jsonl")
        self.assertEqual((out, status), ("", 4))
        self.assertRegex(said, r"^dask_validate: .*No such file or directory.*none\.jsonl")


class WithoutCluster(Case):
    def test_refused_schema(self):
        out, said, status = self.run_example("--schema", SCHEMA, "--ref", "urn:bad=examples/bad.schema.json",
                                             "examples/ada.json")
        self.assertEqual((out, status), ("", 3))
        self.assertEqual(said, "dask_validate: document urn:bad at /properties/name/minLength: "
                               "BadKeyword: the keyword's value has the wrong form")

    def test_missing_schema(self):
        out, said, status = self.run_example("--schema", "none.json", "examples/ada.json")
        self.assertEqual((out, said, status),
                         ("", "dask_validate: [Errno 2] No such file or directory: 'none.json'", 4))

    def test_misuse(self):
        for words, wanted in (("", "the following arguments are required: INSTANCES"),
                              ("ada.json --workers 0", "argument --workers: '0' isn't a number from 1"),
                              ("ada.json --workers 2 --scheduler tcp://127.0.0.1:1",
                               "argument --scheduler: not allowed with argument --workers")):
            with self.subTest(words):
                self.assertEqual(self.run_example("--schema", SCHEMA, *words.split()),
                                 ("", f"dask_validate.py: error: {wanted}", 2))

    def test_no_dask(self):
        program = ("import sys; sys.modules['dask'] = None; sys.path.insert(0, 'examples'); "
                   "import dask_validate; sys.exit(dask_validate.main())")
        out, said, status = self.run_example("--schema", SCHEMA, "examples/ada.json", example=("-c", program))
        self.assertEqual((out, status), ("", 4))
        self.assertRegex(said, r"^dask_validate: .*: this needs dask\[bag\] and distributed")

    def test_one_schemas_a_process(self):
        with mock.patch.object(sys, "path", [str(EXAMPLES), *sys.path]):
            import dask_validate
        self.addCleanup(dask_validate.schemas_of.cache_clear)
        documents = ((URI, SCHEMA.read_bytes()),)
        with mock.patch.object(jschema, "Schemas", wraps=jschema.Schemas) as made:
            for file in ("a", "b"):
                [part] = dask_validate.check([("\n", file), ('{"name": 1}\n', file), ("{}", file)], documents)
                self.assertEqual([(row.file, row.line) for row in part.rows], [(file, 2), (file, 3)])
                self.assertEqual(part.counts, {"invalid": 2})
        self.assertEqual(made.call_count, 1)
