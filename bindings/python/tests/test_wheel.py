"""A wheel that is built, and installed into a fresh virtual environment, without a network."""
import importlib.util
import os
import re
import subprocess
import sys
import tempfile
import unittest
import venv
import zipfile
from pathlib import Path

import backend
import jschema
from jschema.interface import VERSION

PACKAGE = Path(__file__).resolve().parent.parent
PROGRAM = """import jschema
from jschema.library import find_library
print(jschema.__file__, jschema.Schemas({"a:b": "false"}).is_valid("a:b", 1), find_library())"""


def run(*words, **how):
    return subprocess.run([str(it) for it in words], check=True, stdout=subprocess.PIPE, stderr=subprocess.STDOUT,
                          text=True, **how).stdout


class Wheel(unittest.TestCase):
    @unittest.skipUnless(importlib.util.find_spec("pip"), "needs pip")
    def test_installation(self):
        environment = {**os.environ, "PIP_NO_INDEX": "1", "PIP_DISABLE_PIP_VERSION_CHECK": "1"}
        del environment["PYTHONPATH"]
        named = environment.pop("JSCHEMA_LIBRARY", "off")
        if named != "off" and backend.LIBRARY.is_file():
            # The library in the wheel is found without being named.
            found = r"/.*/site-packages/jschema/libjschema\.so\.0"
        else:
            environment["JSCHEMA_LIBRARY"] = named
            found = "None" if named == "off" else re.escape(named)
        with tempfile.TemporaryDirectory() as folder:
            python = Path(folder, "venv", "bin", "python")
            venv.create(python.parent.parent, symlinks=True)
            run(sys.executable, "-m", "pip", "wheel", "--wheel-dir", folder, PACKAGE, env=environment)
            [wheel] = Path(folder).glob("*.whl")
            run(sys.executable, "-m", "pip", "--python", python, "install", wheel, env=environment)
            printed = run(python, "-c", PROGRAM, cwd=folder, env=environment)
            self.assertRegex(printed, rf"\A{folder}/venv/lib/.*/site-packages/jschema/__init__.py False {found}\n\Z")
            about = "from importlib.metadata import metadata as it; print(it('jschema')['Version'])"
            self.assertEqual(run(python, "-c", about, env=environment), f"{VERSION}\n")
            self.assertIn("usage: python -m jschema validate", run(python, "-m", "jschema", "-h", env=environment))
            for name in ("validate", "lint"):
                script = python.parent / f"jschema-{name}"
                self.assertIn(f"usage: jschema-{name} [", run(script, "-h", env=environment))
                self.assertRegex(run(script, "--version", env=environment), rf"\Ajschema {VERSION}\nengine: the ")

    @unittest.skipUnless(importlib.util.find_spec("pip"), "needs pip")
    def test_editable(self):
        """An installation that uses the files of the repository."""
        environment = {**os.environ, "PIP_NO_INDEX": "1", "PIP_DISABLE_PIP_VERSION_CHECK": "1"}
        del environment["PYTHONPATH"]
        with tempfile.TemporaryDirectory() as folder:
            python = Path(folder, "venv", "bin", "python")
            venv.create(python.parent.parent, symlinks=True)
            run(sys.executable, "-m", "pip", "--python", python, "install", "-e", PACKAGE, env=environment)
            code = "import jschema; print(jschema.__file__, jschema.Schemas({'a:b': 'false'}).is_valid('a:b', 1))"
            self.assertEqual(run(python, "-c", code, cwd=folder, env=environment),
                             f"{PACKAGE}/jschema/__init__.py False\n")

    def test_contents(self):
        with tempfile.TemporaryDirectory() as folder:
            with zipfile.ZipFile(Path(folder, backend.build_wheel(folder))) as wheel:
                names = set(wheel.namelist())
            expected = {path.relative_to(PACKAGE).as_posix() for path in (PACKAGE / "jschema").rglob("*.py")}
            about = {f"jschema-{VERSION}.dist-info/{name}"
                     for name in ("METADATA", "WHEEL", "RECORD", "entry_points.txt")}
            library = {f"jschema/{backend.LIBRARY.name}"} if backend.LIBRARY.is_file() else set()
            self.assertEqual(names, expected | about | library | {"jschema/py.typed"})
            self.assertEqual(backend.build_sdist(folder), f"jschema-{VERSION}.tar.gz")

    def test_metadata(self):
        """The metadata name each extra of pyproject.toml with what it needs, and the version is the package's."""
        lines = backend.metadata().splitlines()
        for line in ("Provides-Extra: yaml", 'Requires-Dist: PyYAML ; extra == "yaml"', "Provides-Extra: toml",
                     "Requires-Dist: tomli ; (python_version < '3.11') and extra == \"toml\"",
                     'Requires-Dist: rfc3987 ; extra == "formats"', 'Requires-Dist: referencing ; extra == "pip"'):
            self.assertIn(line, lines)
        self.assertEqual(jschema.__version__, VERSION)

    def test_code_for_old_versions(self):
        """Every module is in the grammar of the oldest version that pyproject.toml names."""
        import ast
        for path in sorted((PACKAGE / "jschema").rglob("*.py")):
            with self.subTest(path.name):
                ast.parse(path.read_text("utf-8"), feature_version=(3, 9))
