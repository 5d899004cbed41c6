"""Editors use the language server by the lines of docs/EDITORS.md: real ones where they are installed."""
import json
import os
import re
import shutil
import subprocess
import sys
import unittest
from pathlib import Path

from editors import EMACS, NEOVIM
from lsp_client import PERSON, folder_of, once

try:
    import tomllib
except ImportError:
    tomllib = None

PAGE = (Path(__file__).resolve().parents[3] / "docs" / "EDITORS.md").read_text("utf-8")
SECONDS = 100
ADA = '{\n "name": 5,\n "age": -1\n}\n'

SCHEMAS = [{"fileMatch": ["*.person.json"], "schema": "schemas/person.schema.json"}]
# What the package of this name has, as far as the page uses it.
CLIENT = """
exports.LanguageClient = class {
  constructor(...given) { this.given = given }
  start() {
    console.log(JSON.stringify(["server", this.given[1]]))
    console.log(JSON.stringify(["client", this.given[2]]))
  }
}
"""


def block(language):
    """The block of a language on the page."""
    return re.search(rf"^```{language}\n(.*?)^```$", PAGE, re.M | re.S)[1]


def installed(name):
    return unittest.skipUnless(shutil.which(name), f"{name} isn't installed")


def has_eglot():
    if not shutil.which("emacs"):
        return False
    words = ["emacs", "--batch", "--eval", "(progn (require 'package) (package-initialize) (require 'eglot))"]
    return subprocess.run(words, check=False, stderr=subprocess.DEVNULL, timeout=SECONDS).returncode == 0


class Editors(unittest.TestCase):
    def setUp(self):
        once(self)
        self.folder = folder_of(self)
        self.write("schemas/person.schema.json", PERSON)
        self.write("schemas/address.schema.json", "{}")
        self.write("ada.person.json", ADA)
        self.write("empty.person.json", "{}\n")
        self.write("bin/jschema-lsp", f'#!/bin/sh\nexec {sys.executable} -m jschema.lsp "$@"\n')
        (self.folder / "bin" / "jschema-lsp").chmod(0o755)

    def write(self, name, text):
        path = self.folder / name
        path.parent.mkdir(parents=True, exist_ok=True)
        path.write_text(text, "utf-8")

    def run_editor(self, *words):
        """The lines that an editor wrote, each a pair in JSON."""
        environment = {**os.environ, "HOME": str(self.folder), "PATH": f"{self.folder}/bin:{os.environ['PATH']}"}
        done = subprocess.run(words, cwd=self.folder, check=False, stdin=subprocess.DEVNULL, stdout=subprocess.PIPE,
                              stderr=subprocess.PIPE, env=environment, encoding="utf-8", timeout=SECONDS)
        lines = [line for line in done.stdout.splitlines() if line.startswith("[")]
        self.assertTrue(lines, f"{words[0]} wrote {done.stdout!r} and {done.stderr!r}")
        return dict(map(json.loads, lines))

    @installed("nvim")
    def test_neovim(self):
        self.write("page.lua", block("lua"))
        self.write("test.lua", NEOVIM)
        said = self.run_editor("nvim", "--headless", "-u", "NONE", "-i", "NONE", "-n", "-S", "test.lua")
        self.assertEqual(sorted(said["opened"]), [[1, 9, 10, "type"], [2, 8, 10, "minimum"]])
        self.assertEqual(said["typed"], [[2, 8, 10, "minimum"]])
        self.assertEqual(said["hover"], "**Name**\n\nAs *written*.\n\nexamples: `\"Ada\"`, `\"Bob\"`")
        self.assertEqual(said["completion"], ["colour", "address", "friends"])
        self.assertEqual((said["definition"], said["fixed"]), (1, ['{"name": ""}']))

    @unittest.skipUnless(has_eglot(), "emacs with eglot isn't installed")
    def test_emacs(self):
        self.write("page.el", block("elisp"))
        self.write("test.el", EMACS)
        said = self.run_editor("emacs", "--batch", "-l", "test.el")
        minimum = [3, "jschema [minimum]: less than 0"]
        self.assertEqual(said["opened"], [[2, "jschema [type]: type is integer"], minimum])
        self.assertEqual(said["typed"], [minimum])
        self.assertIn("As *written*.", said["hover"])
        self.assertEqual(said["completion"], ["colour", "address", "friends"])

    @installed("node")
    def test_vs_code(self):
        """VS Code itself isn't asked: its lines start a client with this command."""
        self.write("extension.js", block("js"))
        self.write("node_modules/vscode-languageclient/node.js", CLIENT)
        said = self.run_editor("node", "-e", 'require("./extension.js").activate()')
        self.assertEqual(said["server"], {"command": "jschema-lsp"})
        self.assertEqual(said["client"], {"documentSelector": ["json", "jsonc", "yaml"],
                                          "initializationOptions": {"schemas": SCHEMAS}})

    @unittest.skipUnless(tomllib, "Python 3.11's reader of TOML isn't there")
    def test_helix(self):
        """Helix itself isn't asked: its lines are TOML, with the settings that the server takes."""
        given = tomllib.loads(block("toml"))
        [server] = given["language-server"].values()
        self.assertEqual((server["command"], given["language"][0]["language-servers"]), ("jschema-lsp", ["jschema"]))
        self.assertEqual(server["config"]["schemas"], SCHEMAS)
