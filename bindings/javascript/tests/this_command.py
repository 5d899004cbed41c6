"""How the expectations of the Python package's command are put to the command of this package."""
import atexit
import json
import os
import subprocess
import sys
from functools import lru_cache
from pathlib import Path

HERE = Path(__file__).resolve().parent
PYTHON = HERE.parents[1] / "python"
sys.path[:0] = [str(HERE.parents[2]), str(PYTHON), str(PYTHON / "tests")]

NODE = os.environ.get("JSCHEMA_NODE", "node")
SCRIPT = str(HERE.parent / "bin" / "jschema.js")


class Process:
    """A process of Node that is asked for one thing after another, a line of JSON each."""

    def __init__(self, script):
        # (Its standard error may be a terminal, for which the command would write in colours.)
        self.started = subprocess.Popen([NODE, str(HERE / script)], stdin=subprocess.PIPE, stdout=subprocess.PIPE,
                                        encoding="utf-8", env={**os.environ, "TERM": "dumb"})
        atexit.register(self.started.wait)
        atexit.register(self.started.stdin.close)

    def asked(self, request):
        """What it replies."""
        self.started.stdin.write(json.dumps(request) + "\n")
        self.started.stdin.flush()
        return json.loads(self.started.stdout.readline())


@lru_cache(maxsize=None)
def process(script):
    """The process of a script of this folder, which ends with this one."""
    return Process(script)


class OnThisCommand:
    """Runs the command of this package: most tests in one process, those of streams and of a terminal in their own."""

    COMMAND = [NODE, SCRIPT]
    NAME = "npx jschema"

    def run_command(self, *words, given=""):
        """Standard output, standard error, and the exit status."""
        asked = {"words": [str(it) for it in words], "folder": str(self.folder), "given": given}
        return tuple(process("in_process.js").asked(asked))

    def run_inside(self, *words):
        """The same. (Python's command runs in the tests' process there.)"""
        return self.run_command(*words)


def evaluated(module, expression, given):
    """The value of an expression in JavaScript, in which `it` is a module of the command, and `given` this value."""
    return process("in_process.js").asked({"module": module, "expression": expression, "given": given})
