"""What the tests of the scripts share: a script that must fail, fake programs, and copies of the scripts."""
import contextlib
import os
import re
import shutil
import stat
import time
from dataclasses import dataclass, field
from pathlib import Path

from tests.support.programs import COUNT, HOME, TimeoutExpired, answer_of, no_end

SECONDS = 300
OTHER_ROW = os.path.join(HOME, "tests", "rows", "two_branches_hold", "flag.stdout")
USAGE = "usage: jschema (check FORMAT INSTANCE ENTRY | suite SUITE | places) [URI FILE]..."
# What a fake program does, and what a script must say of it.
FAKES = {
    "crashes": ("kill -SEGV $$", "-11|139"),
    "hangs": ("exec sleep 100", "no end after 1 s"),
    "answers nothing": ("exit 0", "FAILED"),
    "answers another row's text": (f"exec cat '{OTHER_ROW}'", "FAILED"),
    "refuses everything": ("""echo 'refused: document 0 at "": NotJson' >&2; exit 3""", "FAILED"),
    "always fails": ("echo 'failed: Read' >&2; exit 4", "FAILED"),
    "prints its usage": (f"echo '{USAGE}' >&2; exit 2", "FAILED"),
    "is valid in the right shape": (f"exec '{HOME}/tests/scripts/fake_valid.sh' \"$@\"", "FAILED"),
}
COPIED = ("benchmarks", "bindings", "examples", "tests/conformance", "tests/fuzz", "tests/hostile", "tests/random",
          "tests/reference", "tests/rows/polygon", "tests/rows/annotated_property", "tests/scripts", "tests/support",
          "tools")
COPIED_FILES = ("HANDLES", "crates.txt", "interface.toml", "keywords.toml", "tests/__init__.py",
                "tests/mutants/batches.py", "tests/mutants/coverage.py", "tests/mutants/edits.py",
                "tests/mutants/kept_bodies.py", "tests/mutants/run", "tests/rows/run")


@dataclass
class Check:
    """A script that must fail and say something, or, where it has to say nothing, must pass and print `prints`."""

    name: str
    words: list
    says: str = ""
    home: str = HOME
    env: dict = field(default_factory=dict)
    has_count: bool = True
    status: int | None = None
    prints: str = ""

    def fault(self):
        """None, or what is wrong with how the script ends."""
        script, *words = self.words
        env = {**os.environ, **self.env}
        try:
            out, errors, status = answer_of([os.path.join(self.home, script), *words], SECONDS, env=env, cwd=self.home)
        except TimeoutExpired as error:
            return no_end(error)
        out, errors = out.decode(), errors.decode()
        count = COUNT.search(out)
        ending = f"status {status}, output {out[-300:]!r}, errors {errors[-600:]!r}"
        if not self.says:
            is_counted = count and count[2] == "0" if self.has_count else True
            passes = status == 0 and is_counted and re.search(self.prints, out, re.M)
            return None if passes else f"wanted to pass{' with ' + repr(self.prints) if self.prints else ''}: {ending}"
        if not 0 < status < 128 or self.status not in (None, status):
            return f"wanted to fail: {ending}"
        if self.has_count and not (count and int(count[2]) > 0):
            return f"no count of failures: {ending}"
        return None if re.search(self.says, out + errors) else f"doesn't say {self.says!r}: {ending}"


class Room:
    """A temporary folder with fakes, and with copies of the scripts over a fake reference."""

    def __init__(self, folder):
        self.folder = folder

    def executable(self, name, body):
        path = os.path.join(self.folder, name)
        os.makedirs(os.path.dirname(path), exist_ok=True)
        with open(path, "w") as file:
            file.write(f"#!/bin/sh\n{body}\n")
        os.chmod(path, os.stat(path).st_mode | stat.S_IXUSR)
        return path

    def path_without_kit(self, *tools):
        """A folder for PATH, which has neither the kit nor valgrind."""
        folder = os.path.join(self.folder, "without_kit")
        os.makedirs(folder, exist_ok=True)
        for tool in ("env", "git", "python3", *tools):
            with contextlib.suppress(FileExistsError):
                os.symlink(shutil.which(tool), os.path.join(folder, tool))
        return folder

    def copy(self, name):
        """A copy of the scripts and of two rows, without a program."""
        home = os.path.join(self.folder, name)
        for part in COPIED:
            shutil.copytree(os.path.join(HOME, part), os.path.join(home, part),
                            ignore=shutil.ignore_patterns("__pycache__"))
        for file in COPIED_FILES:
            os.makedirs(os.path.dirname(os.path.join(home, file)), exist_ok=True)
            shutil.copy(os.path.join(HOME, file), os.path.join(home, file))
        return home

    def copied(self, home, name):
        """A copy of a copy."""
        return shutil.copytree(home, os.path.join(self.folder, name), symlinks=True)

    def copy_with_crates(self, name, without=None, stamped=None, edited=None):
        """A copy with empty crates, and with the libraries that `rt ci` would leave of them, but for one. One of them
        may have the stamp that `rt lib` leaves, and one a source that is newer."""
        home = self.copy(name)
        crates = Path(home, "crates")
        for crate in re.findall(r"^\w+", Path(home, "crates.txt").read_text(), re.M):
            for part in ("src", "specs", "proofs", f"out/rlib/{crate}.rlib"):
                (crates / crate / part).mkdir(parents=True)
        if without:
            (crates / without / f"out/rlib/{without}.rlib").rmdir()
        if stamped:
            (crates / stamped / "out/rlib/stamp").touch()
        if edited:
            time.sleep(0.02)
            (crates / edited / "src/lib.rt").touch()
        return home

    def copy_with_reference(self, name, body):
        """A copy whose reference has this body in the place of its `answer`."""
        home = self.copy(name)
        path = os.path.join(home, "tests/reference/jschema.py")
        with open(path) as file:
            text = file.read()
        with open(path, "w") as file:
            file.write(text.replace("def main():", f"def answer(*_):\n    {body}\n\n\ndef main():", 1))
        return home
