"""The validators that are compared: where each is installed, what it is asked, and how its answers are read."""
import json
import os
import re
import shutil
import subprocess
import sys
from dataclasses import dataclass, field

HERE = os.path.dirname(os.path.abspath(__file__))
HOME = os.path.join(HERE, "..", "..")
DRIVERS = os.path.join(HERE, "drivers")
# ./jschema copies the first to the second.
BUILDS = [os.path.join(HOME, "crates", "js_cli", "out", "js_cli"), os.path.join(HOME, "out", "jschema")]
PYTHONS = (sys.executable, "/usr/bin/python3")
NODE_PATH = "/usr/share/nodejs"
GO_PATH = "/usr/share/gocode"
URI = "https://a.example/s"


@dataclass(frozen=True)
class Files:
    """A schema with instances: as a suite of one group, the first instance apart, and all of them with one a line."""

    suite: str
    schema: str
    instance: str
    instances: str


@dataclass(frozen=True)
class Tool:
    """A validator behind a driver: `DRIVER verdict|errors SUITE` prints a line a test."""

    name: str
    version: str
    # The newest draft that it knows: 7 or 2020.
    draft: int
    driver: tuple[str, ...]
    # What it is asked, by the mode.
    asked: dict[str, str]
    environment: dict[str, str] = field(default_factory=dict)

    def command(self, mode, files):
        return [*self.driver, mode, files.suite]

    def single(self, files):
        """A verdict on the first instance alone."""
        return self.command("verdict", files)

    def location(self, done):
        """Where the first error is, as the tool says it; none where it says nothing of it."""
        return (done.stdout.splitlines() or [""])[0].partition(" ")[2].partition(" ")[2] or None

    def verdicts(self, mode, done):
        """Whether each instance is valid; none where it has no verdict on one of them."""
        words = [line.split(" ")[0] for line in done.stdout.removesuffix("\n").split("\n")]
        known = done.returncode == 0 and set(words) <= {"valid", "invalid"}
        return [word == "valid" for word in words] if known else None


class Jschema(Tool):
    """The program itself: `suite` for verdicts, `check basic` for all errors of one instance."""

    def command(self, mode, files):
        if mode == "verdict":
            return [*self.driver, "suite", files.suite]
        return [*self.driver, "check", "basic", files.instance, URI, URI, files.schema]

    def single(self, files):
        return [*self.driver, "check", "flag", files.instance, URI, URI, files.schema]

    def location(self, done):
        errors = json.loads(done.stdout).get("errors") if done.returncode == 1 else None
        return errors[0]["instanceLocation"] if errors else None

    def verdicts(self, mode, done):
        if done.returncode not in (0, 1):
            return None
        if mode == "errors":
            return [done.returncode == 0]
        words = [line.split(" ")[0] for line in done.stdout.splitlines()[:-1]]
        return [word == "pass" for word in words] if words and set(words) <= {"pass", "fail"} else None


class Library(Tool):
    """The library for C: its driver is given the schema, and the bytes of each instance."""

    def command(self, mode, files):
        return [*self.driver, mode, files.schema, files.instances]


def default_program():
    """The program as the gate, or `./jschema`, built it; none where it isn't built."""
    return next((os.path.normpath(it) for it in BUILDS if os.path.isfile(it)), None)


def output_of(*words, **environment):
    """What a command prints; none where it isn't there, or fails."""
    try:
        done = subprocess.run(words, capture_output=True, text=True, env=os.environ | environment)
    except OSError:
        return None
    return done.stdout.strip() if done.returncode == 0 else None


def package_version(name):
    return output_of("dpkg-query", "-W", "-f", "${Version}", name) or "unknown"


def commit():
    return output_of("git", "-C", HOME, "log", "-1", "--format=%h") or "unknown"


def jschema(program):
    asked = {"verdict": "`suite`: the verdict, by a whole walk",
             "errors": "`check basic`: each error with its locations"}
    return Jschema("jschema", commit(), 2020, (os.path.abspath(program),), asked)


def library(folder):
    """The library that tools/build-library made, with a driver that is compiled here."""
    driver, out = os.path.join(folder, "library_driver"), os.path.join(HOME, "out")
    built = [os.environ.get("CC", "cc"), "-O2", "-I", os.path.join(out, "include"), "-I",
             os.path.join(HOME, "bindings", "c", "tests"), "-o", driver, os.path.join(DRIVERS, "library_driver.c"),
             os.path.join(out, "lib", "libjschema.a")]
    if output_of(*built) is None:
        return "jschema (C): tools/build-library hasn't built the library, or there is no C compiler"
    asked = {"verdict": "`jschema_check`, `flag`: the verdict, by a whole walk",
             "errors": "`jschema_check`, `basic`: each error with its locations"}
    return Library("jschema (C)", commit(), 2020, (driver,), asked)


def of_python(name, draft, asked):
    """A package of Python, in this one or in Debian's."""
    script = f"import {name}, importlib.metadata as m; print(m.version('{name}'))"
    for python in PYTHONS:
        version = output_of(python, "-W", "ignore", "-c", script)
        if version:
            return Tool(name, version, draft, (python, os.path.join(DRIVERS, f"{name}_driver.py")), asked)
    return f"{name}: no package of {' or '.join(PYTHONS)}"


def valijson(folder):
    """Debian's libvalijson-dev over rapidjson-dev, compiled here."""
    program = os.path.join(folder, "valijson_driver")
    built = ["g++", "-O2", "-std=c++14", "-o", program, os.path.join(DRIVERS, "valijson_driver.cpp")]
    if not os.path.isdir("/usr/include/valijson") or output_of(*built) is None:
        return "valijson: libvalijson-dev or rapidjson-dev isn't installed, or g++ fails"
    asked = {"verdict": "the verdict alone, up to the first error", "errors": "all errors"}
    return Tool("valijson", package_version("libvalijson-dev"), 7, (program,), asked)


def ajv():
    """Debian's node-ajv, or one on NODE_PATH."""
    environment = {"NODE_PATH": os.pathsep.join(filter(None, (os.environ.get("NODE_PATH"), NODE_PATH)))}
    version = output_of("node", "-p", "require('ajv/package.json').version", **environment)
    if not version:
        return "ajv: node or node-ajv isn't installed"
    asked = {"verdict": "the verdict alone, up to the first error", "errors": "`allErrors`"}
    return Tool("ajv", version, 7, ("node", os.path.join(DRIVERS, "ajv_driver.js")), asked, environment)


def gojsonschema(folder):
    """Debian's golang-github-xeipuuv-gojsonschema-dev, compiled here."""
    program = os.path.join(folder, "gojsonschema_driver")
    environment = {"GO111MODULE": "off", "GOPATH": GO_PATH}
    built = ["go", "build", "-o", program, os.path.join(DRIVERS, "gojsonschema_driver.go")]
    if not shutil.which("go") or output_of(*built, **environment) is None:
        return "gojsonschema: go or golang-github-xeipuuv-gojsonschema-dev isn't installed"
    asked = {"verdict": "all errors: it has no other way", "errors": "all errors"}
    version = package_version("golang-github-xeipuuv-gojsonschema-dev")
    return Tool("gojsonschema", version, 7, (program,), asked)


def find_tools(program, folder, *others):
    """Those that are installed, and why each other one isn't there. `others` are named after the program."""
    found = [
        jschema(program),
        *others,
        of_python("jsonschema", 2020, {"verdict": "`is_valid`, up to the first error", "errors": "`iter_errors`"}),
        of_python("fastjsonschema", 7, {"verdict": "the verdict, up to the first error"}),
        valijson(folder),
        ajv(),
        gojsonschema(folder),
    ]
    return [it for it in found if isinstance(it, Tool)], [it for it in found if isinstance(it, str)]


def plain_version(version):
    """A version without Debian's own numbers."""
    return re.sub(r"(\+|-).*", "", version)
