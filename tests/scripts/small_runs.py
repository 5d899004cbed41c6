"""How the gate runs the commands of the pages that take too long, or change too much, as the pages show them."""
import os
import shutil
from dataclasses import dataclass

from tests.support.programs import HOME


@dataclass
class Small:
    """The same script, on little. `{folder}` stands for a temporary folder, and `{program}` for the built program."""

    command: str
    needs: tuple = ()

    def missing(self):
        """What it needs that isn't installed, or isn't built."""
        return [it for it in self.needs if not (os.path.exists(it) if "/" in it else shutil.which(it))]


@dataclass
class Step:
    """A step of ./test, which runs the command, or all that it would run."""

    name: str


# What tools/build-library makes.
LIBRARY = os.path.join(HOME, "out", "lib", "libjschema.a")

# What tools/build-wasm makes.
MODULE = os.path.join(HOME, "out", "wasm", "jschema.wasm")

# For each command of a block ```sh, what runs it. A command may need what those before it on its page made.
RUN_BY = {
    "benchmarks/cases /tmp/cases": Small("benchmarks/cases {folder}/measured --items 2"),
    "benchmarks/instructions /tmp/cases --write":
        Small("benchmarks/instructions {folder}/measured --only events --program {program}", ("valgrind", "time")),
    "benchmarks/calls --write":
        Small("benchmarks/calls --only '11 bytes' --each 0.01 --program {program}", (LIBRARY, "cc")),
    "benchmarks/command --write": Small("benchmarks/command --files 3 --rounds 1 --only files", (LIBRARY,)),
    "benchmarks/page": Small("benchmarks/page --rounds 1", (MODULE, "chromium", "chromedriver", "esbuild")),
    "benchmarks/compare/cases /tmp/cases": Small("benchmarks/compare/cases {folder}/compared"),
    "benchmarks/compare/run /tmp/cases --write":
        Small("benchmarks/compare/run {folder}/compared --only records --rounds 1 --seconds 1 --program {program}"),
    "benchmarks/compare/features --write":
        Small("benchmarks/compare/features 2020-12 endless-reference --program {program}"),
    "apt-get install libtest-json-schema-acceptance-perl": Small("true", ("apt-get",)),
    "suite=/usr/share/perl5/auto/share/dist/Test-JSON-Schema-Acceptance": Small("true"),
    "tests/conformance/run $suite": Step("tests/conformance/test"),
    "tests/conformance/run $suite --optional --output --meta-schema --schemas tests/rows":
        Step("tests/conformance/test"),
    "tests/conformance/run $suite --draft draft7": Step("tests/conformance/test"),
    "tests/conformance/run $suite --draft draft2019-09 --optional --list": Step("tests/conformance/test"),
    "tests/random/run --draft draft7 --count 1000": Step("tests/random/run --draft all --count 20"),
    "time ./jschema places": Step("tests/scripts/test_jschema"),
    "time taskset -c 0,1 ./jschema places": Step("tests/scripts/test_jschema"),
    "tools/gate-times --write out/gate.log": Step("tests/scripts/test_scripts"),
    "rt ci js_doc & tools/gate-times $! >doc.log": Step("tests/scripts/test_scripts"),
    "rt ci js_upgrade & tools/gate-times $! >upgrade.log": Step("tests/scripts/test_scripts"),
    "tools/gate-times --write doc.log upgrade.log": Step("tests/scripts/test_scripts"),
    "rt test": Step("rt ci"),
    "../../tests/hostile/run single": Step("tests/hostile/run"),
    "tests/random/run --seed 1 --count 1000": Small("tests/random/run --seed 1 --count 3 --program {program}"),
    "tests/random/run --seed 1 --only 17": Small("tests/random/run --seed 1 --only 17 --program {program}"),
    "tests/fuzz/run --seed 1 --count 1000": Small("tests/fuzz/run --seed 1 --count 3 --program {program}"),
    "tests/fuzz/run --seed 1 --minutes 60": Small("tests/fuzz/run --seed 1 --minutes 0.02 --program {program}"),
    "tests/fuzz/run --seed 1 --only 17": Small("tests/fuzz/run --seed 1 --only 17 --program {program}"),
    "tests/hostile/run": Step("tests/hostile/run"),
    "tests/hostile/run growth slow": Step("tests/hostile/run"),
    "tests/hostile/run growth --only polygon": Step("tests/hostile/run"),
    "tests/hostile/run --times large limits":
        Small("tests/hostile/run --times --only 'a pair' limits slow --program {program}"),
    "tools/build-library": Step("bindings/c/test --build"),
    "cc -Iout/include bindings/c/tests/person.c out/lib/libjschema.a -o out/person && out/person":
        Small("cc -Iout/include bindings/c/tests/person.c out/lib/libjschema.a -o {folder}/person && {folder}/person",
              (LIBRARY,)),
    "tools/build-wasm": Step("bindings/javascript/test --build"),
    "(cd bindings/javascript && npm pack)": Step("bindings/javascript/test --build"),
    "tools/install ~/.local": Step("tests/scripts/test_install"),
    "jschema-upgrade https://example.com/person old/person.json >person.json": Step("tests/upgrade/run"),
    "jschema-upgrade --default-dialect draft-07 --into new urn:person old/person.json urn:people old/people.json":
        Step("tests/upgrade/run"),
    "pip install ./bindings/python": Step("bindings/python/test"),
    "pip install './bindings/python[yaml]'": Step("bindings/python/test"),
    "PYTHONPATH=bindings/python python3 examples/dask_validate.py --schema examples/person.schema.json --workers 2 "
    "examples/ada.json": Step("bindings/python/test"),
}
