"""Tests of the scripts that test and time the library for C and the packages for Python and JavaScript: over fakes."""
import os
import shutil
import subprocess
from dataclasses import dataclass
from pathlib import Path

from benchmarks.turns import Noisy, in_turns
from script_checks import FAKES, Check
from tests.support.programs import HOME, skip

# How a fake library for C is compiled (bindings/c/tests/fake.c), and what its tests must say of it.
FAKE_LIBRARIES = {
    "crashes": (["-DACT=abort()"], "-6"),
    "hangs": (["-DACT=sleep(100)"], "no end after 1 s"),
    "answers nothing": ([], "FAILED"),
    "answers another row's text": ([r'-DANSWER="{\"valid\":false}\n"'], "FAILED"),
    "refuses everything": (["-DSTATUS=3", r'-DANSWER="refused: document 0 at \"\": NotJson"'], "FAILED"),
    "is valid in the right shape": (["-DRIGHT_SHAPE"], "FAILED"),
}


RIGHT_SHAPE = "is valid in the right shape"
SUITE = "/usr/share/perl5/auto/share/dist/Test-JSON-Schema-Acceptance"
# What a fake module for JavaScript does, and what each part of its tests must say of it.
OF_ROW = r"rows\.test\.js:\d+:\d+\n\S+ (polygon|annotated_property)/\w+, \w+ "
FAKE_MODULES = {
    "crashes": ({"act": "(unreachable)"}, {"node": OF_ROW, "suite": "FAILED suite: the module has stopped"}),
    "hangs": ({"act": "(loop $forever (br $forever))"},
              {"node": "no end after 1 s", "suite": "FAILED suite: no end after 1 s", "package": "no end after 1 s"}),
    "answers nothing": ({}, {"node": OF_ROW, "suite": r"FAILED \S+\.json "}),
    "answers another row's text": ({"texts": ['{"valid":false}\n'] * 3}, {"node": OF_ROW}),
    "refuses everything": ({"status": 3, "texts": ['refused: document 0 at "": NotJson\n'] * 3},
                           {"node": OF_ROW, "suite": "FAILED suite: the module has stopped"}),
    RIGHT_SHAPE: ({"texts": ['{"valid":true}\n', '{"annotations":[],"valid":true}\n',
                             '{"absoluteKeywordLocation":"a:b#","instanceLocation":"","keywordLocation":"",'
                             '"valid":true}\n']},
                  {"node": OF_ROW, "suite": r"FAILED \S+\.json ", "package": "what it says"}),
}


@dataclass
class Turns:
    """benchmarks/calls takes turns until no call is faster than the one inside it, and fails where it stays so."""

    name: str
    words: tuple = ("benchmarks/calls",)

    def fault(self):
        outer, inner = iter([(4, 5), (3, 3), (6, 6), (4, 4)]), iter([(9, 9), (8, 8), (7, 8), (2, 3)])
        found = in_turns({"outer": lambda: next(outer), "inner": lambda: next(inner), "absent": lambda: None},
                         [("outer", "inner")])
        if found != {"outer": (3, 3), "inner": (2, 3), "absent": None} or next(outer, None):
            return f"it took {found}"
        try:
            in_turns({"outer": lambda: (1, 1), "inner": lambda: (2, 2)}, [("outer", "inner")])
        except Noisy as fault:
            return None if str(fault) == "after 30 turns outer is faster than inner inside it" else str(fault)
        return "a call that stays faster than the one inside it is taken"


def of_callers(room):
    """What tests the library for C and the Python package, and what times their calls: over fakes."""
    missing, right = os.path.join(room.folder, "none"), os.path.join(HOME, "tests/reference/jschema.py")
    # (A copy has no library.)
    home = room.copy("callers")
    python = ["bindings/python/test", "--seconds", "1", "test_usage", "--program"]
    yield Check("bindings/python/test, no program", [*python, missing], f"no program at {missing}", home)
    for fake, (body, says) in FAKES.items():
        yield Check(f"bindings/python/test, a program that {fake}", [*python, room.executable(f"fakes/{fake}", body)],
                    says if fake == "hangs" else "errors=1|failures=1", home)
    yield Check("bindings/python/test, a program that is right",
                ["bindings/python/test", "test_usage", "--program", right], home=home,
                prints="^skipped: the engine of the library(.|\n)* 1 skipped$")
    yield Check("bindings/python/test, no library where it is named", [*python, right, "--library", missing],
                f"no library at {missing}", home)
    yield Check("bindings/python/test, no such module", ["bindings/python/test", "none", "--program", right],
                "No module named", home)
    compiles = shutil.which("cc") is not None
    for script in ("bindings/c/test", "benchmarks/calls"):
        if script == "benchmarks/calls" or compiles:
            yield Check(f"{script}, no program", [script, "--program", missing], f"no program at {missing}", home)
            yield Check(f"{script}, no library", [script, "--program", right], "no library|needs the library", home,
                        has_count=False)
    test = ["bindings/c/test", "--program", right]
    for name in ("CC", "CXX"):
        yield Check(f"bindings/c/test, no compiler where {name} names one", test,
                    f"no compiler none, which {name} names", home, {name: "none"})
    yield Check("bindings/c/test, no such part", [*test, "none"], "no part none", home, has_count=False)
    yield Check("bindings/c/test, no compiler", test, home=home, prints=" 1 skipped$",
                env={"PATH": room.path_without_kit()})
    yield from of_javascript(room)
    yield Turns("benchmarks/calls, in turns")
    if compiles:
        yield from over_libraries(room, right)
    else:
        skip("bindings/c/test over libraries that are wrong: no compiler")


def of_javascript(room):
    """What tests the JavaScript package: over modules that are wrong (bindings/javascript/tests/fake.wat)."""
    missing, program = os.path.join(room.folder, "none"), room.executable("fakes/valid", FAKES[RIGHT_SHAPE][0])
    home = room.copy("module")
    test = ["bindings/javascript/test", "--program", program]
    yield Check("bindings/javascript/test, no node", test, home=home, prints=" 1 skipped$",
                env={"PATH": room.path_without_kit()})
    tools = ("node", "wasm-opt", "wasm-as")
    if lacking := [it for it in tools if shutil.which(it) is None]:
        skip(f"bindings/javascript/test over modules that are wrong: not installed: {', '.join(lacking)}")
        return
    yield Check("bindings/javascript/test, no program", [*test[:2], missing], f"no program at {missing}", home)
    yield Check("bindings/javascript/test, no module", test, "no module", home)
    yield Check("bindings/javascript/test, no such part", [*test, "none"], "no part none", home, has_count=False)
    for fake, (values, said) in FAKE_MODULES.items():
        wrong = room.copied(home, f"module that {fake}")
        write_module(wrong, **values)
        for part, says in said.items():
            if part != "suite" or os.path.isdir(SUITE):
                yield Check(f"bindings/javascript/test {part}, a module that {fake}",
                            [*test, "--seconds", "1" if fake == "hangs" else "120", part], says, wrong)


def write_module(home, act="", status=0, texts=("", "", "")):
    """Writes a module that is wrong where the package looks for it."""
    source = Path(HOME, "bindings/javascript/tests/fake.wat").read_text()
    values = {"act": act, "status": str(status), **dict(zip(("flag", "basic", "other"), map(with_length, texts)))}
    for name, value in values.items():
        source = source.replace(f"{{{name}}}", value)
    made = Path(home, "out/wasm/jschema.wasm")
    made.parent.mkdir(parents=True)
    made.with_suffix(".wat").write_text(source)
    subprocess.run(["wasm-as", "--enable-bulk-memory", made.with_suffix(".wat"), "-o", made], check=True)


def with_length(text):
    """A text behind its length, as data of a module has it."""
    return "".join(f"\\{it:02x}" for it in len(text).to_bytes(4, "little") + text.encode())


def over_libraries(room, program):
    """What tests the library for C, over fake ones."""
    for fake, (flags, says) in FAKE_LIBRARIES.items():
        home = room.copy(f"library that {fake}")
        library, include = os.path.join(home, "out", "lib"), os.path.join(home, "out", "include")
        os.makedirs(library)
        os.makedirs(include)
        shutil.copy(os.path.join(HOME, "bindings/c/jschema.h"), include)
        compiler = ["cc", "-fPIC", *flags, "-I", include, os.path.join(HOME, "bindings/c/tests/fake.c"), "-o"]
        subprocess.run([*compiler, os.path.join(library, "libjschema.so"), "-shared"], check=True)
        subprocess.run([*compiler, os.path.join(library, "libjschema.a"), "-c"], check=True)
        # (Of a library that hangs each measurement would take its time.)
        for part in ("rows", "calls", "memory", "threads", "refused", *(["need"] if fake != "hangs" else [])):
            yield Check(f"bindings/c/test {part}, a library that {fake}",
                        ["bindings/c/test", "--seconds", "1", "--program", program, part], says, home, env={"CC": "cc"})
    os.symlink("libjschema.so", os.path.join(library, "libjschema.so.0"))
    yield Check("benchmarks/calls, no such case", ["benchmarks/calls", "--only", "nosuch", "--program", program],
                "no case has 'nosuch' in its name", home, {"CC": "cc"}, has_count=False)
    hanging = room.executable("fakes/hangs", FAKES["hangs"][0])
    yield Check("bindings/c/test rows, a program that hangs",
                ["bindings/c/test", "--seconds", "1", "--program", hanging, "rows"], "no end after 1 s", home)
