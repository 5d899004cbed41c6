"""Tests of the scripts that run the Rattle kit: over fake kits."""
import os
from dataclasses import dataclass
from pathlib import Path

from script_checks import FAKES, SECONDS, Check
from tests.support.programs import HOME, TimeoutExpired, answer_of, no_end

BENCHES = {"benchmarks/finish": ["--most", "1000", "places"], "benchmarks/merge": ["alike"],
           "benchmarks/walk": ["items"]}
BENCH_CRATES = ("js_doc", "js_keyword", "js_assert", "js_bundle", "js_tree", "js_eval")


def of_benches(room):
    """Without a kit, with one that fails or hangs, and with a program that does."""
    home = room.copy("benches")
    for crate in BENCH_CRATES:
        for part in ("src", "specs", "proofs"):
            os.makedirs(os.path.join(home, "crates", crate, part))
    kits = {"no kit": (room.path_without_kit(), "needs the Rattle kit")}
    for name, body, says in (("a kit that fails", "echo 'not proved' >&2; exit 1", "not built:\n\nnot proved"),
                             ("a kit that hangs", "exec sleep 100", "not built: no end after 1 s")):
        kits[name] = os.path.dirname(room.executable(f"{name}/rt", body)) + os.pathsep + os.environ["PATH"], says
    for fake, says in (("crashes", "status -11"), ("hangs", "no end after 1 s"),
                       ("answers nothing", "answers|ValueError")):
        program = room.executable(f"fakes/{fake}", FAKES[fake][0])
        kit = room.executable(f"kit of a program that {fake}/rt",
                              f"mkdir -p out && cp '{program}' out/measure && echo 1")
        kits[f"a program that {fake}"] = os.path.dirname(kit) + os.pathsep + os.environ["PATH"], says
    for script, words in BENCHES.items():
        for name, (path, says) in kits.items():
            yield Check(f"{script}, {name}", [script, "--seconds", "1", *words], says, home, {"PATH": path},
                        has_count=False)


def fake_kit(room, name, rattle):
    """The environment with a kit whose prover does this, and whose rt knows no more than where the kit is."""
    rt = room.executable(f"{name}/bin/rt", """[ "$1" != doc ] || exec echo "${0%/bin/rt}/START-HERE.md"
echo "rt: $1"; exit 1""")
    room.executable(f"{name}/bin/rattle", rattle)
    room.executable(f"{name}/c/liblibc_c.a", "")
    return {"PATH": os.path.dirname(rt) + os.pathsep + os.environ["PATH"]}


def over_the_gate(room):
    """Over a kit that prints what it is asked for: the crates below the library for C, or below a benchmark, are taken
    as `rt ci` left them, unless a source has changed."""
    env = fake_kit(room, "fake kit", 'echo "rattle: $1"; exit 1')
    for name, is_of_gate, how in (("after rt ci", True, {}), ("a crate isn't built", False, {"without": "js_doc"}),
                                  ("rt lib built a crate", False, {"stamped": "js_bundle"}),
                                  ("a source was edited", False, {"edited": "js_assert"}),
                                  ("a crate that it doesn't use was edited", True, {"edited": "js_command"})):
        home = room.copy_with_crates(f"over the gate, {name}", **how)
        for script, by_rt, status in (("tools/build-library", "lib", 4), ("benchmarks/finish", "run", 1)):
            says = "rattle: build" if is_of_gate else f"rt: {by_rt}"
            yield Check(f"{script}, {name}", [script], says, home, env, has_count=False, status=status)


# What a check keeps: file and bytes. Functions, a cycle of calls, and a lemma file.
KEPT = {
    "Rattle-js_doc-proofs.token.escape.Lts.oantt": 3_000_000,
    "Rattle-js_doc-proofs.token.escape.Code.Mir.oantt": 1_000_000,
    "Rattle-js_doc-specs.contracts.token.escape.Key.oantt": 200_000,
    "Rattle-js_doc-proofs.conversion.+convert.Lts-convert_items.oantt": 5_000_000,
    "Rattle-js_doc-proofs.Alike.oantt": 800_000,
}
WANTED_SIZES = """js_doc: 10 MB, of which 8 MB are the tables of paths of 2 functions and cycles
    5.0    5.0  conversion.+convert
    4.2    3.0  token.escape
"""


@dataclass
class Sizes:
    """tools/kept-sizes over what a check would keep."""

    name: str
    home: str
    words: tuple = ("tools/kept-sizes",)

    def fault(self):
        folder = os.path.join(self.home, "crates", "js_doc", "out", "incremental", "antt-checked")
        os.makedirs(folder)
        for name, size in KEPT.items():
            with open(os.path.join(folder, name), "w") as file:
                file.truncate(size)
        try:
            out, errors, _ = answer_of([os.path.join(self.home, "tools", "kept-sizes"), "js_doc"], SECONDS)
        except TimeoutExpired as error:
            return no_end(error)
        return None if out.decode() == WANTED_SIZES else f"{out.decode()} {errors.decode()}"


def of_sizes(room):
    """What is kept of functions, and a crate of which nothing is kept."""
    home = room.copy("kept sizes")
    yield Sizes("tools/kept-sizes", home)
    yield Check("tools/kept-sizes, nothing kept", ["tools/kept-sizes", "js_tree"],
                "nothing is kept of js_tree: run rt check", home, has_count=False)
