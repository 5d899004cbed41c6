"""Tests of ./test and of tools/gate-times: over a fake rt, a fake prover, and logs of runs."""
import os
import re
import shutil
import sys
from dataclasses import dataclass
from pathlib import Path

from script_checks import SECONDS, Check
from tests.support.programs import HOME, TimeoutExpired, answer_of, no_end

# A fake gate: what a fake prover does, in the order of lines. A line has the crate, the folder of stored work, where it
# runs ('-' for none), and the seconds of a core that it takes; without these it sleeps for a second.
FAKE_GATE = """
js_doc - - 1.2
js_doc rt-edits-1 rt-edit-1 1.2
js_doc rt-edits-1 rt-edit-2
js_doc rt-edits-1 rt-edit-3
js_doc rt-edits-1 rt-edit-4 1.2

js_tree rt-edits-2/seed - 1.2
js_tree rt-edits-2/5 rt-edit-5
js_tree rt-edits-2/6 rt-edit-6

js_eval - rt-edit-7

js_assert out/incremental mutants-8/crates/js_assert 1.2
js_assert out/incremental mutants-8/crates/js_assert
"""
# The columns of gate-times: proof, build, tests, check, mutants, together, tried, each. Then those of the page: proof,
# check before mutants, mutants.
WANTED_TIMES = r"""
\| `js_doc` \| 1 \| 0 \| 0 \| [23] \| 0 \| 0 \| 3 \| 0 \|
\| `js_tree` \| 0 \| 0 \| 0 \| 1 \| 0 \| 0 \| 2 \| 0 \|
\| `js_eval` \| 0 \| 0 \| 0 \| 0 \| 0 \| 0 \| 1 \| 0 \|
\| `js_assert` \| 0 \| 0 \| 0 \| 0 \| 0 \| 1 \| 0 \|  \|
\| `js_doc` \| 1 \| [23] \| \|
\| `js_assert` \| \| \| 1 \|
"""
# Not rattle, whose processes count in the gate that this test runs in.
PROVER = "fake-rattle"
SPINS = "import sys, time\nwhile time.process_time() < float(sys.argv[1]): pass\ntime.sleep(float(sys.argv[2]))"


@dataclass
class Times:
    """tools/gate-times over a gate whose crates are checked side by side."""

    name: str
    folder: str
    words: tuple = ("tools/gate-times",)

    def script(self):
        """The gate, as the shell runs it."""
        yield f"'{HOME}/tools/gate-times' $$ {PROVER} & watch=$!"
        for lane in FAKE_GATE.strip().split("\n\n"):
            yield "("
            for crate, stored, folder, *seconds in map(str.split, lane.split("\n")):
                room = self.folder if folder == "-" else os.path.join(self.folder, folder)
                os.makedirs(room, exist_ok=True)
                numbers = f"{seconds[0]} 0" if seconds else "0 1"
                given = "" if stored == "-" else f"--incremental '{self.folder}/{stored}'"
                yield f"(cd '{room}' && '{self.folder}/{PROVER}' -c '{SPINS}' {numbers} --crate-name {crate} {given})"
            yield ") & lanes+=($!)"
        yield 'wait "${lanes[@]}"; kill -TERM $watch; wait $watch'

    def fault(self):
        os.makedirs(self.folder)
        os.symlink(sys.executable, os.path.join(self.folder, PROVER))
        try:
            out, errors, _ = answer_of(["bash", "-c", "\n".join(self.script())], SECONDS)
        except TimeoutExpired as error:
            return no_end(error)
        missing = [it for it in WANTED_TIMES.split("\n") if not re.search(it, out.decode())]
        return f"{missing} in {out.decode()} {errors.decode()}" if missing else None


def of_times(room):
    """How mutants are counted: over one folder in turn, each over a copy of a check, or one from nothing."""
    yield Times("tools/gate-times", os.path.join(room.folder, "gate with times"))


# The logs of two parts: the second by a gate-times with other columns, and below the message of a failed test.
LOGS = {
    "one.log": """commit: 0123456789abcdef
==== rt ci
2 passed, 0 failed
==== times
90 s: rt ci
10 s: tests/rows/run
| crate | proof | build | tests | check | mutants | together | tried | each |
|---|---:|---:|---:|---:|---:|---:|---:|---:|
| `js_doc` | 100 | 0 | 0 | 90 | 20 | 0 | 2 | 10 |
| `js_cli` | 0 | 0 | 0 | 0 | 7 | 0 | 1 | 7 |
| all | 100 | 0 | 0 | 90 | 27 | 0 | 3 | |
240 seconds of one core in all, 23 of them for other than proofs and builds; 3 minutes by the clock
2.4 times the proof of js_doc (100 s)
==== for CONTRIBUTING.md
| crate | proof | check before mutants | mutants |
|---|---:|---:|---:|
| `js_doc` | 100 | 90 | 20 |
| `js_cli` | | | 7 |
0 passed, 1 failed, 0 skipped
""",
    "other.log": """commit: 0123456789abcdef
FAILED tools/gate-times: | crate | proof | check before mutants | mutants |
|---|---:|---:|---:|
| `js_eval` | 1 | 1 | 1 |
9999 seconds of one core in all, 1 of them for other than proofs and builds; 99 minutes by the clock
==== times
5 s: tools/page-words
1360 seconds of one core in all, 60 of them for other than proofs and builds; 7 minutes by the clock
==== for CONTRIBUTING.md
| crate | proof | check before mutants | mutants |
|---|---:|---:|---:|
| `js_tree` | 1200 | | |
| `js_cli` | 80 | | 20 |
""",
    "cut off.log": "commit: 0123456789abcdef\n==== rt ci\njs_doc proved\n",
}
WANTED_PAGE = """before
<!-- gate times: begin -->
| crate | proof | check before mutants | mutants |
|---|---:|---:|---:|
| `js_doc` | 100 | 90 | 20 |
| `js_cli` | 80 | | 27 |
| `js_tree` | 1200 | | |

Together 1,600 seconds of one core, 16.0 times the proof of `js_doc`, 10 minutes by the clock, for 3 of the gate's 2 \
steps, at commit `01234567`.
<!-- gate times: end -->
after
"""


@dataclass
class Page:
    """tools/gate-times --write over two logs."""

    name: str
    home: str
    words: tuple = ("tools/gate-times",)

    def fault(self):
        page = Path(self.home, "CONTRIBUTING.md")
        page.write_text("before\n<!-- gate times: begin -->\nold\n<!-- gate times: end -->\nafter\n")
        try:
            _, errors, status = answer_of(["tools/gate-times", "--write", "one.log", "other.log"], SECONDS,
                                          cwd=self.home)
        except TimeoutExpired as error:
            return no_end(error)
        is_right = status == 0 and page.read_text() == WANTED_PAGE
        return None if is_right else f"status {status}: {page.read_text()} {errors.decode()}"


def of_logs(room):
    """The table of the logs of parts, and of a run that was cut off."""
    home = room.copy("gate's logs")
    Path(home, "test").write_text('steps=(\n    "rt ci"\n    "tests/rows/run"\n)\n')
    for name, text in LOGS.items():
        Path(home, name).write_text(text)
    yield Page("tools/gate-times --write", home)
    yield Check("tools/gate-times, a log", ["tools/gate-times", "one.log"], home=home, has_count=False,
                prints=r"^\| `js_doc` \| 100 \| 90 \| 20 \|\n\| `js_cli` \| \| \| 7 \|\n\n"
                       r"Together 240 seconds of one core, 2\.4 times .*, 3 minutes by the clock, "
                       r"for 2 of the gate's 2 steps, at commit `01234567`\.$")
    for name, says in (("cut off.log", "cut off.log: has no times: its run was cut off"), ("none.log", "No such file"),
                       ("--other", "PID")):
        yield Check(f"tools/gate-times {name}", ["tools/gate-times", "one.log", name], says, home, has_count=False,
                    status=1)


def of_gate(room):
    """./test over a fake rt: where the proofs fail, or come to no count, it fails and runs nothing more. The log of one
    that is cut off has times."""
    home = room.copy("gate")
    shutil.copy(os.path.join(HOME, "test"), home)
    yield Check("test, no kit", ["test"], "needs the Rattle kit", home,
                {"PATH": room.path_without_kit("bash", "dirname")})
    for name, body, says in (("fails", "echo '3 passed, 1 failed'; exit 1", "3 passed, 1 failed"),
                             ("ends with another status", "echo '3 passed, 0 failed'; exit 2", "3 passed, 1 failed"),
                             ("comes to no count", "echo proved", "rt ci came to no count")):
        rt = os.path.dirname(room.executable(f"gate's rt that {name}/rt", body))
        yield Check(f"test, an rt that {name}", ["test"], says, home, {"PATH": rt + os.pathsep + os.environ["PATH"]})
    home = room.copied(home, "a gate of one step")
    gate = Path(home, "test")
    gate.write_text(re.sub(r"^steps=\(\n.*?^\)", 'steps=("rt ci")', gate.read_text(), flags=re.S | re.M))
    named = "==== skipped\nrt ci: what needs a tool\n3 passed, 0 failed, 1 skipped\n"
    for name, body, says, prints in (
            ("skips nothing", "echo '3 passed, 0 failed'", "", "^3 passed, 0 failed, 0 skipped$"),
            ("skips by name", "echo 'skipped: what needs a tool\n3 passed, 0 failed, 1 skipped'", "", named),
            ("doesn't name what it skips", "echo '3 passed, 0 failed, 1 skipped'", "rt ci doesn't name", ""),
            ("doesn't count what it skips", "echo 'skipped: one\n3 passed, 0 failed'", "or doesn't count it", "")):
        rt = os.path.dirname(room.executable(f"gate's rt that {name}/rt", body))
        yield Check(f"test, a step that {name}", ["test"], says, home, {"PATH": rt + os.pathsep + os.environ["PATH"]},
                    prints=prints)
    rt = os.path.dirname(room.executable("gate's rt that ends it/rt",
                                         '[ "$1" != ci ] || { sleep 2; kill -TERM $PPID; }'))
    room.executable(os.path.join(home, "cut off"), "./test >out.txt 2>&1; echo status $?; cat out/gate.log")
    yield Check("test, cut off", ["cut off"], home=home, env={"PATH": rt + os.pathsep + os.environ["PATH"]},
                has_count=False, prints=r"^status 143\n(.*\n)*==== times\n(.*\n)*\d+ seconds of one core in all, ")
