"""Tests of tests/mutants/run: over fakes of the kit and its prover."""
import os
from pathlib import Path

from kit_checks import fake_kit
from script_checks import Check

SCRIPT = "tests/mutants/run"
# A fake rt for two functions: `check` answers by what is written in each, and `must-fail` refuses nothing.
FAKE_RT = r"""[ "$1" = must-fail ] && for edit in "crates/$2/must-fail"/*; do
    echo "rt: must-fail $2/${edit##*/}: NOT REFUSED: the crate is still proved"
done
for one in first second; do
    if ! grep -q "wrong_$one" src/ends.rt; then echo "fn js_doc::ends::$one: proved"; else %s; fi
done 2>/dev/null
echo only=2 proved=1"""
REFUSES = 'echo "fn js_doc::ends::$one: no proof: expected answers in ..; \\`search\\` did not prove \\`returns\\`"'
ANSWERS = 'printf "./proofs/ends/$one/Answers.antt:1:1: error: %s\\nfn js_doc::ends::$one: not proved\\n" "{}"'
# An `rt must-fail` that answers each edit so, and has to find the library that `rt lib` made.
SAYS = r"""[ -e crates/js_doc/out/rlib/stamp ] && [ ! -e crates/js_doc/out/incremental ] || exit 1
for edit in first second; do printf "rt: must-fail js_doc/$edit.edit: %s\\n"; done"""
SAYS_OF_EACH = r"""for edit in "crates/$2/must-fail"/*; do
    echo "rt: must-fail $2/${edit##*/}: refused, as it must be"
done; [ "$(ls "crates/$2/must-fail" | wc -l)" = 1 ]"""
# A fake rt whose `check` says this of a crate with an edit, and whose `must-fail` refuses nothing.
FAKE_WHOLE = r"""[ "$1" = must-fail ] && for edit in "crates/$2/must-fail"/*; do
    echo "rt: must-fail $2/${edit##*/}: NOT REFUSED: the crate is still proved"
done
[ "$1" = check ] && if grep -q wrong_ src/ends.rt; then printf '%s'; else echo logic=proved functions=2; fi"""
AT_LIMIT = "; `search` gave up at one of its limits"
CALLS_IT = 'echo "fn js_doc::ends::$one: no proof: it calls \\`js_doc::ends::other\\`, which is not proved"'
DOES_NOT_COMPILE = 'echo "error[type]: src/ends.rt:1:1"; exit 1'


# A fake rt whose `check` refuses these goals, one a line, of a function whose arms are the variants Red and Blue.
FAKE_ARMS = r"""[ "$1" = check ] || exit 1
if ! grep -q wrong_ src/arms.rt || [ -z '{0}' ]; then
    echo 'fn js_doc::arms::colour: proved'; echo 'only=1 proved=1'; exit
fi
for goal in {0}; do echo "note: src/arms.rt:1:1: it is not proved that it holds when it returns (\`$goal\`)"; done
echo 'fn js_doc::arms::colour: not proved'; echo 'only=1 proved=0'"""
ARMS = """fn colour() {
    match it {
        Colour::Red(_) => 1,
        Colour::Blue { shade } => {
            2
        }
    }
}
"""
# A fake prover: the second function calls the first.
FAKE_CALLER = r"""is_wrong() { grep -q "wrong_$1" src/ends.rt; }
refuse() { echo "fn js_doc::ends::$1: no proof: expected answers in ..; \`search\` did not prove \`returns\`"; }
if is_wrong first; then refuse first; else echo 'fn js_doc::ends::first: proved'; fi
if is_wrong first; then echo 'fn js_doc::ends::second: no proof: it calls `js_doc::ends::first`, which is not proved'
elif is_wrong second; then refuse second; else echo 'fn js_doc::ends::second: proved'; fi
echo only=2 proved=1"""


def write_edit(home, crate, name, *changes):
    """An edit of a crate: its file in src/, and pairs of an old and a new text."""
    path, *pairs = changes
    folder = Path(home, "tests/mutants", crate)
    folder.mkdir(parents=True, exist_ok=True)
    lines = [f"file: src/{path}", *(f"old: {old}\nnew: {new}" for old, new in pairs)]
    (folder / f"{name}.edit").write_text("\n".join(lines) + "\n")


def write_source(home, crate, name, text):
    folder = Path(home, "crates", crate, "src")
    folder.mkdir(parents=True, exist_ok=True)
    (folder / name).write_text(text)


def write_bodies(home, crate, first="right_first"):
    """Two functions of a crate, and a wrong body for each."""
    bodies = {"first": first, "second": "right_second"}
    text = "\n".join(f"fn {name}() {{\n    {body}\n}}\n" for name, body in bodies.items())
    write_source(home, crate, "ends.rt", text)
    for one in ("first", "second"):
        write_edit(home, crate, one, "ends.rt", (f"right_{one}", f"wrong_{one}"))


def of_mutants(room):
    """Over fakes of rt: an edit passes only where the function that it is in is refused for its contract."""
    right, wrong = room.copy("mutants"), room.copy("mutants of what isn't proved")
    write_bodies(right, "js_doc")
    write_bodies(wrong, "js_doc", "wrong_first")
    for home in (right, wrong):
        for folder in ("rlib", "incremental"):
            os.makedirs(os.path.join(home, "crates/js_doc/out", folder))
        Path(home, "crates/js_doc/out/rlib/stamp").touch()
    missing = os.path.join(room.folder, "none")
    for words in ([SCRIPT], [SCRIPT, "--quick"], [SCRIPT, "--together"]):
        yield Check(f"{' '.join(words)}, no rt", words, f"{missing}: No such file", right, {"RT": missing})
    yield from one_by_one(room, right)
    yield from many_together(room, right, wrong)
    yield from of_arms(room)
    yield from of_callers(room)
    yield from over_what_is_kept(room, right, wrong)
    yield from of_rows(room)
    yield from of_listed(room)


def one_by_one(room, home):
    """Each edit by `rt must-fail`."""
    proving = room.executable("rt/proves all", FAKE_RT % 'echo "fn js_doc::ends::$one: proved"')
    for words in ([SCRIPT], [SCRIPT, "--jobs", "2"]):
        yield Check(f"{' '.join(words)}, an rt that proves all", words, "0 passed, 2 failed", home, {"RT": proving})
    for says, failure in (("refused, as it must be", ""),
                          ("refused, as it must be: ./proofs/ends/Answers.antt:1:1: no", ""),
                          ("refused, as it must be (only because a proof file names it)", "FAILED js_doc/second.edit"),
                          ("BAD EDIT: it did not reach the prover\\nerror: ends.rt", "FAILED(.|\n)*error: ends.rt"),
                          ("NOT REFUSED: the crate is still proved", "FAILED js_doc/first.edit: NOT REFUSED")):
        rt = room.executable(f"rt/says {says[:30]} {len(says)}", SAYS % says)
        yield Check(f"{SCRIPT}, an rt that says '{says}'", [SCRIPT], failure, home, {"RT": rt})
    rt = room.executable("rt/refuses what is there", SAYS_OF_EACH)
    yield Check(f"{SCRIPT} --jobs 2, an rt that refuses", [SCRIPT, "--jobs", "2"], "", home, {"RT": rt})


def many_together(room, home, wrong):
    """Two edits, each of a function of its own, in one check. What isn't refused so fails with --together, and is tried
    by `rt must-fail` with --quick."""
    for name, is_refused, body in (("proves all", False, 'echo "fn js_doc::ends::$one: proved"'),
                                   ("refuses each", True, REFUSES),
                                   ("refuses answers", True, ANSWERS.format("another type")),
                                   ("refuses names alone", False, ANSWERS.format("it has no field")),
                                   ("refuses callers alone", False, CALLS_IT),
                                   ("can't compile it", False, DOES_NOT_COMPILE)):
        env = {"RT": room.executable(f"rt/{name}", FAKE_RT % body)}
        for way, says in (("--quick", "NOT REFUSED"), ("--together", "FAILED js_doc/first.edit")):
            yield Check(f"{SCRIPT} {way}, an rt that {name}", [SCRIPT, way], "" if is_refused else says, home, env)
    refuses = {"RT": room.executable("rt/refuses each", FAKE_RT % REFUSES)}
    for way in ("--quick", "--together"):
        yield Check(f"{SCRIPT} {way}, a crate that isn't proved", [SCRIPT, way], "isn't proved without them", wrong,
                    refuses)
    harmless = room.copied(home, "a mutant that means the same")
    write_edit(harmless, "js_doc", "second", "ends.rt", ("right_second", "also_right"))
    yield Check(f"{SCRIPT} --together, a mutant that means the same", [SCRIPT, "--together"],
                "FAILED js_doc/second.edit: proved\n(.|\n)*1 passed, 1 failed", harmless, refuses)
    old = room.copied(home, "an old text that is gone")
    write_edit(old, "js_doc", "second", "ends.rt", ("gone", "wrong_second"))
    yield Check(f"{SCRIPT} --together, an old text that is gone", [SCRIPT, "--together"],
                "FAILED js_doc/second.edit: an old text doesn't stand(.|\n)*1 passed, 1 failed", old, refuses)
    empty = room.copied(home, "no mutant")
    for it in Path(empty, "tests/mutants/js_doc").iterdir():
        it.unlink()
    yield Check(f"{SCRIPT} --together, no mutant", [SCRIPT, "--together", "js_doc"], "^0 passed, 0 failed", empty,
                refuses, has_count=False)


def of_arms(room):
    """Two edits of one function, in two arms of a match: each needs a goal of its own arm. Two of one arm are tried one
    after the other."""
    home = room.copy("mutants of arms")
    write_source(home, "js_doc", "arms.rt", ARMS)
    write_edit(home, "js_doc", "red", "arms.rt", ("=> 1,", "=> wrong_1,"))
    write_edit(home, "js_doc", "blue", "arms.rt", ("            2", "            wrong_2"))
    one_arm = room.copied(home, "mutants of one arm")
    write_edit(one_arm, "js_doc", "blue", "arms.rt", ("=> 1,", "=> wrong_2,"))
    for name, goals, says, prints in (("both arms", "returns-in-Red returns-in-Blue", "", "2 edits in 1 checks"),
                                      ("one arm", "returns-in-Red", "", "2 edits in 2 checks"),
                                      ("an arm of a longer name", "returns-in-Redder", "", "2 edits in 3 checks"),
                                      ("no arm", "", "0 passed, 2 failed", "")):
        env = {"RT": room.executable(f"rt/refuses {name}", FAKE_ARMS.format(goals))}
        yield Check(f"{SCRIPT} --together, a prover that refuses {name}", [SCRIPT, "--together"], says, home, env,
                    prints=prints)
        if goals:
            yield Check(f"{SCRIPT} --together, two edits of an arm, {name}", [SCRIPT, "--together"], "", one_arm, env,
                        prints="2 edits in 2 checks")


def of_callers(room):
    """A function that calls another one is judged beside the right one."""
    home = room.copy("mutants of a caller")
    write_bodies(home, "js_doc")
    env = {"RT": room.executable("rt/has a caller", FAKE_CALLER)}
    yield Check(f"{SCRIPT} --together, a caller", [SCRIPT, "--together"], "", home, env,
                prints="2 edits in 2 checks")


def over_what_is_kept(room, home, wrong):
    """Each edit over the whole crate, from what a check kept."""
    refuses, ends = "note: src/ends.rt:2:1: it is not proved", r"\nlogic=not-proved\nrt: what to do next\n"
    for name, says, printed in (("proves all", "NOT REFUSED", "logic=proved functions=2"),
                                ("refuses each", "", refuses + ends),
                                ("refuses answers", "", "./proofs/ends/Answers.antt:1:1: error: another type" + ends),
                                ("refuses names alone", "NOT REFUSED",
                                 "./proofs/ends/Answers.antt:1:1: error: it has no field" + ends),
                                ("can't read it", "NOT REFUSED", "src/ends.rt:1:1: error: no such name" + ends),
                                ("comes to no verdict", "NOT REFUSED", refuses)):
        env = {"RT": room.executable(f"rt/whole {name}", FAKE_WHOLE % printed)}
        yield Check(f"{SCRIPT} --kept, an rt that {name}", [SCRIPT, "--kept"], says, home, env)
    for name, prints, printed in (("meets limits", "2 of 2 refused, 2 at a limit", refuses + AT_LIMIT + ends),
                                  ("meets a limit and refuses", "2 of 2 refused$",
                                   refuses + AT_LIMIT + r"\n" + refuses + ends)):
        env = {"RT": room.executable(f"rt/whole {name}", FAKE_WHOLE % printed)}
        yield Check(f"{SCRIPT} --kept, an rt that {name}", [SCRIPT, "--kept"], "", home, env, prints=prints)
    yield Check(f"{SCRIPT} --kept, a crate that isn't proved", [SCRIPT, "--kept"], "NOT REFUSED", wrong,
                {"RT": room.executable("rt/whole refuses each", FAKE_WHOLE % (refuses + ends))})
    home = room.copy_with_crates("mutants over the gate")
    write_bodies(home, "js_tree")
    env = fake_kit(room, "kit that refuses each", "mkdir -p out/incremental; " + FAKE_WHOLE % (refuses + ends))
    yield Check(f"{SCRIPT} --kept, over the libraries of the gate", [SCRIPT, "--kept"], "", home, env)


def of_rows(room):
    """Each row of a crate's tables needs an edit of its name."""
    home = room.copy("mutants of rows")
    specs = Path(home, "crates/js_assert/specs")
    specs.mkdir(parents=True)
    write_source(home, "js_assert", "ends.rt", "fn first() {\n    right_first\n}\n")
    env = {"RT": room.executable("rt/refuses each of js_assert", (FAKE_RT % REFUSES).replace("js_doc", "js_assert"))}
    write_edit(home, "js_assert", "max-items-is-wrong", "ends.rt", ("right_first", "wrong_first"))
    yield Check(f"{SCRIPT}, no table", [SCRIPT, "--together"], r"after any_type_says \(no row\)", home, env)
    home = room.copied(home, "mutants of two rows a file")
    for file, family in (("AnyType", "any_type"), ("Numbers", "number"), ("Strings", "string"), ("Arrays", "array"),
                         ("Objects", "object")):
        rows = f"  {family}_says MaxItems v = 1\n{family}_text argument MaxItems = 1\n"
        Path(home, f"crates/js_assert/specs/{file}.antt").write_text(rows)
    words = [SCRIPT, "--together"]
    yield Check(f"{SCRIPT}, a row without an edit", words, "named after any_type_text MaxItems of", home, env)
    home = room.copied(home, "a mutant of each row")
    write_edit(home, "js_assert", "max-items-text-is-wrong", "ends.rt", ("right_first", "wrong_first"))
    yield Check(f"{SCRIPT}, a mutant of each row", words, "", home, env, prints="10 rows of its tables")
    home = room.copied(home, "a mutant of one row")
    Path(home, "tests/mutants/js_assert/max-items-is-wrong.edit").unlink()
    yield Check(f"{SCRIPT}, a row that another one's edit begins like", words,
                "named after any_type_says MaxItems of", home, env)


def of_listed(room):
    """What is named, or what gate.txt lists, and nothing else."""
    env = {"RT": room.executable("rt/refuses what is listed", FAKE_RT % REFUSES)}
    for number, (listed, says, prints) in enumerate((("# of both\njs_doc/second\n", "", "^js_doc: 1 of 1 refused"),
                                                     ("js_doc\n", "", "^js_doc: 2 of 2 refused"),
                                                     ("js_doc/none\n", "js_doc/ has no none.edit", ""),
                                                     ("# nothing\n", "^0 passed, 0 failed", ""))):
        home = room.copy(f"mutants of list {number}")
        write_bodies(home, "js_doc")
        Path(home, "tests/mutants/gate.txt").write_text(listed)
        yield Check(f"{SCRIPT} --gate, {listed!r}", [SCRIPT, "--gate"], says, home, env, not says, prints=prints)
    yield Check(f"{SCRIPT} --together, one of two", [SCRIPT, "--together", "js_doc/first"], "", home, env,
                prints="^js_doc: 1 of 1 refused")
    yield Check(f"{SCRIPT} --gate, a name", [SCRIPT, "--gate", "js_doc"], "--gate takes no names", home, env, False)
