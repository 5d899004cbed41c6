"""Single calls, made by a test, with each allocation refused in turn: the part `single`."""
import os

import answers
import asked
import hand_made
import questions
from room import in_turn, preloaded, short
from tests.support.programs import HOME

TESTS = os.path.join(HOME, "crates", "js_tests", "out", "js_tests_tests")
ONE_CALL = "calls::by_itself"
PASSED = b"\ntest result: ok\n"


def single(room):
    """Questions to a test: those of a table at once; those whose calls don't allocate with all memory refused; and the
    others one by one, with each allocation refused in turn."""
    for table in (*answers.tables(), *asked.tables(), *hand_made.tables()):
        quiet = [it for it in table.questions if it.is_quiet]
        ask(room, f"{table.name}, at once", table, table.questions)
        if quiet:
            ask(room, f"{table.name}, without memory", table, quiet, REFUSE_NTH=1, REFUSE_ALL=1, REFUSE_MARKED=1)
        refusals = [refuse_in_turn(room, table, [it], it.refused + questions.RECORD)
                   for it in table.questions if it.in_turn]
        if table.marked != "none":
            refused = "Memory" + questions.RECORD + questions.answers(table.questions)
            refusals.append(refuse_in_turn(room, table, table.questions, refused))
        in_turn = f"; {sum(refusals)} allocations of {len(refusals)} calls, each refused in turn" * bool(refusals)
        print(f"{table.name}: {len(table.questions)} questions, {len(quiet)} of them without memory{in_turn}",
              flush=True)


def ask(room, name, table, asked_now, **refusals):
    """Asks questions of a table at once. None may be refused an allocation."""
    got, reported = one_run(room, table, asked_now, **refusals)
    wrong = judge_answer(questions.answers(asked_now), None, got, reported)
    if wrong and not got[2]:
        pairs = zip(asked_now, got[0].split(questions.RECORD))
        wrong = next((f"{short(it.words)}: wanted {short(it.answer)}, got {short(answer)}"
                      for it, answer in pairs if it.answer != answer), wrong)
    room.record(name, wrong or reported and "it asked for memory")


def refuse_in_turn(room, table, asked_now, refused):
    """Asks with each allocation of the marked calls refused in turn; answers how many there are."""
    name = f"{table.name}, {short(asked_now[0].words)}"
    own = questions.answers(asked_now)
    return in_turn(room, name, lambda number: one_run(room, table, asked_now, REFUSE_NTH=number, REFUSE_MARKED=1),
                   lambda got, reported: judge_answer(own, refused, got, reported))


def one_run(room, table, asked_now, **env):
    """What the test answers, without the line with which each test ends that passes."""
    words = [ONE_CALL, table.marked]
    (out, marks, status), reported = preloaded(room, room.tests, words, table.given(asked_now), **env)
    return (out.removesuffix(PASSED).decode(), marks, status if out.endswith(PASSED) else status or 1), reported


def judge_answer(own, refused, got, reported):
    """Why an answer is wrong: it must be this one, or where an allocation was refused, the refused one."""
    out, marks, status = got
    if status or marks.strip(b"<>") or out != own and (not reported or out != refused):
        return f"wanted {short(own)}{f' or {short(refused)}' * bool(reported)}, got {short(got)}"
    return None
