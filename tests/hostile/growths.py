"""Each allocation refused in turn, over whole runs of the program: the parts `growth` and `arguments`."""
import series
from room import in_turn, preloaded, short
from tests.reference.jschema import USAGE

OUT_OF_MEMORY = b"", b"failed: Memory\n", 4
# What `main` answers out of memory before its command begins, and where no memory is left for a line.
SILENT = b"", b"", 4
MISUSED = b"", f"{USAGE}\n".encode(), 2


def growth(room):
    """Each allocation refused, alone and with all later ones: the answer is `Memory`, or the one with ample memory."""
    before_command = {}
    for case in room.chosen(series.growths()):
        own = case.wanted()
        got = []

        def judge_alone(answer, reported):
            got.append(answer)
            return judge(answer, reported, own, OUT_OF_MEMORY)

        count = in_turn(room, f"{case.name}, allocation", refusing(room, case), judge_alone)
        room.record(f"{case.name}, allocations before the command", judge_silent(got, len(case.words), before_command))
        in_turn(room, f"{case.name}, allocation and all later", refusing(room, case, REFUSE_ALL=1),
                lambda answer, reported: judge(answer, reported, own, SILENT))
        print(f"{case.name}: {count} allocations, each refused in turn", flush=True)


def refusing(room, case, **how):
    """Runs the case with the allocation of a number refused."""
    return lambda number: preloaded(room, room.program, case.words, case.given, REFUSE_NTH=number, **how)


def judge(got, reported, own, without_memory):
    """Judges a run that was refused an allocation. `own` is its answer with ample memory; `without_memory` may come in
    its place, with or without the line."""
    if got == own:
        return None
    if not reported:
        return f"nothing was refused; wanted {short(own)}, got {short(got)}"
    if got in (without_memory, SILENT):
        return None
    # The line of a refusal is allocated; a usage text isn't.
    if own[2] == 3 and got == (b"", b"", 3):
        return None
    return f"wanted {short(own)} or out of memory, got {short(got)}"


def judge_silent(got, arguments, before_command):
    """Judges the runs that were refused one allocation alone: each must write a line, except for the first ones, which
    `main` makes before its command. How many these are depends on the number of arguments; `before_command` keeps it.
    """
    silent = [number for number, it in enumerate(got, 1) if it == SILENT]
    if not silent:
        return "a line was written for each allocation, also for those of the arguments"
    if silent[-1] != len(silent):
        return f"no line was written for allocations {silent}"
    other = before_command.setdefault(arguments, len(silent))
    return None if other == len(silent) else f"{len(silent)} allocations, and {other} with as many arguments"


def arguments(room):
    """An argument that isn't UTF-8 is misuse, wherever it stands; so is such a name of the program."""
    for case in room.chosen(series.not_utf_8()):
        answer, _ = preloaded(room, room.program, case.words)
        room.judge(case.name, MISUSED, answer)
        for what, how in (("allocation", {}), ("allocation and all later", {"REFUSE_ALL": 1})):
            in_turn(room, f"{case.name}, {what}", refusing(room, case, **how), judge_misused)
    answer, _ = preloaded(room, b"\xff", [], executable=room.program)
    room.judge("the program's name isn't UTF-8", MISUSED, answer)
    answer, _ = preloaded(room, room.program, ["check", b"\xff"], FAIL_WRITE=1, WRITE_ON=2)
    room.judge("an argument that isn't UTF-8, and standard error fails", (b"", b"", 2), answer)


def judge_misused(got, reported):
    """Judges such a run that was refused an allocation. Before the arguments are read, that leaves no line."""
    if got == MISUSED or reported and got == SILENT:
        return None
    return f"wanted {short(MISUSED)}{' or out of memory' * bool(reported)}, got {short(got)}"
