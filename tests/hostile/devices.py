"""Devices that fail, in whole runs of the program: the parts `devices`, `files` and `slow`."""
import cases
import series
from room import in_turn, preloaded, short
from tests.support.programs import answer_of

NO_READ, NO_WRITE = b"failed: Read\n", b"failed: Write\n"
TOO_LARGE = b"refused: input: InputTooLarge\n"
FILE = f"{cases.U} {cases.U} schema.json"
# A name, a line of bash in which $1 is the program, its status, and what stands on standard error.
LINES = (
    ("a closed output", '"$1" <pair >&-', 4, NO_WRITE),
    ("a full device", '"$1" <pair >/dev/full', 4, NO_WRITE),
    ("a full device, an invalid instance", '"$1" <false >/dev/full', 4, NO_WRITE),
    ("a pipe that is closed", 'exec 3> >(:); wait $!; "$1" <pair >&3', 4, NO_WRITE),
    ("a closed input", '"$1" <&-', 4, NO_READ),
    ("an input that is a folder", '"$1" <.', 4, NO_READ),
    ("an endless input", '"$1" </dev/zero', 3, TOO_LARGE),
    ("an endless file", f'"$1" check flag /dev/zero {FILE}', 3, TOO_LARGE),
    ("an instance that is a folder", f'"$1" check flag . {FILE}', 4, NO_READ),
    ("closed standard error changes no status", '"$1" check 2>&-', 2, b""),
    ("full standard error changes no status", 'echo 3 | "$1" 2>/dev/full', 3, b""),
)
# Which files a run names, which of them it opens, and its status.
OPENED = (
    (("a", "b", "instance"), ["a", "b", "instance"], 0),
    (("none", "b", "instance"), ["none"], 4),
    (("a", "none", "instance"), ["a", "none"], 4),
    (("a", "b", "none"), ["a", "b", "none"], 4),
)
# Runs whose standard error fails: the arguments, the standard input, and what stays of the answer.
ERRORS_LOST = ((["check"], b"", (b"", b"", 2)), ([], b"3", (b"", b"", 3)), ([], b"true\n0", (cases.VALID, b"", 0)))


def shell(room, line):
    return answer_of(["bash", "-c", line, "bash", room.program], room.seconds)


def devices(room):
    """Standard input and output that are closed, full, a folder, or gone."""
    room.put({"pair": "true\nnull\n", "false": "false\nnull\n", "schema.json": "true", "instance.json": "0"})
    for name, line, status, errors in LINES:
        room.judge(name, (b"", errors, status), shell(room, line))


def files(room):
    """Documents are opened in the order given, then the instance, and none after one that isn't there."""
    room.put({"a": "true", "b": "false", "instance": "1"})
    for (first, second, instance), opened, status in OPENED:
        words = ["check", "flag", instance, cases.U, cases.U, first, "https://a.example/t", second]
        wanted = (b"", NO_READ, 4) if status else (cases.VALID, b"", 0)
        got, reported = preloaded(room, room.program, words, REPORT_OPENED=1)
        name = f"files {first}, {second}, {instance}"
        room.judge(name, wanted, got)
        reported = reported.decode().split()
        room.record(name, reported != opened and f"wanted {opened} to be opened, got {reported}")
    room.judge("a standard input that can't be read, and files", (cases.VALID, b"", 0),
               shell(room, f'"$1" check flag instance {cases.U} {cases.U} a <.'))


def slow(room):
    """Reads and writes that move a byte at a time, or fail at one call: for each call until it no longer matters."""
    for case in room.chosen(series.runs()):
        device = Device(room, case)
        room.judge(f"{case.name}, a byte a call", device.own, device.run(ONE_BYTE=1)[0])
        reads = [device.reads(what, **how) for what, how in (("read", {}), ("interrupted read", {"INTERRUPTED": 1}))]
        writes = [device.writes(what, **how)
                  for what, how in (("write", {}), ("write that takes nothing", {"TAKE_NONE": 1}))]
        print(f"{case.name}: {reads[0]} reads and {writes[0]} writes, each failed in turn", flush=True)
        if case.name in ("a pair", "polygon, flag", "places", "a suite"):
            reads = device.reads("a byte a call, read", ONE_BYTE=1)
            writes = device.writes("a byte a call, write", ONE_BYTE=1)
            print(f"{case.name}: {reads} reads and {writes} writes of a byte, each failed in turn", flush=True)
            room.record(f"{case.name}, writes of a byte", writes != len(device.own[0]) and
                      f"{writes} writes of a byte, and the text has {len(device.own[0])}")
    for case in room.chosen([cases.refused_pair()]):
        refused_pair(Device(room, case))
    for words, given, wanted in ERRORS_LOST:
        got, _ = preloaded(room, room.program, words, given, FAIL_WRITE=1, WRITE_ON=2)
        room.judge(f"standard error fails, status {wanted[2]}", wanted, got)


def refused_pair(device):
    """A pair is read whole before its schema is looked at: a read that fails is reported, also after the schema."""
    given = device.case.given
    for what, how in (("read", {}), ("interrupted read", {"INTERRUPTED": 1})):
        reads = device.reads(what, ONE_BYTE=1, **how)
        # One for each byte, and one that meets the end.
        device.room.record(f"{device.case.name}, {what}s of a byte", reads != len(given) + 1 and
                         f"{reads} {what}s of a byte, and the text has {len(given)}")


class Device:
    """A run over devices that fail, and what it returns over those that don't."""

    def __init__(self, room, case):
        self.room, self.case, self.own = room, case, case.wanted()

    def run(self, **how):
        return preloaded(self.room, self.room.program, self.case.words, self.case.given, **how)

    def reads(self, what, **how):
        """Fails each read in turn: nothing is out then. Returns how many there are."""
        return in_turn(self.room, f"{self.case.name}, {what}", lambda number: self.run(FAIL_READ=number, **how),
                       lambda got, reported: self.judge((b"", NO_READ, 4), got, reported))

    def writes(self, what, **how):
        """Fails each write in turn: what is out is a prefix of the text. Returns how many there are."""
        return in_turn(self.room, f"{self.case.name}, {what}",
                       lambda number: self.run(FAIL_WRITE=number, WRITE_ON=1, **how),
                       lambda got, reported: self.judge((self.own[0][:len(got[0])], NO_WRITE, 4), got, reported))

    def judge(self, failed, got, reported):
        """Judges the answer of a run that failed at one call, or at none. A device that failed is called no more."""
        if reported not in (b"", b"x"):
            return "a device that failed was called again"
        wanted = failed if reported else self.own
        return None if got == wanted else f"wanted {short(wanted)}, got {short(got)}"
