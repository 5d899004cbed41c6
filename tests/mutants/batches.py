"""Mutants many at a time, for `tests/mutants/run --together` and `--quick`.

A check costs more than what it has to prove anew: reading the crate, and loading what it uses. So as many edits as it
can tell apart are made in one copy, and one check goes over the modules that they are in. A contract binds one
function, so the prover says of each function by itself whether its body meets it, and in a function of each arm of a
match.
"""
import os
import re
import shutil
import subprocess
from dataclasses import replace

from edits import apart

VERDICT = re.compile(r"^fn (\S+): (.*)$", re.M)
ENDED = re.compile(r"^only=(\d+) proved=(\d+)$", re.M)
UNPROVED_GOAL = re.compile(r"no proof: expected answers in \S+; `search` did not prove `([^`]+)`")
OF_CALLEES = "it calls `"
# What `search` adds where it found neither a proof nor values at which the goal is false: this says less.
OF_LIMITS = "gave up at one of its limits"


def link_or_copy(source, target):
    """Links a file, or copies it where the folders are on different disks."""
    try:
        os.link(source, target)
    except OSError:
        shutil.copy2(source, target)


def copy_linked(source, target):
    """Copies a folder. rattle writes new files and changes none, so links to the old ones do."""
    shutil.rmtree(target, ignore_errors=True)
    shutil.copytree(source, target, copy_function=link_or_copy)


def core_seconds():
    """The seconds of a core that the processes took that this one has waited for."""
    return sum(os.times()[2:4])


class Batches:
    """Tries edits of one crate in a copy of the repository."""

    def __init__(self, check, crate, room, kept, jobs=1):
        """`check`: the command for a check, which takes as many jobs. `kept`: the folder with what earlier checks kept
        of the crate, if any did."""
        self.command, self.crate, self.folder = [*check, "--jobs", str(jobs)], crate, room / "crates" / crate
        self.work, self.kept = self.folder / "out" / "incremental", kept
        self.printed, self.seconds = "", []
        # Of each edit that isn't refused, why.
        self.why_not = {}

    def check(self, edits):
        """What the prover says of each function of the modules of these edits, which are made; None where it comes to
        no end."""
        own = {path: (self.folder / path).read_text() for it in edits for path, _ in it.lines}
        try:
            for path, text in own.items():
                made = {number: new for it in edits for (file, number), new in it.lines.items() if file == path}
                lines = [made.get(number, line) for number, line in enumerate(text.split("\n"))]
                (self.folder / path).write_text("\n".join(lines))
            return self.checked({place.module for it in edits for place in it.places})
        finally:
            for path, text in own.items():
                (self.folder / path).write_text(text)

    def checked(self, modules):
        """What the prover says of each function of these modules; None where it comes to no end."""
        begun = core_seconds()
        if self.kept.is_dir():
            copy_linked(self.kept, self.work)
        words = [word for it in sorted(modules) for word in ("--only", it)]
        try:
            self.printed = subprocess.run([*self.command, *words], cwd=self.folder, text=True, errors="replace",
                                          stdin=subprocess.DEVNULL, stdout=subprocess.PIPE,
                                          stderr=subprocess.STDOUT).stdout
        except OSError as error:
            self.printed = f"{self.command[0]}: {error.strerror}\n"
        self.seconds.append(core_seconds() - begun)
        return dict(VERDICT.findall(self.printed)) if ENDED.search(self.printed) else None

    def proved(self, edits):
        """The functions of the modules of these edits that are proved without them, or None where one isn't. Each check
        of edits begins with what this one keeps."""
        verdicts = self.checked({place.module for it in edits for place in it.places})
        if verdicts is None or any(verdict != "proved" for verdict in verdicts.values()):
            return None
        if self.work.is_dir():
            self.kept = self.folder / "out" / "kept"
            copy_linked(self.work, self.kept)
        return set(verdicts)

    def refused(self, edits, proved):
        """Of these edits, each that the prover refuses for a contract, and why, as soon as it is known. One that isn't
        refused beside others is tried once more by itself."""
        alone = []
        while edits:
            now, edits = apart(edits)
            found, blocked = self.together(now, proved)
            yield from found.items()
            left = [it for it in now if it.name not in found]
            # What calls a wrong body is judged beside a right one.
            edits += [it for it in left if it.name in blocked] if found else []
            alone += [it for it in left if it not in edits] if len(now) > 1 else []
        for edit in alone:
            yield from self.together([edit], proved)[0].items()

    def together(self, edits, proved):
        """The same of edits that one check can tell apart, and those whose functions call one that isn't proved. If
        they don't compile together, halves of them are tried."""
        verdicts = self.check(edits)
        if verdicts is None and len(edits) > 1:
            half = len(edits) // 2
            first, second = (self.together(it, proved) for it in (edits[:half], edits[half:]))
            return first[0] | second[0], first[1] | second[1]
        if verdicts is None:
            self.why_not[edits[0].name] = f"the prover comes to no end:\n{self.printed[-2000:]}"
            return {}, set()
        found, blocked = {}, set()
        for edit in edits:
            places = places_beside(edit, edits)
            said = [(place, verdicts[it]) for place in places for it in sorted(verdicts)
                    if it in proved and place.is_named(it, self.crate)]
            why = next(filter(None, (reason(*it, self.printed) for it in said)), None)
            if why:
                found[edit.name] = why
                continue
            self.why_not[edit.name] = "; ".join(verdict for _, verdict in said) or "no such function"
            if any(OF_CALLEES in verdict for _, verdict in said):
                blocked.add(edit.name)
        return found, blocked


def places_beside(edit, edits):
    """The places of an edit: whole functions where none of the other edits is in another arm of it."""
    others = {it.cycle for other in edits if other is not edit for it in other.places}
    return {it if it.cycle in others else replace(it, arm="") for it in edit.places}


def reason(place, verdict, printed):
    """Why a place isn't proved for what its function answers; None for a callee, a limit, or a name in a proof file."""
    goal = UNPROVED_GOAL.match(verdict)
    if not goal and verdict != "not proved":
        return None
    lines = [it for it in printed.split("\n") if place.has_error(it) or place.has_note(it)]
    return clearest(lines) or (verdict if goal and place.has_goal(goal[1]) else None)


def clearest(lines):
    """The first of these reasons that is more than a limit of `search`, or else the first, or None."""
    return min(lines, key=lambda it: OF_LIMITS in it, default=None)
