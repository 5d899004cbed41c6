"""What the profile leaves out of the suite: the lines of a file, each a reason with patterns of tests."""
import fnmatch
from collections import Counter
from dataclasses import dataclass, field


@dataclass(frozen=True)
class Exclusion:
    """Tests that are left out for one reason: patterns of `fnmatch` for the file, the group and the test."""

    reason: str
    file: str
    group: str
    test: str

    def matches(self, judged):
        pairs = ((judged.file, self.file), (judged.group, self.group), (judged.test, self.test))
        return all(fnmatch.fnmatchcase(text, pattern) for text, pattern in pairs)

    def explains(self, judged):
        """A reason in lower case is a choice that the standard leaves open, so that the verdict may differ."""
        return judged.differs() if self.reason[0].islower() else judged.outcome.reason == self.reason

    def __str__(self):
        return " | ".join((self.reason, self.file, self.group, self.test))


def read_exclusions(path):
    """The lines of a profile, without comments."""
    with open(path, encoding="utf-8") as file:
        lines = [it for it in (line.strip() for line in file) if it and not it.startswith("#")]
    return [Exclusion(*(it.strip() for it in line.split(" | "))) for line in lines]


@dataclass
class Report:
    """The tests, sorted by what came of them and by what the profile says of them."""

    passed: int = 0
    # Another verdict, or none, and the profile doesn't leave them out.
    failed: list = field(default_factory=list)
    # By their reasons: another verdict by choice, and no verdict.
    other: Counter = field(default_factory=Counter)
    none: Counter = field(default_factory=Counter)
    left_out: list = field(default_factory=list)
    # The profile leaves them out, by a line, and they pass.
    passed_outside: list = field(default_factory=list)
    # Lines of the profile that name no test, though they name a file.
    unused: list = field(default_factory=list)


def report_of(all_judged, exclusions):
    """Sorts the tests by what came of them and by what the profile says of them."""
    report, used = Report(), set()
    for judged in all_judged:
        lines = [it for it in exclusions if it.matches(judged)]
        used |= set(lines)
        line = next((it for it in lines if it.explains(judged)), None)
        if judged.passes():
            report.passed += 1
            report.passed_outside += [(lines[0], judged)] if lines else []
        elif line is None:
            report.failed.append(judged)
        else:
            (report.other if judged.differs() else report.none)[line.reason] += 1
            report.left_out.append((line.reason, judged))
    files = {it.file for it in all_judged}
    report.unused = [it for it in exclusions if it not in used and fnmatch.filter(files, it.file)]
    return report
