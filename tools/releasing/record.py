"""The record of a proof: what `./test` left of its run, in out/gate.log."""
from __future__ import annotations

import re
from dataclasses import dataclass
from pathlib import Path

LOG = "out/gate.log"
PROVED = re.compile(r"^== (\w+)\n(?:.*\n)*?(logic=proved.*)\n(?:.*\n)*?rt: \1 proved$", re.M)
# Of a crate that an earlier run proved from the same files.
KEPT = re.compile(r"^rt: ((\w+) is kept: an earlier run .*)$", re.M)
LAST = re.compile(r"(?:^==== skipped\n(?:.*\n)*?)?^\d+ passed, 0 failed, \d+ skipped\n\Z", re.M)


class Refused(Exception):
    """Why there is no release."""


@dataclass(frozen=True)
class Gate:
    """What a run of `./test` that passed says."""

    commit: str
    kit: str
    verdicts: tuple[str, ...]
    last: str


def gate(home, crates):
    """The last run of `./test`, if it passed."""
    path = Path(home, LOG)
    if not path.is_file():
        raise Refused(f"there is no {LOG}: run ./test first")
    log = path.read_text(encoding="utf-8", errors="replace")
    head = dict(re.findall(r"^(commit|kit): (.*)$", log.partition("====")[0], re.M))
    last = LAST.search(log)
    if last is None or {"commit", "kit"} - head.keys():
        raise Refused(f"{LOG} isn't of a run of ./test that passed")
    if "\ntest: the tree was changed" in log:
        raise Refused(f"the tree was changed during the run of ./test that {LOG} is of")
    proved = {name: f"{name}: {line}" for name, line in PROVED.findall(log)}
    proved |= {name: line for line, name in KEPT.findall(log)}
    if lacking := [it for it in crates if it not in proved]:
        raise Refused(f"{LOG} has no verdict on {', '.join(lacking)}")
    return Gate(head["commit"], head["kit"], tuple(proved[it] for it in crates), last[0])


def page(version, found):
    """The record as a text."""
    verdicts = "".join(f"{it}\n" for it in found.verdicts)
    return (f"jschema {version}\ncommit: {found.commit}\nkit: {found.kit}\n\n"
            f"Each crate, as `rt ci` proved it:\n\n{verdicts}\nThe end of `./test`:\n\n{found.last}")


def trial(version, commit):
    """The record of packages that are made to try this."""
    return (f"jschema {version}\ncommit: {commit}\n\n"
            "Made by `tools/release --try`: nothing shows that what is inside was proved or tested.\n")
