"""How old the table of RESULTS.md is: the commit of the program that was measured, and how many came since."""
import os
import re

from tests.support.pages import part_of, write_part
from validators import HOME, output_of

HERE = os.path.dirname(os.path.abspath(__file__))
PAGE = os.path.join(HERE, "RESULTS.md")
# What the page says is rounded down to this, and may be as much behind: else each commit would change the page.
STEP = 200


def measured_commit():
    """The commit of the program in the table."""
    found = re.search(r"^\| jschema \| (\w+) \|", part_of(PAGE, "benchmarks/compare/run"), re.M)
    return found[1] if found else None


def commits_since(commit):
    """How many commits came after one; none where git isn't there, or doesn't know it."""
    count = output_of("git", "-C", HOME, "rev-list", "--count", f"{commit}..HEAD")
    return int(count) if count is not None else None


def sentence(commit, behind):
    """What the page says of its table."""
    at_least = behind // STEP * STEP
    how = f"at least {at_least:,}" if at_least else f"fewer than {STEP}"
    return f"The program in the table is of commit `{commit}`, {how} commits behind this page.\n"


def stale(commit, behind):
    """Whether the page says something else of its table: it may be one step behind."""
    wanted = {sentence(commit, it) for it in (behind, max(0, behind - STEP))}
    return part_of(PAGE, "benchmarks/compare/run --check") not in wanted


def write_age(commit, behind):
    """Writes the sentence into the page."""
    write_part(PAGE, "benchmarks/compare/run --check", sentence(commit, behind))
