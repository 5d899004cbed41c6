"""Whether what benchmarks/instructions counts is within the table of its page."""
import re

from aims import BEYOND_FLAG, COLUMNS, FLAG
from tests.support.pages import part_of

# What is compared: counts of instructions, which don't depend on the machine.
COUNTED = (FLAG, *BEYOND_FLAG, "reading")
# How much more than the table's figure may be counted: what is right but slow takes more.
ROOM = 1.1
# The cases that are counted in the gate: the larger ones take too long.
CASES = ("events", "rust-targets", "aws-sam", "service-description")
# Those that no installed file makes different.
MADE = ("events",)


def written(page):
    """The figures of the page's table, by case and column."""
    rows = re.findall(r"^\| `([\w.-]+)` \| (.*) \|$", part_of(page, "instructions"), re.M)
    return {case: dict(zip(COLUMNS, (int(it.replace(",", "")) if it[0].isdigit() else None for it in row.split(" | "))))
            for case, row in rows}


def other_case(case, figures, on_page):
    """Why the figures can't be compared: the files that make the case are others; None where they are the same."""
    if figures["nodes"] == on_page["nodes"]:
        return None
    return f"{case} has {figures['nodes']:,} nodes, and {on_page['nodes']:,} on the page"


def faults(figures, on_page):
    """For each figure what is wrong with it; None where it is within the bound."""
    for it in COUNTED:
        most = ROOM * on_page[it]
        yield None if figures[it] <= most else f"{it}: {figures[it]:,.0f}, at most {most:,.0f} (a tenth above the page)"
