"""What scripts write into pages."""
import sys


def part_of(page, name):
    """The text between the marks of that name.

    Ends the script where the page lacks one of them.
    """
    with open(page, encoding="utf-8") as file:
        _, has_begin, rest = file.read().partition(f"<!-- {name}: begin -->\n")
    part, has_end, _ = rest.partition(f"<!-- {name}: end -->\n")
    if not has_begin or not has_end:
        sys.exit(f"{page} has no marks for {name}")
    return part


def write_part(page, name, text):
    """Puts a text between the marks `<!-- NAME: begin -->` and `<!-- NAME: end -->` of a page.

    Ends the script where the page lacks one of them.
    """
    begin, end = f"<!-- {name}: begin -->\n", f"<!-- {name}: end -->\n"
    with open(page, encoding="utf-8") as file:
        before, has_begin, rest = file.read().partition(begin)
    _, has_end, after = rest.partition(end)
    if not has_begin or not has_end:
        sys.exit(f"{page} has no marks for {name}")
    with open(page, "w", encoding="utf-8") as file:
        file.write(before + begin + text + end + after)
