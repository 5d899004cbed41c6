"""Runs whose allocations are refused, and whose reads and writes fail, in turn. The reference gives their answers."""
import answers
import cases
from asked import EMBEDDED
from cases import Case, U
from tests.support.interface import FORMATS

BRANCHES = U, {U: '{"oneOf":[true,true,false]}'}, "0"
ROWS = {**answers.ROWS, "two_branches_hold": BRANCHES}
ASSERTIONS = ('{"type":["object","null"],"minProperties":1,"required":["a"],"pattern":"a+b",'
              '"enum":[{"a":[1,2]},3]}')


def runs():
    """A pair, the rows in each format, places, and a suite."""
    yield Case("a pair", [], given=b"true\nnull\n", out=None)
    for row, (entry, documents, instance) in ROWS.items():
        files = {"instance.json": instance, **{f"{i}.json": text for i, text in enumerate(documents.values())}}
        pairs = [word for i, uri in enumerate(documents) for word in (uri, f"{i}.json")]
        for format_ in FORMATS:
            yield Case(f"{row}, {format_}", ["check", format_, "instance.json", entry, *pairs], files, out=None)
    yield Case("places", ["places", U, "schema.json"], {"schema.json": EMBEDDED}, out=None)
    yield Case("a suite", ["suite", "suite.json"], {"suite.json": answers.SUITE}, out=None)


def growths():
    """The runs whose allocations are refused: those, all kinds of assertions, and what the program refuses."""
    yield from runs()
    yield cases.check("assertions", ASSERTIONS, '{"a":[1,2]}', out=None)
    yield Case("arguments that ask for nothing", ["chec"], out=None)
    yield Case("a URI without a file", ["places", U], out=None)
    yield cases.check("a refused schema", '{"type":[]}', "0", out=None)


def not_utf_8():
    """A valid check, with an argument more that isn't UTF-8, at each place."""
    valid = cases.check("", "true", "0")
    for at in range(len(valid.words) + 1):
        yield Case(f"argument {at} isn't UTF-8", [*valid.words[:at], b"\xff", *valid.words[at:]], valid.files)
