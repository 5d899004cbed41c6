"""What single calls answer: on values, on the documents of a bundle, on results, and over devices in memory."""
import json

import cases
from asked import EMBEDDED, SCOPES, TREES, lines
from questions import Question, Table, in_turn, quiet
from tests.reference import forms, moves
from tests.reference.bundle import Bundle
from tests.reference.jschema import PAIRS, USAGE
from tests.reference.json_text import fragment, pointer_of, read, text
from tests.reference.result import result
from tests.support.interface import FORMATS, STANDARD_FORMATS

DOUBLED = '{"$defs":{"n":{"type":"integer"}},"allOf":[{"$ref":"#/$defs/n"},{"$ref":"#/$defs/n"}]}'
TITLED = r'{"title":"\"\n\u0001\u00e9\ud834\udd1e","properties":{"\"\n":{"description":["\\"]}}}'
# Of each row the entry, the documents under their URIs, and the instance.
ROWS = {
    "polygon": ("https://example.com/polygon", {cases.U: cases.POLYGON}, cases.POINTS),
    "strict_tree": ("https://example.com/strict-tree", TREES, '{"children":[{"daat":1}]}'),
    "dynamic_scope": (cases.U, SCOPES, '"a"'),
    "doubled": (cases.U, {cases.U: DOUBLED}, '"x"'),
    "titled": (cases.U, {cases.U: TITLED}, r'{"\"\n":1}'),
    "annotated_property": (cases.U, {cases.U: '{"properties":{"a":{"title":"t"}}}'}, '{"a":1}'),
}
SECOND = "https://a.example/t"


def tables():
    yield Table("values", list(of_values()))
    yield from of_bundles()
    for row, (_, documents, _) in ROWS.items():
        yield Table(f"the result of {row}", list(of_result(row)), documents)
    yield from of_runs()
    yield Table("the command", list(of_commands()))


# A text, and the compact text of what it is read as.
READ = (
    ("null", "null"), (" true ", "true"), ("false", "false"), ("0", "0"),
    ("18446744073709551615", "18446744073709551615"), ("-9223372036854775808", "-9223372036854775808"),
    (r'"a\"\n\u0001\u00e9\/"', '"a\\"\\n\\u0001\u00e9/"'), ("[ ]", "[]"), ("[1, [2], {}]", "[1,[2],{}]"),
    ('{"b": 1, "a": {"d": [], "c": ""}}', '{"a":{"c":"","d":[]},"b":1}'),
    ('{"a":1,"a":2}', '{"a":2}'), ('{"a":1.5,"a":2}', '{"a":2}'))
# The text of a pointer, and its fragment.
POINTERS = (
    ("", ""), ("/a~1b %//m~0n\u00e9", "/a~1b%20%25//m~0n%C3%A9"), ("/-._~0!$&'()*+,;=:@~1?", "/-._~0!$&'()*+,;=:@~1?"),
    ('/"#<>[\\]^`{|}\x7f\n', "/%22%23%3C%3E%5B%5C%5D%5E%60%7B%7C%7D%7F%0A"))
# A token, as a pointer and as a fragment have it, and as JSON has it as a text.
TOKENS = (
    ("", "/", "/", '""'), ("a/b~", "/a~1b~0", "/a~1b~0", '"a/b~"'),
    ('~1 %"\u00e9\n', '/~01 %"\u00e9\n', "/~01%20%25%22%C3%A9%0A", '"~1 %\\"\u00e9\\n"'))


def of_values():
    """js_doc's and js_assert's calls."""
    polygon = text(read(cases.POLYGON.encode()))
    for call in ("read", "from_value", "copy", "text"):
        yield in_turn("value", call, cases.POLYGON, answer=polygon)
    for source, compact in READ:
        yield Question(("value", "read", source), compact)
        yield Question(("value", "copy", source), compact)
        yield quiet("value", "put_text", source, answer=compact)
        yield quiet("value", "equal", source, compact, answer="true")
    for source in ("[1,", "", "\ufeff0", "1e400", "nul", '"\\ud800"'):
        yield Question(("value", "read", source), "NotJson")
    yield quiet("value", "put_text", cases.POLYGON, answer=polygon)
    yield quiet("value", "equal", cases.POLYGON, polygon, answer="true")
    yield quiet("value", "equal", cases.POLYGON, cases.POINTS, answer="false")
    yield quiet("value", "equal", "1", "true", answer="false")
    yield in_turn("members", "put", "{}", "b", answer='Ok(()) {"b":true}', refused="Err(Memory) {}")
    yield Question(("members", "put", '{"a":1,"c":2}', "b"), 'Ok(()) {"a":1,"b":true,"c":2}')
    yield Question(("members", "put", '{"a":1,"c":2}', "c"), 'Ok(()) {"a":1,"c":true}')
    for name, found in (("a", "1 a"), ("b", "none"), ("c", "2 a")):
        yield quiet("members", "get", '{"c":2,"a":1}', name, answer=found)
    for pointer, found in (("", polygon), ("/$defs/point/required/1", '"y"'), ("/$defs/point/required/01", "none"),
                           ("/minItems/0", "none")):
        yield quiet("value", "at", cases.POLYGON, pointer, answer=found)
    yield from of_pointers()
    yield from of_assertions()


def of_pointers():
    """Pointers, fragments and tokens."""
    for pointer, escaped in POINTERS:
        for call, given, answer in (
                ("parse", pointer, pointer), ("from_fragment", escaped, pointer), ("text", pointer, pointer),
                ("fragment", pointer, escaped), ("copy", pointer, pointer)):
            yield Question(("pointer", call, given), answer)
    for given in ("a", "a/b", "/~", "/~2", "/a~", "~0"):
        for call in ("parse", "from_fragment"):
            yield Question(("pointer", call, given), "BadPointer")
    for call, given, answer in (
            ("parse", "/a~1b/c d/~0/0", "/a~1b/c d/~0/0"), ("from_fragment", "/a~1b/c%20d", "/a~1b/c d"),
            ("text", "/a~1b/c d", "/a~1b/c d"), ("fragment", "/a~1b/c d", "/a~1b/c%20d"),
            ("copy", "/a~1b", "/a~1b")):
        yield in_turn("pointer", call, given, answer=answer)
    yield in_turn("pointer", "further", "/a~1b", "c d", answer="/a~1b/c d")
    yield in_turn("pointer", "push", "/a~1b/0/1/2", "c d",
                  answer="Ok(()) /a~1b/0/1/2/c d", refused="Err(Memory) /a~1b/0/1/2")
    for token, *texts in TOKENS:
        for call, answer in zip(("push_token", "push_fragment_token", "push_string"), texts):
            yield in_turn("token", call, token, answer=answer)


def of_assertions():
    """Patterns and assertions."""
    yield in_turn("pattern", "pattern", "a+b", "xaaby", answer="Ok(true) true")
    yield in_turn("pattern", "matches", "a+b", "xaaby", answer="Ok(true) true", refused="Err(Memory) true")
    yield in_turn("pattern", "searcher", "a+b", "xaaby", answer="Ok(true) true")
    # where a searcher may match it asks for memory, and answers without it too
    yield in_turn("pattern", "search", "a+b", "xaaby", answer="Ok(true) true", refused="Ok(true) true")
    yield quiet("pattern", "search", "a+b", "ba", answer="Ok(false) false")
    yield Question(("pattern", "pattern", "(", ""), "NotAPattern")
    missing = 'missing: ["y","z"]'
    for call in ("assertion", "check", "error"):
        yield in_turn("assertion", call, "required", '["y","z"]', "{}", answer=missing)
    yield in_turn("assertion", "holds", "pattern", '"a+b"', '"xaaby"', answer="Ok(true)", refused="Err(Memory)")
    # (a short array takes none)
    items = text([[it] for it in range(1_000)] + [[7]])
    yield in_turn("assertion", "holds", "uniqueItems", "true", items, answer="Ok(false)", refused="Err(Memory)")


def of_bundles():
    """Bundles whose own calls are refused: `add` and `add_doc` of each document, and `finish`."""
    second = {SECOND: '{"type":"integer"}'}
    for marked, more in (("add", second), ("add_doc", second), ("finish", {})):
        entry, documents, instance = ROWS["polygon"]
        documents = {**documents, **more}
        questions = [Question(("result", it, instance, "tree"), text(forms.tree(result_of(documents, it, instance))))
                     for it in (entry, *more)]
        yield Table(f"{marked} of the polygon", questions, documents, marked)


def result_of(documents, entry, instance):
    """The reference's result tree."""
    bundle = Bundle()
    for uri, source in documents.items():
        bundle.add(uri, source.encode())
    bundle.finish()
    return result(bundle, bundle.entry(entry), read(instance.encode()))


def is_normal(node):
    return all((it.note is not None or len(it.children) > 1) and is_normal(it) for it in node.children)


def is_merged(node):
    nodes = node.children
    return is_normal(node) and all(map(is_merged, nodes)) and not any(
        forms.alike(it, nodes[i]) for n, it in enumerate(nodes) for i in range(n))


def of_result(row):
    """The calls on a row's result, and the walks that make it."""
    entry, documents, instance = ROWS[row]
    node = result_of(documents, entry, instance)
    yield from of_tree(node, ("result", entry, instance))
    yield from of_moves(node, ("result", entry, instance))
    whole = text(forms.tree(node))
    for call in ("walk", "walk_into_boxed", "walk_into_flat"):
        yield in_turn("result", entry, instance, call, answer=whole)
    verdict = "true" if node.valid else "false"
    yield in_turn("result", entry, instance, "verdict", answer=f"Ok({verdict})", refused="Err(Memory)")
    yield in_turn("result", entry, instance, "walk_into_verdict", answer=f"Some({verdict})")
    # (a node is two calls of a collector)
    calls = 2 * moves.size(node)
    for given in range(calls + 2):
        answer = "Memory" if given < calls else str(given - calls)
        yield Question(("result", entry, instance, "refusing", str(given)), answer)


def of_tree(node, words):
    """The calls on a tree and on its rows. The words say how it is made."""
    whole = text(forms.tree(node))
    pruned, condensed = text(forms.tree(forms.pruned(node))), text(forms.tree(forms.condensed(node)))
    noted = lines(it.keyword for it in forms.units(node))
    yield in_turn(*words, "tree_doc", answer=whole)
    yield in_turn(*words, "units", answer=noted)
    yield in_turn(*words, "flat_units", answer=noted)
    for it in FORMATS:
        yield in_turn(*words, "form", it, answer=text(forms.form(node, it)))
    for it in STANDARD_FORMATS:
        yield in_turn(*words, "flat_doc", it, answer=text(forms.form(node, it)))
        yield quiet(*words, "put_flat", it, answer=text(forms.form(node, it)))
    # (of rows nothing is merged)
    yield Question((*words, "flat_doc", "merged"), whole)
    yield quiet(*words, "put_flat", "merged", answer=whole)
    yield quiet(*words, "put_tree", answer=whole)
    for call, answer in (
            ("prune", pruned), ("flat_prune", pruned), ("condense", condensed), ("flat_condense", condensed),
            ("merge_condense", text(forms.tree(forms.merged(node))))):
        yield quiet(*words, call, answer=answer)
    for call, holds in (("is_normal", is_normal), ("is_merged", is_merged)):
        yield quiet(*words, call, answer="true" if holds(node) else "false")


def of_moves(node, words):
    """Each first move that is possible, the run of the last ones until none is, and moves that aren't possible."""
    for call in ("apply", "replay"):
        yield quiet(*words, call, "drop 0", answer=f"0 {text(forms.tree(node))}")
    for rule, position in moves.moves(node):
        left = text(forms.tree(moves.apply(node, rule, position)))
        yield quiet(*words, "apply", f"{rule} {position}", answer=f"done {left}")
    run = []
    while possible := moves.moves(node):
        rule, position = possible[-1]
        run.append(f"{rule} {position}")
        node = moves.apply(node, rule, position)
    if run:
        yield quiet(*words, "replay", " ".join(run), answer=f"done {text(forms.tree(node))}")
        yield quiet(*words, "replay", " ".join([*run, "drop 0"]), answer=f"{len(run)} {text(forms.tree(node))}")


SUITE = ('[{"description":"g","schema":{"type":"integer"},"tests":[{"description":"i","data":1,"valid":true},'
         '{"description":"s","data":"x","valid":true},{"description":"f","data":1.5,"valid":true}]}]')
SUITE_LINES = 'pass 0.0 "i"\nfail 0.1 "s"\nskip 0.2 "f"\npassed 1, failed 1, skipped 1\n'
LOCATIONS = "https://a.example/x#\nhttps://a.example/y#\nhttps://a.example/y#/not\nhttps://a.example/x#/allOf/0\n"


def of_runs():
    """Whole runs over devices in memory: their name, documents, entry and input; what they return and write."""
    yield run_table("pair", {}, "", "true\nnull", "true", '{"valid":true}\n')
    yield run_table("suite", {}, "", SUITE, "Counts { passed: 1, failed: 1, skipped: 1 }", SUITE_LINES)
    yield run_table("places", {cases.U: EMBEDDED}, "", "", "4", LOCATIONS)
    entry, documents, instance = ROWS["polygon"]
    node = result_of(documents, entry, instance)
    for it in FORMATS:
        yield run_table(it, documents, entry, instance, "false", text(forms.form(node, it)) + "\n")


def run_table(what, documents, entry, given, answer, written):
    """A run over devices that are slow, and that fail at each call in turn."""
    words = ("devices", what, entry, given)
    reads, writes = 0 if what == "places" else len(given) + 1, len(written.encode())

    def asked(fails_read=0, how="", step=1, fails_write=0):
        return *words, str(fails_read), how, str(step), str(fails_write)

    def reported(made, calls, more, calls_then, failed, text):
        return f"{made}, {calls[0]}, {calls[1]}; {more}, {calls_then}, {failed}; {text}"

    done, end = (reads, writes), "Ok([])"
    no_read, no_write = "Err(Read)", "Err(Write)"
    # (the end is read once more)
    then = reads + 1
    table = [
        quiet(*asked(), answer=reported(answer, done, f"{end}, Ok(())", (then, writes + 1), "(false, false)", written)),
        # the flush fails by itself
        Question(asked(fails_write=writes + 1),
                 reported(answer, done, f"{end}, {no_write}", (then, writes + 1), "(false, true)", written)),
        # a writer that takes nothing is called once
        Question(asked(step=0),
                 reported("failed: Write", (reads, 1), f"{end}, {no_write}", (then, 1), "(false, true)", ""))]
    for how in ("", "interrupted"):
        for k in range(1, reads + 1):
            table.append(Question(asked(k, how),
                                  reported("failed: Read", (k, 0), f"{no_read}, Ok(())", (k, 1), "(true, false)", "")))
    for k in range(1, writes + 1):
        begun = written.encode()[:k - 1].decode()
        table.append(Question(
            asked(fails_write=k),
            reported("failed: Write", (reads, k), f"{end}, {no_write}", (then, k), "(false, true)", begun)))
    return Table(f"a run of {what}: {reads} reads and {writes} writes, each failed in turn", table, documents)


# What a command is asked for: its words, its input, and the read that fails. What comes of it: the status, the output
# and the line.
INTEGER = '{"type":"integer"}'
REFUSED = 'refused: document 0 at "/type": BadKeyword'
COMMANDS = (
    (("check",), "", 0, 2, "", USAGE),
    (("places", cases.U), "", 0, 2, "", PAIRS),
    (("check", "flag", "instance", cases.U, cases.U, "refused"), "", 0, 3, "", REFUSED),
    (("check", "flag", "large", cases.U, cases.U, "refused"), "", 0, 3, "", "refused: input: InputTooLarge"),
    (("suite", "missing", cases.U, "refused"), "", 0, 4, "", "failed: Read"),
    ((), INTEGER + "\n3", 1, 4, "", "failed: Read"),
    ((), '{"type":[]}\n3', 0, 3, "", REFUSED),
    ((), INTEGER + "\n3", 0, 0, '{"valid":true}\n', ""),
    ((), INTEGER + '\n"x"', 0, 1, '{"valid":false}\n', ""),
    (("places", cases.U, "schema"), "", 0, 0, cases.U + "#\n", ""),
)


def of_commands():
    """The program's work over files and devices in memory. Of the calls of the output, each write and the last flush
    fails in turn, which counts only where all went well before. Where only writes fail, a fault before them counts."""
    for words, given, fails_read, status, written, line in COMMANDS:
        line += "\n" * bool(line)
        asked, calls = (words, given, fails_read), len(written) + 1
        own, no_write = (status, calls, written, line), "failed: Write\n"
        yield asked_of_command(*asked, own)
        for k in range(1, calls):
            yield asked_of_command(*asked, (4, k, written[:k - 1], no_write), fails_write=k)
        yield asked_of_command(*asked, (4, calls, written, no_write) if written else own, fails_write=calls)
        yield asked_of_command(*asked, (4, 1, "", no_write) if written else own, step=0)


def asked_of_command(words, given, fails_read, answer, step=1, fails_write=0):
    """A command whose output takes `step` bytes a call. What it returns: its status, how often its output was called,
    what that took, and what went to standard error."""
    status, calls, written, line = answer
    return Question(("command", given, str(fails_read), str(step), str(fails_write), *words),
                    f"{status}, {calls}; {written}; {line}")
