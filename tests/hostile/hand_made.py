"""Result trees by hand: worked examples, each kind of note, all small trees, and deep and wide ones.

A tree is written as events: a letter opens a node of that name, and any other sign closes one. `-` and `!` close a node
that fails; `)` and `-` leave no note.
"""
import functools
from dataclasses import replace

from answers import of_moves, of_tree
from questions import Question, Table, quiet
from tests.reference import forms
from tests.reference.result import Node
from tests.support.interface import FORMATS

# A title with what JSON escapes, what it needn't, and a character outside the basic plane.
VALUE = r'{"b": [1, null], "a": "\"\n\u0001\u00e9\ud83c\udf33"}'
NOTES = {
    "!": ("error", 'no "x"\x01'), "+": ("annotation", True),
    "=": ("annotation", {"a": '"\n\x01\u00e9\U0001f333', "b": [1, None]}),
    "@": ("annotation", ["b", "a\n\U0001f333"]), "0": ("annotation", []), "#": ("annotation", 2**64 - 1),
    "*": ("annotation", [0, 2]), "1": ("annotation", [])}


def tree_of(events):
    """The tree that these events make."""
    root, opened = None, []
    for sign in events:
        if sign.isalpha():
            node = Node(sign, "s#", "")
            if opened:
                opened[-1].children.append(node)
            root = root or node
            opened.append(node)
        else:
            node = opened.pop()
            node.valid, node.note = sign not in "-!", NOTES.get(sign)
    return root


@functools.cache
def shown(events):
    """The text of a tree in the format verbose."""
    return forms.text(forms.tree(tree_of(events)))


def asked(events, *words, answer):
    """A call on such a tree, which doesn't allocate."""
    return quiet("hand-made", VALUE, events, *words, answer=answer)


def tables():
    yield Table("each note in each format", [
        replace(it, in_turn=False) for close in "!+=@0#*1)"
        for it in of_events(f"ra{close}{'-' if close == '!' else ')'}")])
    yield Table("worked examples of moves", list(examples()))
    yield Table("all trees of up to five nodes", list(small()))
    yield Table("deep and wide trees", list(large()))


def of_events(events):
    """All calls on such a tree."""
    node, words = tree_of(events), ("hand-made", VALUE, events)
    yield from of_tree(node, words)
    yield from of_moves(node, words)
    yield Question((*words, "verdict"), f"Some({'true' if node.valid else 'false'})")


# Roots over a chain without notes; over a node without a note, with a leaf without one and a leaf with an error; and
# over a node without a note, with two leaves that are alike.
CHAIN, LEAVES, ALIKE = "rabcd)))))", "rab-c!--", "rax!y!--"
# A tree, what is made of it, the number of the first move that isn't possible, and what is left.
EXAMPLES = (
    (CHAIN, "replay", "drop 4 3 2 1", "done", "r)"), (CHAIN, "replay", "lift 1 1 1 drop 1", "done", "r)"),
    (CHAIN, "apply", "lift 2", "done", "racd))))"), (CHAIN, "apply", "lift 4", 0, CHAIN),
    (CHAIN, "apply", "lift 5", 0, CHAIN), (LEAVES, "replay", "drop 2 lift 1", "done", "rc!-"),
    (LEAVES, "replay", "lift 1", 0, LEAVES), (LEAVES, "replay", "drop 2 1", 1, "rac!--"),
    # the root stays, and what has a note
    ("ra+)", "replay", "lift 0", 0, "ra+)"), ("ra+)", "replay", "drop 0", 0, "ra+)"),
    ("ra+)", "replay", "drop 1", 0, "ra+)"), ("ra+)", "replay", "drop 2", 0, "ra+)"),
    # the later of two that are alike goes
    (ALIKE, "replay", "merge 3 lift 1", "done", "rx!-"), (ALIKE, "apply", "merge 3", "done", "rax!--"),
    (ALIKE, "replay", "merge 2", 0, ALIKE), (ALIKE, "replay", "lift 1", 0, ALIKE),
    ("rx!y+z!-", "apply", "merge 3", "done", "rx!y+-"))
# What is left by a call without moves.
LEFT = (
    (CHAIN, "condense", "r)"), (LEAVES, "condense", "rc!-"), ("ra+)", "condense", "ra+)"),
    ("rabc+)def+))))", "condense", "rac+f+))"), ("rabc!d+-ed+)))", "prune", "raed+)))"),
    (ALIKE, "merge_condense", "rx!-"), ("rx!y+z!-", "merge_condense", "rx!y+-"))


def examples():
    """Worked examples: runs of moves, and what each call leaves."""
    for events, call, moves, number, left in EXAMPLES:
        yield asked(events, call, moves, answer=f"{number} {shown(left)}")
    for events, call, left in LEFT:
        yield asked(events, call, answer=shown(left))
        if call != "merge_condense":
            yield asked(events, f"flat_{call}", answer=shown(left))
    yield asked("", "enter_and_leave", answer="Some(false)")
    for events in (CHAIN, LEAVES, ALIKE, "rabc+)def+))))", "rabc!d+-ed+)))", "rx!y+z!-"):
        yield from (replace(it, in_turn=False) for it in of_events(events))


SHAPES = (
    "a)", "ab))", "ab)c))", "abc)))", "ab)c)d))", "ab)cd)))", "abc))d))", "abc)d)))", "abcd))))", "ab)c)d)e))",
    "ab)c)de)))", "ab)cd))e))", "ab)cd)e)))", "ab)cde))))", "abc))d)e))", "abc))de)))", "abc)d))e))", "abcd)))e))",
    "abc)d)e)))", "abc)de))))", "abcd))e)))", "abcd)e))))", "abcde)))))")


def small():
    """Each node of each shape closes in four ways: valid or not, with a note or without."""
    for shape in SHAPES:
        count = shape.count(")")
        for number in range(4 ** count):
            ways = iter([")-+!"[number >> 2 * i & 3] for i in range(count)])
            events = "".join(next(ways) if it == ")" else it for it in shape)
            detailed = forms.text(forms.form(tree_of(events), "detailed"))
            yield asked(events, "put_flat", "detailed", answer=detailed)
            yield Question(("hand-made", VALUE, events, "form", "detailed"), detailed)


# A root over a chain, and one over leaves: a single leaf has a note. `ab!-` is left of both.
DEEP = "a" * 511 + "b!" + "-" * 511
WIDE = "a" + "a-" * 99_999 + "b!-"
# Trees with siblings that are alike, and what merging leaves of them.
MERGED = (
    (DEEP, "ab!-"), (WIDE, "ab!-"), ("r" + "x!y!a" * 510 + "x!y!" + "-" * 511, "rx!-"),
    ("r" + "x!y!a" * 510 + "x!y!" + "!" * 511, "r" + "x!a" * 510 + "x!" + "!" * 511),
    ("r" + "x+" * 3_000 + "y#z*z@z0" * 3_000 + "z+z1" * 3_000 + ")", "rx+y#z*z@z0z1)"))


def large():
    """Stack and time."""
    for events in (DEEP, WIDE):
        node, words = tree_of(events), ("hand-made", VALUE, events)
        for it in FORMATS:
            answer = forms.text(forms.form(node, it))
            yield Question((*words, "form", it), answer)
            if it != "merged":
                yield quiet(*words, "put_flat", it, answer=answer)
        yield quiet(*words, "put_tree", answer=shown(events))
        yield quiet(*words, "is_normal", answer="false")
        yield Question((*words, "verdict"), "Some(false)")
        for call in ("condense", "flat_condense"):
            yield quiet(*words, call, answer=shown("ab!-"))
        for call in ("units", "flat_units"):
            yield Question((*words, call), "b\n")
    for events, left in MERGED:
        yield asked(events, "is_merged", answer="false")
        yield asked(events, "merge_condense", answer=shown(left))
        yield asked(left, "is_merged", answer="true")
    yield asked(DEEP, "replay", "lift" + " 1" * 510, answer=f"done {shown('ab!-')}")
    yield asked(WIDE, "apply", "drop 99999", answer=f"done {shown('a' + 'a-' * 99_998 + 'b!-')}")
    yield asked(WIDE, "apply", "drop 100000", answer=f"0 {shown(WIDE)}")
