"""What is shown of a result tree: pruned, condensed to its normal form, merged, and the five output formats."""
from tests.reference.json_text import text


def pruned(node, verdict=None):
    """The nodes for which every node from the root down to them has the root's verdict."""
    verdict = node.valid if verdict is None else verdict
    return node.over([pruned(it, verdict) for it in node.children if it.valid == verdict])


def units(node):
    """The units with a note, in preorder."""
    return [node] * (node.note is not None) + [it for below in node.children for it in units(below)]


def condensed(node):
    """The tree in which each run of the two rules ends, by taking steps, from below, as long as there is one."""
    children = []
    for it in map(condensed, node.children):
        if it.note is not None or len(it.children) > 1:
            children.append(it)
        else:
            children += it.children
    return node.over(children)


def alike(one, other):
    """They are equal once every keyword location is ignored."""
    return unkeyed(one) == unkeyed(other)


def unkeyed(node):
    note = [] if node.note is None else list(node.note)
    return text([node.valid, node.absolute, node.instance, note]), tuple(map(unkeyed, node.children))


def merged(node):
    """The tree in which each run of three rules ends, by taking steps, from below, as long as there is one: by the
    third a node goes, with all below it, where an earlier sibling is alike."""
    node = condensed(node.over([merged(it) for it in node.children]))
    children = [it for at, it in enumerate(node.children)
                if not any(alike(other, it) for other in node.children[:at])]
    return node if len(children) == len(node.children) else merged(node.over(children))


def unit(node, children=()):
    """A node as a value, with its children."""
    value = {"absoluteKeywordLocation": node.absolute, "instanceLocation": node.instance,
             "keywordLocation": node.keyword, "valid": node.valid}
    if node.note is not None:
        value[node.note[0]] = node.note[1]
    if children:
        value["annotations" if node.valid else "errors"] = children
    return value


def tree(node):
    return unit(node, [tree(it) for it in node.children])


def form(node, format_):
    """The value of a format, from the whole result tree."""
    if format_ == "flag":
        return {"valid": node.valid}
    if format_ == "verbose":
        return tree(node)
    if format_ == "detailed":
        return tree(condensed(pruned(node)))
    if format_ == "merged":
        return tree(merged(pruned(node)))
    return {"annotations" if node.valid else "errors": [unit(it) for it in units(pruned(node))], "valid": node.valid}


def form_text(node, format_):
    return text(form(node, format_)) + "\n"
