"""The two condensing rules as moves: a node below the root without a note is dropped, if it has no child, or lifted,
that is replaced by its child, if it has exactly one. A position is the node's number in preorder, the root's 0."""


def size(node):
    return 1 + sum(map(size, node.children))


def apply(node, rule, position):
    """The tree after a move, or none where it isn't possible."""
    before = 1
    for i, it in enumerate(node.children):
        if position < before + size(it):
            below = parts(it, rule) if position == before else [apply(it, rule, position - before)]
            if position < 1 or below is None or None in below:
                return None
            return node.over([*node.children[:i], *below, *node.children[i + 1:]])
        before += size(it)
    return None


def parts(node, rule):
    """What takes a node's place by a rule, or none where the rule isn't possible there."""
    is_possible = node.note is None and len(node.children) == (0 if rule == "drop" else 1)
    return node.children if is_possible else None


def moves(node):
    """All moves that are possible."""
    return [(rule, i) for i in range(1, size(node)) for rule in ("drop", "lift") if apply(node, rule, i) is not None]


def ends(node):
    """The trees in which the runs end that can't be continued."""
    nexts = [apply(node, *it) for it in moves(node)]
    return [end for it in nexts for end in ends(it)] if nexts else [node]
