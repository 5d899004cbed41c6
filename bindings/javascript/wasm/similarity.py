"""An order in which things that are alike stand near one another, so that they take less when they are compressed."""
from collections import defaultdict

#: Traits that more things have than this say nothing.
MOST_SHARED = 200


def chained(traits, recent=1):
    """The numbers of things in an order. Of each thing its traits are given, in lists of what can be a key.

    The first one has the most traits. After it stands each time, of those that are left, the one that shares the most
    traits with the `recent` ones before it, and of several that do the first.
    """
    kinds = [set(it) for it in traits]
    having = defaultdict(list)
    for number, kind in enumerate(kinds):
        for trait in kind:
            having[trait].append(number)
    left = sorted(range(len(kinds)), key=lambda number: (-len(kinds[number]), number))
    order, is_placed = [], [False] * len(kinds)
    for start in left:
        following = start
        while following is not None and not is_placed[following]:
            is_placed[following] = True
            order.append(following)
            following = _most_alike(order[-recent:], kinds, having, is_placed)
    return order


def _most_alike(before, kinds, having, is_placed):
    """The thing that isn't placed and shares the most traits with these; None if none shares any."""
    counts = defaultdict(int)
    for number in before:
        for trait in kinds[number]:
            if len(having[trait]) <= MOST_SHARED:
                for other in having[trait]:
                    if not is_placed[other]:
                        counts[other] += 1
    return max(counts, key=lambda number: (counts[number], -number), default=None)
