"""Times that are taken in turns, so many that no call is faster than the one that it makes."""
LEAST, MOST = 3, 30


class Noisy(Exception):
    """A call stays faster than the one that it makes, which can't be: the machine does other things."""


def least_of(times, others):
    """The least of each figure; none where a timer has none."""
    return tuple(map(min, times, others)) if times and others else times or others


def faster_than_inside(found, inside):
    """The pairs whose first call is faster than the second, which it makes."""
    return [(outer, inner) for outer, inner in inside if found[outer][0] < found[inner][0]]


def in_turns(timers, inside, least=LEAST, most=MOST):
    """The least figures of each timer, of `least` turns or more: until no call is faster than the one inside it.

    A timer returns microseconds, the least first; `inside` has pairs of timers, the second of a call that the first one
    makes. Raises `Noisy` after `most` turns.
    """
    found = dict.fromkeys(timers)
    for turn in range(1, most + 1):
        found = {name: least_of(found[name], timer()) for name, timer in timers.items()}
        if turn >= least and not faster_than_inside(found, inside):
            return found
    outer, inner = faster_than_inside(found, inside)[0]
    raise Noisy(f"after {most} turns {outer} is faster than {inner} inside it")
