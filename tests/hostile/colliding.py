"""Names in `$defs` that are chosen so that the keys of their places have one hash.

The kit's hash (`FoldHasher`) has a fixed seed. It takes 16 bytes at a time, as two numbers: the first, xored with the
hash so far, times the second. Where the first is the hash so far, the product is 0, whatever the second is.
"""
import itertools
import random

SEED, MULTIPLIER, MASK = 0x243F_6A88_85A3_08D3, 0x9E37_79B9_7F4A_7C15, (1 << 64) - 1
BEFORE = b"/0/$defs/"
LENGTH = 64
# Those that stand for themselves, in a pointer and in JSON.
PRINTABLE = bytes(it for it in range(0x20, 0x7F) if it not in b'/~"\\')


def folded(first, second, state):
    product = (int.from_bytes(first, "little") ^ state) * (int.from_bytes(second, "little") ^ MULTIPLIER)
    return product & MASK ^ product >> 64


def key_hash(key):
    """The hash of a text of 16 bytes or more that ends with a block."""
    state = SEED + len(key)
    for at in range(0, len(key), 16):
        state = folded(key[at:at + 8], key[at + 8:at + 16], state)
    return state


def colliding(count):
    """As many names. The second block begins with the hash of the first; the rest of it is what distinguishes them."""
    chosen = random.Random(1)
    while True:
        first = BEFORE + bytes(chosen.choices(PRINTABLE, k=16 - len(BEFORE)))
        state = folded(first[:8], first[8:], SEED + LENGTH).to_bytes(8, "little")
        if all(it in PRINTABLE for it in state):
            break
    begin = (first + state)[len(BEFORE):]
    parts = itertools.islice(itertools.product(PRINTABLE, repeat=8), count)
    return [(begin + bytes(it) + b" " * 32).decode() for it in parts]
