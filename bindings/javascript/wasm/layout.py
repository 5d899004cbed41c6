#!/usr/bin/env python3
"""Lays out a WebAssembly text so that the module takes less when it is compressed.

    layout.py GIVEN MADE

Functions are put in an order in which those that are alike stand near one another. Parts of the data with few zeros
between them are joined. Nothing else is changed: in Binaryen's text functions are named, and not counted; and memory
begins as zeros. A text that isn't laid out as Binaryen does it is refused.
"""
import re

from one_step import run
from similarity import chained

BEGIN, END = " (func ", " )"
#: So many zeros between two parts of the data take less than another part does.
MOST_ZEROS = 256
#: So many lines that two functions share are a trait of both, and so many functions before one are looked at.
LINES, RECENT = 5, 2
_DATA = re.compile(r' \(data \(i32\.const ([0-9]+)\) "((?:\\[0-9a-f]{2}|\\[tnr"\'\\]|[ -!#-\[\]-~])*)"\)')
_BYTE = re.compile(r"\\[0-9a-f]{2}|\\.|.")


def laid_out(text):
    """The text, laid out. Raises `ValueError`."""
    return "\n".join([*ordered(joined(text.splitlines())), ""])


def ordered(given):
    """The lines with the functions in order, where the first one stands."""
    before, functions, after = [], [], []
    is_open = False
    for line in given:
        if line.startswith(BEGIN):
            if is_open:
                raise ValueError("a function in a function")
            functions.append([])
            is_open = True
        if is_open:
            functions[-1].append(line)
            is_open = line != END
        else:
            (after if functions else before).append(line)
    if is_open or not functions:
        raise ValueError("a function without its end" if is_open else "no function")
    order = chained(map(_traits, functions), RECENT)
    return [*before, *(line for number in order for line in functions[number]), *after]


def _traits(function):
    lines = [line.strip() for line in function]
    return ["\n".join(lines[at:at + LINES]) for at in range(len(lines) - LINES + 1)]


def joined(given):
    """The lines with the data joined."""
    made, parts, end = [], [], 0
    for line in given:
        if not line.startswith(" (data "):
            made.append(line)
            continue
        found = _DATA.fullmatch(line)
        if found is None:
            raise ValueError(f"not known: {line[:80]}")
        begin, written = int(found[1]), found[2]
        if begin < end:
            raise ValueError(f"data at {begin}, before {end}")
        if parts and begin - end <= MOST_ZEROS:
            parts.append("\\00" * (begin - end) + written)
        else:
            made += _data(parts)
            parts = [f' (data (i32.const {begin}) "{written}']
        end = begin + len(_BYTE.findall(written))
    # (Data may stand anywhere: the last part comes before the module's end.)
    return [*made[:-1], *_data(parts), *made[-1:]]


def _data(parts):
    return ["".join(parts) + '")'] if parts else []


if __name__ == "__main__":
    run(laid_out, ValueError)
