#!/usr/bin/env python3
"""Puts constants of LLVM IR that are alike near one another, so that the module takes less when it is compressed.

    ordering.py GIVEN MADE

The tables of Unicode take a third of the module, and many have stretches in common. Constants that are private, have no
address that counts and no address in them, change places with one another. Nothing else is changed, and such a constant
means the same wherever it stands.
"""
import re

from one_step import run
from similarity import chained

_CONSTANT = re.compile(r'@(?:[\w.$-]+|"[^"]*") = private unnamed_addr constant \[\d+ x i8\] '
                       r'c"((?:[^"\\]|\\[0-9A-F]{2}|\\\\)*)"(?:, align \d+)?')
_BYTE = re.compile(r"\\[0-9A-F]{2}|\\\\|.")
#: So many bytes that two constants share are a trait of both, and so many constants before one are looked at.
STRETCH, RECENT = 8, 4


def ordered(text):
    """The IR with its constants in order."""
    lines = text.split("\n")
    places = [number for number, line in enumerate(lines) if line.startswith("@") and _CONSTANT.fullmatch(line)]
    constants = [lines[number] for number in places]
    order = chained(map(_stretches, constants), RECENT)
    for place, number in zip(places, order):
        lines[place] = constants[number]
    return "\n".join(lines)


def _stretches(constant):
    content = _BYTE.findall(_CONSTANT.fullmatch(constant)[1])
    return ["".join(content[at:at + STRETCH]) for at in range(len(content) - STRETCH + 1)]


if __name__ == "__main__":
    run(ordered)
