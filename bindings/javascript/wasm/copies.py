#!/usr/bin/env python3
"""Has copies in LLVM IR done by loads and stores.

    copies.py GIVEN MADE

The compiler makes an instruction `memory.copy` of each copy of more than 64 bytes or of an unknown length, and an
engine calls a function for that, which takes five times as long as the loads and stores. So a copy of a constant length
is cut into parts that the compiler writes out: what a copy reads and writes may not overlap, so its parts mean the same
in any order. So are bytes that are set. A copy of an unknown length becomes a call of moving.c. It is done after the
optimizer, which knows copies as a whole; functions that are compiled for size stay as they are.
"""
import re

from one_step import run

#: The most that the compiler writes out, and the longest copy for which that is smaller than it is slow.
PART, LONGEST = 64, 256

_NAME = r'(?:[\w.$-]+|"[^"]*")'
_ADDRESS = rf"ptr [^%@,]*?[%@]{_NAME}"
_KNOWN = re.compile(r"(\s+)(?:tail )?call void @llvm\.(memcpy\.p0\.p0|memset\.p0)\.i64\("
                    rf"({_ADDRESS}), ({_ADDRESS}|i8 [^,]*), i64 (\d+), i1 false\)(.*)")
_UNKNOWN = re.compile(r"(\s+)(?:tail )?call void @llvm\.mem(?:cpy|move)\.p0\.p0\.i(32|64)\("
                      rf"({_ADDRESS}), ({_ADDRESS}), i\2 (?:range\(i\d+ -?\d+, -?\d+\) )?(%{_NAME}), i1 false\).*")
_POINTER = re.compile(rf"(ptr [^%@,]*?)([%@]{_NAME})")
# What is said of an address and doesn't hold for the parts behind it.
_LENGTH = re.compile(r"dereferenceable(?:_or_null)?\(\d+\) ")
_DEFINED = re.compile(r"define .*?#(\d+)(?: .*)?\{")
_FOR_SIZE = re.compile(r"^attributes #(\d+) = \{.*\boptsize\b", re.M)


def cut(text):
    """The IR with its copies done so."""
    small = set(_FOR_SIZE.findall(text))
    lines, declared, is_quick = [], [], False
    for number, line in enumerate(text.split("\n")):
        if found := _DEFINED.match(line):
            is_quick = found[1] not in small
        known = _KNOWN.fullmatch(line) if is_quick else None
        unknown = _UNKNOWN.fullmatch(line) if is_quick else None
        if known and PART < int(known[5]) <= LONGEST:
            lines += _parts(*known.groups(), number)
        elif unknown:
            lines += _call(*unknown.groups(), number)
            declared = ["declare void @move_bytes(ptr, ptr, i32)", ""]
        else:
            lines.append(line)
    return "\n".join(lines + declared)


def _parts(space, what, to, from_, length, rest, number):
    """The lines of the parts of a copy, or of bytes that are set. The number makes their names unlike others."""
    for begin in range(0, int(length), PART):
        words = []
        for name, word in (("to", to), ("from", from_)):
            word = _LENGTH.sub("", word)
            if begin and (pointer := _POINTER.fullmatch(word)):
                part = f"%copy.{number}.{name}.{begin}"
                yield f"{space}{part} = getelementptr inbounds i8, ptr {pointer[2]}, i64 {begin}"
                word = pointer[1] + part
            words.append(word)
        part = min(PART, int(length) - begin)
        yield f"{space}call void @llvm.{what}.i64({', '.join(words)}, i64 {part}, i1 false){rest}"


def _call(space, bits, to, from_, length, number):
    """The lines of a move of an unknown length. (Lengths have 32 bits, as addresses.)"""
    if bits == "64":
        yield f"{space}%copy.{number}.length = trunc i64 {length} to i32"
        length = f"%copy.{number}.length"
    to, from_ = (_POINTER.fullmatch(it)[2] for it in (to, from_))
    yield f"{space}call void @move_bytes(ptr {to}, ptr {from_}, i32 {length})"


if __name__ == "__main__":
    run(cut)
