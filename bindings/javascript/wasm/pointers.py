"""Gives the pointers of LLVM IR 32 bits, where they have 64.

What holds a pointer in memory keeps its 64 bits, so each type has the size that it had, and each part of a value the
offset: a pointer is stored and loaded as an integer, whose upper half is zero. Registers, parameters and addresses have
32 bits then, as the memory of a module. A line that this file doesn't know, and that may hold a pointer in memory, is
refused.
"""
import re

from unknown import Unknown

_NAME = r'[%@](?:[\w.$-]+|"[^"]*")'
_GLOBAL = _NAME.replace("[%@]", "@")
_AT = rf"ptr {_NAME}, align \d+"
_ALLOCA = re.compile(rf"( +{_NAME} = alloca )ptr(, align 8)")
_LOAD = re.compile(rf" +({_NAME}) = load (ptr|\{{[^{{}}]*\}}), ({_AT}(?:, !noundef !\d+)?)")
_STORE = re.compile(rf" +store ptr ({_NAME}|null), ({_AT})")
_ADDRESS = re.compile(rf"( +{_NAME} = )ptrtoaddr (ptr {_NAME} to i64)")
# No object ends in the last 65,536 bytes of 4 GiB (heap.c), so this offset can't leave the 32 bits.
_OFFSET = re.compile(rf"( +{_NAME} = getelementptr )(i8, ptr {_NAME}, i64 [1-9]\d{{0,3}})")

# A constant whose parts are bytes and pointers to constants.
_POINTER = rf"ptr (?:{_GLOBAL}|getelementptr \(i8, ptr {_GLOBAL}, i64 \d+\))"
_BYTES = r'\[\d+ x i8\] (?:zeroinitializer|c"[^"]*")'
_PART = re.compile(rf"{_POINTER}|{_BYTES}")
_CONSTANT = re.compile(rf"({_NAME} = private (?:unnamed_addr )?constant )<\{{ ((?:ptr|\[\d+ x i8\]|, )+) \}}> "
                       rf"<\{{ ((?:{_PART.pattern}|, )+) \}}>(, align \d+)")

# Types in memory, where names are left out.
_QUOTED = re.compile(r'"(?:[^"\\]|\\.)*"|;.*$')
_IN_MEMORY = tuple(map(re.compile, (
    r"^@\S* = (.*)$", r"= alloca (.*)$", r"= load (?:atomic )?(.*), ptr\b", r"^ +store (?:atomic )?(.*), ptr\b",
    r"= getelementptr (.*), ptr\b", r"= cmpxchg ptr \S+, (.*)$", r"= atomicrmw \w+ ptr \S+, (.*)$")))


def narrowed(line, number):
    """The lines that take the place of one. Its number makes the names that they need unlike others."""
    if found := _ALLOCA.fullmatch(line):
        return [f"{found[1]}i64{found[2]}"]
    if found := _STORE.fullmatch(line):
        return [f"  %wide.{number} = ptrtoint ptr {found[1]} to i64", f"  store i64 %wide.{number}, {found[2]}"]
    if found := _ADDRESS.fullmatch(line):
        return [f"{found[1]}ptrtoint {found[2]}"]
    if found := _OFFSET.fullmatch(line):
        return [f"{found[1]}nuw {found[2]}"]
    if found := _CONSTANT.fullmatch(line):
        return [_constant(*found.groups())]
    found = _LOAD.fullmatch(line)
    if found and found[2] == "ptr":
        return [f"  %wide.{number} = load i64, {found[3]}", f"  {found[1]} = inttoptr i64 %wide.{number} to ptr"]
    if found and re.search(r"\bptr\b", found[2]):
        return list(_parts(*found.groups(), number))
    _check(line)
    return [line]


def _parts(name, kind, at, number):
    """The lines that load a value of several parts, some of which are pointers."""
    types = kind.strip("{ }").split(", ")
    wide = f"{{ {', '.join('i64' if it == 'ptr' else it for it in types)} }}"
    yield f"  %wide.{number} = load {wide}, {at}"
    whole = "poison"
    for index, type_ in enumerate(types):
        part = f"%part.{number}.{index}"
        yield f"  {part} = extractvalue {wide} %wide.{number}, {index}"
        if type_ == "ptr":
            yield f"  %pointer.{number}.{index} = inttoptr i64 {part} to ptr"
            part = f"%pointer.{number}.{index}"
        made = name if index == len(types) - 1 else f"%whole.{number}.{index}"
        yield f"  {made} = insertvalue {kind} {whole}, {type_} {part}, {index}"
        whole = made


def _constant(begin, types, values, end):
    """A constant, with zeros behind each of its pointers."""
    types = re.sub(r"\bptr\b", "ptr, i32", types)
    values = _PART.sub(lambda it: f"{it[0]}, i32 0" if it[0].startswith("ptr ") else it[0], values)
    return f"{begin}<{{ {types} }}> <{{ {values} }}>{end}"


def _check(line):
    """No type of what the line has in memory may have a pointer."""
    plain = _QUOTED.sub("", line)
    for pattern in _IN_MEMORY:
        found = pattern.search(plain)
        if found and re.search(r"\bptr\b", found[1]):
            raise Unknown(f"a pointer in memory: {line.strip()}")
