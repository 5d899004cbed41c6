"""JSON texts (RFC 8259) as the profile reads them, pointers (RFC 6901) and fragments (RFC 3986, section 3.5).

A value is None, a bool, an int, a str, a list or a dict whose names ascend. `Fraction` stands for a number that isn't
whole, as long as a text is being read.
"""
import json
import re

LEAST, GREATEST = -2**63, 2**64 - 1
DEEPEST = 127
NUMBER = re.compile(r"-?(?:0|[1-9][0-9]*)(\.[0-9]+)?([eE][+-]?[0-9]+)?")
PLAIN = re.compile(r'[^"\\\x00-\x1f]*')
ESCAPES = {'"': '"', "\\": "\\", "/": "/", "b": "\b", "f": "\f", "n": "\n", "r": "\r", "t": "\t"}
UNRESERVED = set(b"abcdefghijklmnopqrstuvwxyzABCDEFGHIJKLMNOPQRSTUVWXYZ0123456789-._~!$&'()*+,;=:@/?")


class NotJson(Exception):
    """The bytes are no JSON text."""


class NotWhole(Exception):
    """A number isn't whole, or is out of range; `pointer` is the place of the first one."""

    def __init__(self, pointer):
        super().__init__(pointer)
        self.pointer = pointer


class Fraction:
    """A number that isn't whole, or that is out of range."""


class Reader:
    def __init__(self, text):
        self.text, self.at = text, 0

    def space(self):
        while self.at < len(self.text) and self.text[self.at] in " \t\n\r":
            self.at += 1

    def take(self, word):
        if not self.text.startswith(word, self.at):
            raise NotJson
        self.at += len(word)

    def peek(self):
        self.space()
        if self.at == len(self.text):
            raise NotJson
        return self.text[self.at]

    def value(self, depth):
        first = self.peek()
        if first in "[{" and depth == DEEPEST:
            raise NotJson
        if first == "{":
            return self.members(depth + 1)
        if first == "[":
            return self.items(depth + 1)
        if first == '"':
            return self.string()
        for word, value in (("null", None), ("true", True), ("false", False)):
            if first == word[0]:
                self.take(word)
                return value
        return self.number()

    def items(self, depth):
        self.take("[")
        items = []
        if self.peek() == "]":
            self.take("]")
            return items
        while True:
            items.append(self.value(depth))
            if self.peek() == "]":
                self.take("]")
                return items
            self.take(",")

    def members(self, depth):
        self.take("{")
        members = {}
        if self.peek() == "}":
            self.take("}")
            return members
        while True:
            if self.peek() != '"':
                raise NotJson
            name = self.string()
            self.peek()
            self.take(":")
            members[name] = self.value(depth)
            if self.peek() == "}":
                self.take("}")
                return dict(sorted(members.items()))
            self.take(",")

    def unit(self):
        digits = self.text[self.at:self.at + 4]
        if not re.fullmatch("[0-9a-fA-F]{4}", digits):
            raise NotJson
        self.at += 4
        return int(digits, 16)

    def string(self):
        self.take('"')
        parts = []
        while True:
            plain = PLAIN.match(self.text, self.at)
            parts.append(plain[0])
            self.at = plain.end()
            if self.text.startswith('"', self.at):
                self.at += 1
                return "".join(parts)
            self.take("\\")
            if self.at == len(self.text):
                raise NotJson
            kind = self.text[self.at]
            self.at += 1
            if kind in ESCAPES:
                parts.append(ESCAPES[kind])
            elif kind == "u":
                code = self.unit()
                if 0xD800 <= code < 0xDC00:
                    self.take("\\u")
                    low = self.unit()
                    if not 0xDC00 <= low < 0xE000:
                        raise NotJson
                    code = 0x10000 + (code - 0xD800 << 10) + (low - 0xDC00)
                elif 0xDC00 <= code < 0xE000:
                    raise NotJson
                parts.append(chr(code))
            else:
                raise NotJson

    def number(self):
        found = NUMBER.match(self.text, self.at)
        if not found:
            raise NotJson
        self.at = found.end()
        text = found[0]
        if found[1] is None and found[2] is None and text != "-0" and len(text) < 25 and LEAST <= int(text) <= GREATEST:
            return int(text)
        if float(text) in (float("inf"), float("-inf")):
            raise NotJson
        return Fraction


def any_value(data):
    """The value of a text, with `Fraction` for each number that isn't whole."""
    try:
        reader = Reader(data.decode())
    except UnicodeDecodeError:
        raise NotJson from None
    value = reader.value(0)
    reader.space()
    if reader.at != len(reader.text):
        raise NotJson
    return value


def first_fraction(value, pointer=()):
    """The place of the first number that isn't whole, in preorder, members by name; none without one."""
    if value is Fraction:
        return pointer
    pairs = value.items() if isinstance(value, dict) else enumerate(value) if isinstance(value, list) else ()
    for step, below in pairs:
        found = first_fraction(below, (*pointer, str(step)))
        if found is not None:
            return found
    return None


def read(data):
    """The value of a text whose numbers are all whole."""
    value = any_value(data)
    found = first_fraction(value)
    if found is not None:
        raise NotWhole(found)
    return value


def text(value):
    """The compact text, names ascending."""
    return json.dumps(value, ensure_ascii=False, separators=(",", ":"), sort_keys=True)


def is_equal(left, right):
    """Equality of values: a truth value equals no number, members count in any order."""
    return text(left) == text(right)


def pointer_text(pointer):
    return "".join("/" + it.replace("~", "~0").replace("/", "~1") for it in pointer)


def pointer_of(text):
    """The pointer that a text is of, or none."""
    if text and not text.startswith("/") or re.search("~(?![01])", text):
        return None
    return tuple(it.replace("~1", "/").replace("~0", "~") for it in text.split("/")[1:])


def fragment(pointer):
    return "".join(chr(it) if it in UNRESERVED else f"%{it:02X}" for it in pointer_text(pointer).encode())


def decoded(fragment):
    """The text of a fragment, or none where its bytes aren't UTF-8."""
    data = re.sub(rb"%([0-9a-fA-F]{2})", lambda it: bytes([int(it[1], 16)]), fragment.encode())
    try:
        return data.decode()
    except UnicodeDecodeError:
        return None
