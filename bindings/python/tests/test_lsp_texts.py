"""The texts of the language server: UTF-16 positions and edits, and the values of texts that aren't finished."""
import json
import random
import unittest

from jschema import Text
from jschema.lsp.documents import Document
from jschema.lsp.ranges import Edit, Lines
from jschema.lsp.tree import read

PARTS = ("a", "é", "\U0001f600", "\n", "\r\n", "\r", '"', "xyz", "")


def positions(text):
    """Each place of a text between two characters, as the protocol counts: by its lines' UTF-16 units."""
    found, line, character = [], 0, 0
    for index, it in enumerate(text):
        found.append((line, character))
        is_end = it == "\n" or it == "\r" and text[index + 1:index + 2] != "\n"
        line, character = (line + 1, 0) if is_end else (line, character + len(it.encode("utf-16-le")) // 2)
    return [*found, (line, character)]


def as_position(place):
    return {"line": place[0], "character": place[1]}


def is_written(text, offset):
    """Whether a client names a place: not between the two characters of a line end."""
    return text[offset - 1:offset + 1] != "\r\n"


class Positions(unittest.TestCase):
    def test_both_ways(self):
        numbers = random.Random(1)
        for _ in range(200):
            text = "".join(numbers.choice(PARTS) for _ in range(12))
            lines = Lines(text)
            for offset, place in enumerate(positions(text)):
                if is_written(text, offset):
                    self.assertEqual(lines.position(offset), as_position(place))
                    self.assertEqual(lines.offset(as_position(place)), offset, text)

    def test_beyond(self):
        """What is behind a line counts as its end, and what is behind the text as the text's."""
        lines = Lines("é\U0001f600\r\nxy\nz")
        self.assertEqual([lines.offset(as_position(it)) for it in ((0, 99), (1, 3), (2, 9), (7, 0), (0, 1))],
                         [2, 6, 8, 8, 1])

    def test_random_edits(self):
        numbers = random.Random(2)
        for _ in range(50):
            text = ""
            document = Document("file:///a.json", "json", 1, text)
            for version in range(2, 20):
                places = [it for it in enumerate(positions(text)) if is_written(text, it[0])]
                (begin, first), (end, last) = sorted(numbers.choices(places, k=2))
                new = "".join(numbers.choice(PARTS) for _ in range(4))
                between = {"start": as_position(first), "end": as_position(last)}
                document.change(version, [{"range": between, "text": new}])
                text = text[:begin] + new + text[end:]
                self.assertEqual((document.text, document.version), (text, version))

    def test_moved(self):
        edit = Edit(5, 8, 1)
        self.assertEqual([edit.moved(it) for it in (0, 5, 6, 7, 8, 10)], [0, 5, 6, 6, 6, 8])
        self.assertEqual([Edit(5, 5, 2).moved(it) for it in (4, 5, 6)], [4, 7, 8])


def random_value(numbers, levels=3):
    kind = numbers.randrange(7 if levels else 5)
    if kind < 5:
        return (None, True, -12, 'é"\\\n', "")[kind]
    children = [random_value(numbers, levels - 1) for _ in range(numbers.randrange(4))]
    return children if kind == 5 else {f'{index}/~"'[index % 3:]: it for index, it in enumerate(children)}


def value_of(text, node):
    """The value of a whole tree."""
    if node.kind == "object":
        return {it.key: value_of(text, it) for it in node.children}
    if node.kind == "array":
        return [value_of(text, it) for it in node.children]
    return json.loads(text[node.begin:node.end])


def nodes(root):
    yield root
    for child in root.children:
        yield from nodes(child)


class Trees(unittest.TestCase):
    def test_whole_texts(self):
        """The tree of a JSON text has its values, each where the package finds it."""
        numbers = random.Random(3)
        for _ in range(300):
            value = random_value(numbers)
            text = json.dumps(value, indent=numbers.choice((None, 1)), ensure_ascii=False)
            root = read(text)
            self.assertEqual(value_of(text, root), value)
            places = Text(text.encode())
            for node in nodes(root):
                begin = places.value(node.pointer()).offset
                self.assertEqual(text.encode()[:begin].decode(), text[:node.begin])
                name = places.name(node.pointer()).offset
                self.assertEqual(text.encode()[:name].decode(), text[:node.first])
                self.assertIs(root.find(node.tokens()), node)
                self.assertIs(root.at(node.first), node)

    def test_unfinished_texts(self):
        """What stands before the place where a text ends is told as in the whole text."""
        numbers = random.Random(4)
        for _ in range(60):
            text = json.dumps({"a": random_value(numbers), "b": random_value(numbers)}, ensure_ascii=False)
            whole = {node.pointer(): node for node in nodes(read(text))}
            for end in range(1, len(text)):
                root = read(text[:end])
                for node in nodes(root):
                    if node.end < end and node.kind != "missing":
                        self.assertEqual((node.kind, node.begin, node.end),
                                         [(it.kind, it.begin, it.end) for it in [whole[node.pointer()]]][0])

    def test_any_text(self):
        """Whatever a text is, its nodes lie in one another, in their order."""
        numbers = random.Random(5)
        for _ in range(500):
            text = "".join(numbers.choice(('{', '}', '[', ']', ',', ':', '"', 'a', '1', '\\', ' ', '\n', '//', "é"))
                           for _ in range(20))
            for node in nodes(read(text)):
                self.assertLessEqual(node.first, node.begin)
                self.assertLessEqual(node.end, len(text))
                for child in node.children:
                    self.assertTrue(node.begin <= child.first and child.end <= node.end, text)
                begins = [child.first for child in node.children]
                self.assertEqual(begins, sorted(begins))

    def test_broken(self):
        for text, shape in (('{"a": {"b": 1', {"a": {"b": "1"}}), ('{"a": [1, 2}', {"a": ["1", "2"]}),
                            ('{"a": 1 "b": 2}', {"a": "1", "b": "2"}), ('{"a" "b": 2}', {"a": "", "b": "2"}),
                            ("{a: 1, {}: 2}", {"a": "1", "2": ""}), ('[1 2]', ["1", "2"]), ('{"a": ', {"a": ""}),
                            ('{"a": "x\n, "b": 2}', {"a": '"x', "b": "2"}), ("]} 5", "5"), ("", "")):
            with self.subTest(text):
                self.assertEqual(self.shape(text, read(text)), shape)

    def shape(self, text, node):
        if node.kind == "object":
            return {it.key: self.shape(text, it) for it in node.children}
        return [self.shape(text, it) for it in node.children] if node.kind == "array" else text[node.begin:node.end]
