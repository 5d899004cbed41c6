"""Positions in JSON texts, against the reference's reader."""
import itertools
import json
import re
import unittest
from unittest import mock

import jschema
from commands import Case
from jschema import NotJson, Text, positions, sources
from jschema.faults import first_fault
from jschema.library import find_library
from jschema.limits import DEEPEST
from jschema.lint import lint
from jschema.locations import pointer
from jschema.lsp.diagnostics import Diagnoses
from jschema.lsp.documents import Document
from jschema.lsp.workspace import Workspace
from jschema.sources import JsonSource
from random_faults import SAMPLE, is_json
from test_faults import JSON, NOT_JSON
from tests.reference import json_text
from tests.support.rows import texts

# Of the rows, two arrays of a million numbers are larger.
LARGE = 100_000


def by_python(*_):
    """What the engine of the program finds: nothing."""


def every_text(data):
    """A text in which Python finds the values, one that it knows to be JSON, and one in which the library finds them,
    where it is the engine."""
    yield Text(data, locate=by_python)
    yield Text(data, is_json=True, locate=by_python)
    if find_library() is not None:
        yield Text(data)
        yield Text(data, is_json=True, locate=jschema.LibraryEngine().locate)


def refusal_position(data, refused):
    """Where a text is refused."""
    return JsonSource("json", data, data).refusal(refused).begin


def naive(data, offset):
    """Line and column by the characters before a byte."""
    before = data[:offset].decode()
    return before.count("\n") + 1, len(before) - before.rfind("\n")


class Node:
    """A value that the reference read: its first byte, the byte after it, that of its member's name, what it holds."""

    def __init__(self, offset, name):
        self.offset, self.name, self.end = offset, name, None
        self.children = {}


class Placing(json_text.Reader):
    """The reference's reader, which notes where the values stand."""

    def __init__(self, data):
        super().__init__(data.decode())
        # Where each character begins.
        self.bytes = [*itertools.accumulate((len(it.encode()) for it in self.text), initial=0)]
        # The last string that is the name of a member, and where it begins.
        self.name = None, None
        self.root = Node(None, None)
        self.holder = self.root
        self.value(0)

    def string(self):
        begin = self.bytes[self.at]
        self.name = super().string(), begin
        return self.name[0]

    def value(self, depth):
        self.space()
        name, begin = self.name
        node, holder = Node(self.bytes[self.at], begin), self.holder
        holder.children[str(len(holder.children)) if name is None else name] = node
        self.name, self.holder = (None, None), node
        value = super().value(depth)
        self.name, self.holder = (None, None), holder
        node.end = self.bytes[self.at]
        return value


def nodes(node, tokens=()):
    """Each node below this one, with its tokens."""
    for token, child in node.children.items():
        yield (*tokens, token), child
        yield from nodes(child, (*tokens, token))


def placed(data):
    """Where each value of a text stands, with its tokens."""
    root = Placing(data).root.children["0"]
    return [((), root), *nodes(root)]


def value_at(value, tokens):
    for token in tokens:
        value = value[int(token) if isinstance(value, list) else token]
    return value


def no_json_at(text):
    """Where a text stops being JSON; None if it is JSON."""
    try:
        text.value("")
    except NotJson as error:
        return error.offset
    return None


def is_beyond(data):
    """Whether the validator alone refuses a text as no JSON, for a number or a level too many."""
    try:
        json.dumps(json.loads(data.decode(), parse_constant=int), ensure_ascii=False).encode()
    except (ValueError, RecursionError):
        return False
    return True


class Positions(unittest.TestCase):
    def judge(self, data):
        """A text is read as the reference reads it, and every value and name is where the text has it."""
        text, *known = every_text(data)
        if not is_json(data):
            expected = first_fault(data, DEEPEST + 1, any_number=True)
            self.assertEqual(expected is None, is_beyond(data))
            self.assertEqual([no_json_at(it) for it in (text, Text(data))], [expected, expected])
            return
        value = json_text.any_value(data)
        found = placed(data)
        self.assertEqual(self.leaves(value), len(found))
        # The values of a text that is known to be JSON are found too, those in the middle of it first.
        for other in known:
            other.expect(pointer(tokens) for tokens, _ in found)
            for tokens, node in sorted(found, key=lambda it: it[1].offset % 7):
                self.assertEqual(other.value(pointer(tokens)), text.value(pointer(tokens)))
                self.assertEqual(other.name(pointer(tokens)), text.name(pointer(tokens)))
                self.assertEqual(other.span(pointer(tokens)), (node.offset, node.end))
                self.assertEqual(other.name_span(pointer(tokens)), text.name_span(pointer(tokens)))
                self.assertEqual(other.path(pointer(tokens)), text.path(pointer(tokens)))
        for tokens, node in found:
            self.judge_node(text, node, tokens, value_at(value, tokens))

    def leaves(self, value):
        """How many values a value holds, itself included."""
        below = value.values() if isinstance(value, dict) else value if isinstance(value, list) else ()
        return 1 + sum(map(self.leaves, below))

    def judge_node(self, text, node, tokens, value):
        if isinstance(value, (dict, list)):
            self.assertEqual(len(node.children), len(value))
            self.assertIn(text.data[node.offset:node.offset + 1] + text.data[node.end - 1:node.end], (b"[]", b"{}"))
        else:
            found = json_text.any_value(text.data[node.offset:node.end])
            self.assertEqual((type(found), found), (type(value), value))
        at = text.value(pointer(tokens))
        self.assertEqual(at, (node.offset, *naive(text.data, node.offset)))
        self.assertEqual(text.span(pointer(tokens)), (node.offset, node.end))
        self.assertEqual(pointer(list(map(str, text.path(pointer(tokens))))), pointer(tokens))
        if node.name is not None:
            self.assertIsInstance(text.path(pointer(tokens))[-1], str)
            begin = text.name(pointer(tokens)).offset
            name = re.match(rb'"(?:[^"\\]|\\.)*"', text.data[begin:])[0]
            self.assertEqual(text.name_span(pointer(tokens)), (begin, begin + len(name)))
            self.assertEqual(json.loads(name), tokens[-1])
            self.assertRegex(text.data[begin + len(name):node.offset], rb"\A[ \t\r\n]*:[ \t\r\n]*\Z")

    def test_rows(self):
        for name, data in texts():
            if len(data) < LARGE:
                with self.subTest(name):
                    if len(data) < 3000:
                        self.judge(data)
                    else:
                        self.assertEqual(self.is_read(data), is_json(data))

    def test_large_row(self):
        """The largest row, by Python's reader: the reference takes long."""
        data = max((data for _, data in texts()), key=len)
        self.assertGreater(len(data), LARGE)
        length = len(json.loads(data))
        self.assertIsNone(first_fault(data))
        text = Text(data, is_json=True)
        self.assertEqual(data[text.value(f"/{length - 1}").offset - 1:][:1], b",")
        with self.assertRaises(LookupError):
            text.value(f"/{length}")

    def is_read(self, data):
        return no_json_at(Text(data)) is None

    def test_sample(self):
        self.judge(SAMPLE)

    def test_torn(self):
        for end in range(len(SAMPLE)):
            self.assertEqual(self.is_read(SAMPLE[:end]), is_json(SAMPLE[:end]), SAMPLE[:end])

    def test_other_bytes(self):
        for at in range(len(SAMPLE)):
            for byte in b'\x00\x1f "\\[]{},:0-.eEtun\x80\xc3\xff':
                data = SAMPLE[:at] + bytes([byte]) + SAMPLE[at + 1:]
                self.assertEqual(self.is_read(data), is_json(data), data)

    def test_texts(self):
        for data in (*JSON, *NOT_JSON):
            with self.subTest(data):
                self.assertEqual(is_json(data), data in JSON)
                self.judge(data)

    def test_last_of_a_name_counts(self):
        for text in every_text(b'{"a": 1,\n "a": [2]}'):
            self.assertEqual(text.value("/a"), (15, 2, 7))
            self.assertEqual(text.name("/a"), (10, 2, 2))
            self.assertEqual(text.value("/a/0"), (16, 2, 8))

    def test_nested(self):
        for levels in (128, 129):
            for text in (Text(b"[" * levels + b"]" * levels), Text(b"[" * levels + b"]" * levels, locate=by_python)):
                self.assertEqual(no_json_at(text), None if levels == 128 else 128)
        for text in every_text(b"[" * 127 + b"]" * 127):
            self.assertEqual((text.value("/0" * 126).column, text.span("/0" * 126)), (127, (126, 128)))

    def test_long_line(self):
        for text in every_text(("[" + ", ".join(['"é"'] * 20000) + "]").encode()):
            for index in (0, 1, 700, 19999):
                self.assertEqual(text.value(f"/{index}"), (1 + 6 * index, 1, 2 + 5 * index))

    def test_no_such_value(self):
        for text in every_text(b'{"a": [1], "?": 2}'):
            for place in ("/b", "/a/1", "/a/-1", "/a/00", "/a/\u0660", "/a/0/0", "/a/-", "/a/" + "9" * 5000, "/\ud800"):
                with self.subTest(place[:9]), self.assertRaises(LookupError):
                    text.value(place)

    def test_no_characters(self):
        with self.assertRaises(NotJson) as raised:
            Text(b'["\xc3"]').value("")
        self.assertEqual(raised.exception.offset, 2)

    def test_no_pointer(self):
        for text in every_text(b'{"age": 1, "~2": 2, "": 3}'):
            for place in ("age", "~2", "/~2", "/age~", "/~", "#/age", " "):
                for call in (text.value, text.name, text.path):
                    with self.subTest(place), self.assertRaisesRegex(ValueError, "isn't a JSON Pointer"):
                        call(place)
            self.assertEqual((text.value("/").offset, text.value("/~02").offset), (24, 17))

    def test_strings(self):
        """Strings with escapes and brackets, beside and around what is asked for."""
        odd = json.dumps(['"', "\\", '\\"', "[", "}", "]{", 'a"[', "\\\\", "\n", ""])
        data = ('{"a]": %s, "b\\"[": {"c": %s, "\\\\": [%s, 7]}, "d": 8}' % (odd, odd, odd)).encode()
        for text in every_text(data):
            self.assertEqual(text.value("/d").offset, data.index(b"8"))
            self.assertEqual(text.value('/b"[/\\/1').offset, data.index(b"7"))
            self.assertEqual(text.name('/b"[/\\').offset, data.index(b'"\\\\": ['))


    def test_long_values(self):
        """Arrays and objects beside and around what is asked for, more of them and longer than are passed over at
        once."""
        some = [7, "]", '"', "\\", {"a": []}, {}, [[]], {"a": {"b": [{"c": "}"}]}}]
        for value in ([some] * 300, [["x"] * 1000, some], [{"a": 1, "b": "c"}] * 1000, [some, {"a": ["x"] * 300}] * 3):
            self.judge(json.dumps([value, {"a": value}]).encode())


class Asked(unittest.TestCase):
    def test_together(self):
        """The positions of all errors come by one call of the engine, and all paths by another."""
        data = b'[1, {"0": 2}, [[3], [4]]]'
        schema = {"items": {"type": "array", "items": {"items": False}, "properties": {"0": False}}}
        with jschema.Schemas({"a:b": schema}) as schemas:
            errors = schemas.errors("a:b", data)
            locate = mock.Mock(wraps=errors[0].text._locate)
            errors[0].text._locate = locate
            self.assertEqual(sorted(error.position.offset for error in errors), [1, 4, 10, 16, 21])
            locate.assert_called_once()
            found = {error.position.offset: error.path for error in errors}
            self.assertLessEqual(locate.call_count, 2)
        self.assertEqual(found, {1: [0], 4: [1], 10: [1, "0"], 16: [2, 0, 0], 21: [2, 1, 0]})


    def test_each_once(self):
        """Many errors about one value ask for it once, by a long pointer too."""
        name = "x" * 100_000
        data = json.dumps({name: 1}).encode()
        schema = {"additionalProperties": {"allOf": [{"minimum": number} for number in range(2, 102)]}}
        with jschema.Schemas({"a:b": schema}) as schemas:
            errors = schemas.errors("a:b", data)
            locate = mock.Mock(wraps=errors[0].text._locate)
            errors[0].text._locate = locate
            self.assertEqual([error.position.offset for error in errors], [100_005] * 100)
            self.assertEqual([[*it.args[1]] for it in locate.call_args_list], [[f"/{name}"]])

    def test_end_once(self):
        """Many errors about one value don't go through it again."""
        data = json.dumps({"a": [[]] * 1000}).encode()
        with mock.patch.object(positions, "end_of_value", side_effect=positions.end_of_value) as asked:
            for text in every_text(data):
                asked.reset_mock()
                self.assertEqual([text.span("/a") for _ in range(100)], [(6, len(data) - 1)] * 100)
                self.assertEqual([text.span("") for _ in range(100)], [(0, len(data))] * 100)
                self.assertLessEqual(asked.call_count, 1)


class ByTheLibrary(Case):
    """Where an error and its keyword stand, where they end, and the path come from the library: Python goes through no
    text."""

    def setUp(self):
        if find_library() is None:
            self.skipTest("no library")
        for module, name in ((positions, "first_fault"), (positions, "root"), (positions, "end_of_value"),
                             (positions, "end_of_text"), (sources.source, "first_fault")):
            patched = mock.patch.object(module, name, side_effect=AssertionError("a pass by Python"))
            patched.start()
            self.addCleanup(patched.stop)

    def asked(self):
        """What is asked of the library: each text, and how many values are looked for."""
        found = []

        def located(library, text, pointers):
            self.assertEqual(len(set(pointers)), len(pointers))
            found.append((text, len(pointers)))
            return before(library, text, pointers)

        before = jschema.library._located
        patched = mock.patch.object(jschema.library, "_located", side_effect=located)
        patched.start()
        self.addCleanup(patched.stop)
        return found

    def test_errors(self):
        with jschema.Schemas({"a:b": {"items": {"properties": {"7": {"type": "array"}}}}}) as schemas:
            [error] = schemas.errors("a:b", b'[[1], {"7": 2}]')
        self.assertEqual((error.position, error.path), ((12, 1, 13), [1, "7"]))
        self.assertEqual((error.text.span("/1"), error.text.name_span("/1/7")), ((6, 14), (7, 10)))

    def test_any_text(self):
        """Also one that no engine has read, with any numbers."""
        text = Text(b'{"a": [0.5, "x"], "b\\"": 1e999}')
        self.assertEqual((text.value("/a/1"), text.span("/a"), text.path("/a/1")), ((12, 1, 13), (6, 16), ["a", 1]))
        self.assertEqual((text.name_span('/b"'), text.span("")), ((18, 23), (0, 31)))

    def test_validator(self):
        schema = {"items": {"properties": {"7": {"type": "array"}}, "additionalProperties": False}}
        asked = self.asked()
        errors = list(jschema.Validator(schema).iter_errors([[1], {"7": 2}, {"a": 1, "b": 2}]))
        self.assertEqual([[*error.absolute_path] for error in errors], [[1, "7"], [2]])
        self.assertEqual([error.position.offset for error in errors], [12, 16])
        self.assertEqual(len(asked), 1)

    def test_command(self):
        self.write("numbers.json", '{"items": {"minimum": 0}}')
        self.write("three.json", "[1,\n -1, 2]")
        for format in ("short", "text", "json", "github", "sarif", "junit", "html"):
            with self.subTest(format):
                out, _, status = self.run_inside("validate", "--format", format, "numbers.json", "three.json")
                self.assertRegex(out, "less than 0")
                self.assertEqual(status, 1)
        out, _, _ = self.run_inside("validate", "numbers.json", "three.json")
        self.assertIn("\n2 |  -1, 2]\n  |  ^^ /1\n  = numbers.json:1:12: minimum\n", out)

    def test_keywords(self):
        """The keywords of a schema are found by two calls at most, however many instances there are."""
        self.write("wide.json", json.dumps({"properties": {f"a{it}": {"type": "null"} for it in range(100)}}))
        self.write("lines.jsonl", "".join(f'{{"a{it}": 1}}\n' for it in range(100)))
        schema = (self.folder / "wide.json").read_bytes()
        asked = self.asked()
        out, _, status = self.run_inside("validate", "--format", "json", "--lines", "wide.json", "lines.jsonl")
        self.assertEqual((len(json.loads(out)), status), (100, 1))
        self.assertEqual([text == schema for text, _ in asked].count(True), 2)
        self.assertEqual(len(asked), 102)

    def test_lint(self):
        asked = self.asked()
        text = json.dumps({"properties": {f"a{it}": {"requierd": 1} for it in range(100)}}, indent=1)
        self.write("lint.json", text)
        out, _, status = self.run_inside("lint", "--format", "short", "lint.json")
        self.assertEqual((len(out.splitlines()), status), (100, 1))
        self.assertEqual([count for _, count in asked], [100])
        [first, *_] = lint(text.encode(), "a:b")
        self.assertEqual(text[first.range.begin.offset:first.range.end.offset], '"requierd"')

    def test_language_server(self):
        value = {"$schema": "s.schema.json", "a": {"b": [1]}, **{f"c{it}": it for it in range(100)}}
        text = json.dumps(value, indent=1)
        self.write("s.schema.json", '{"properties": {"a": {"properties": {"b": {"type": "null"}}}}, '
                                    '"patternProperties": {"^c": {"type": "string"}}}')
        self.write("s.json", text)
        document = Document((self.folder / "s.json").as_uri(), "json", 1, text)
        asked = self.asked()
        found = Diagnoses(Workspace()).of(document)
        self.assertEqual((len(found), sorted(count for _, count in asked)), (101, [2, 101]))
        spans = {text[it.span.begin:it.span.end] for it in found}
        self.assertEqual(spans, {'"b"', *map(str, range(100))})

    def test_warnings(self):
        """Those of all formats by one call for the instance and one for the schema."""
        self.write("formats.json", '{"items": {"format": "ipv4"}}')
        self.write("addresses.json", '["a", "127.0.0.1", "b"]')
        asked = self.asked()
        out, said, status = self.run_inside("validate", "--formats", "--format", "short", "formats.json",
                                            "addresses.json")
        self.assertEqual([line.split(":")[1:3] for line in (out + said).splitlines()[:2]], [["1", "2"], ["1", "20"]])
        self.assertEqual((status, [count for _, count in asked]), (0, [1, 2]))


class WithoutAPass(unittest.TestCase):
    """The positions that the engine's answer is enough for: whether the text is JSON isn't looked at again."""

    def setUp(self):
        patched = mock.patch.object(positions, "first_fault", side_effect=AssertionError("a pass over the whole text"))
        patched.start()
        self.addCleanup(patched.stop)

    def test_errors(self):
        data = b'[[{}, [1, "]"], {"a": [0]}],\n"A", ' + b", ".join([b'{"b": "[}\\""}'] * 1000) + b"]"
        with jschema.Schemas({"a:b": {"items": {"type": ["array", "object"]}}}) as schemas:
            [error] = schemas.errors("a:b", data)
            self.assertEqual((error.position, error.path), ((29, 2, 1), [1]))

    def test_many_errors(self):
        """Each position is found where the one before ended: not from the beginning again."""
        data = json.dumps([{"a": number} for number in range(30_000)]).encode()
        with jschema.Schemas({"a:b": {"items": {"properties": {"a": {"type": "string"}}}}}) as schemas:
            errors = schemas.errors("a:b", data)
            found = [error.position.offset for error in errors]
        self.assertEqual(found, [it.start() for it in re.finditer(rb"\d+", data)])

    def test_refusals(self):
        for data, entry, expected in ((b'[1,\n {"a": [1.5]}]', "a:b", (12, 2, 9)), (b"\n1", "a:b", (0, 1, 1)),
                                      (b" " * 2**24 + b"1", "a:b", (0, 1, 1)), (b"\n1", "a:c", (0, 1, 1))):
            with jschema.Schemas({"a:b": {"$ref": "#"}}) as schemas, self.assertRaises(jschema.Refused) as raised:
                schemas.is_valid(entry, data)
            self.assertEqual(refusal_position(data, raised.exception), expected)

    def test_document(self):
        data = b'{"allOf": [true,\n {"type": 1}]}'
        with self.assertRaises(jschema.Refused) as raised:
            jschema.Schemas({"a:b": data})
        self.assertEqual(refusal_position(data, raised.exception)[1:], (2, 11))
