/** Where the values of a text stand. Expected are the places of their characters in it, found with `indexOf`. */
import assert from "node:assert/strict";
import { test } from "node:test";
import { Schemas } from "jschema";

const TEXT = '{"é😀": [1, {"a\\"b\\\\": "😀",\n\t"~/": {}}],\r\n "x": -1.5e2 , "0": [[]], "x":\n "last"}\n';
const schemas = await Schemas.create({ "urn:x": "true" });

/** A position by its index. */
function at(offset, text = TEXT) {
  const before = text.slice(0, offset), line = before.lastIndexOf("\n") + 1;
  return { offset, line: before.split("\n").length, column: [...before.slice(line)].length + 1 };
}

test("values, names and their ends, as strings and as bytes", () => {
  for (const text of [schemas.positions(TEXT), schemas.positions(new TextEncoder().encode(TEXT))]) {
    assert.equal(text.string, TEXT);
    for (const [pointer, value, name] of [
      ["", TEXT.trimEnd()], ["/é😀", TEXT.slice(TEXT.indexOf("["), TEXT.indexOf("]") + 1), '"é😀"'], ["/é😀/0", "1"],
      ['/é😀/1/a"b\\', '"😀"', '"a\\"b\\\\"'], ["/é😀/1/~0~1", "{}", '"~/"'], ["/0", "[[]]", '"0"'], ["/0/0", "[]"],
    ]) {
      const offset = pointer === "/0/0" ? TEXT.indexOf("[[]]") + 1 : TEXT.indexOf(value);
      const begin = name === undefined ? offset : TEXT.indexOf(name);
      assert.deepEqual(text.value(pointer), at(offset), pointer);
      assert.deepEqual(text.range(pointer), { offset, end: offset + value.length }, pointer);
      assert.deepEqual(text.name(pointer), at(begin), pointer);
      assert.deepEqual(text.nameRange(pointer), { offset: begin, end: begin + (name ?? value).length }, pointer);
    }
  }
});

test("of members with the same name the last counts", () => {
  const text = schemas.positions(TEXT);
  assert.deepEqual(text.value("/x"), at(TEXT.indexOf('"last"')));
  assert.deepEqual(text.name("/x"), at(TEXT.lastIndexOf('"x"')));
});

test("a path has the names of members and the indices of items", () => {
  const text = schemas.positions(TEXT);
  text.expect(["/0/0", '/é😀/1/a"b\\']);
  assert.deepEqual(text.path("/0/0"), ["0", 0]);
  assert.deepEqual(text.path('/é😀/1/a"b\\'), ["é😀", 1, 'a"b\\']);
  assert.deepEqual(text.path(""), []);
});

test("what isn't there, and what is no JSON Pointer", () => {
  const text = schemas.positions(TEXT);
  for (const pointer of ["/y", "/é😀/2", "/é😀/00", "/é😀/-", "/0/0/0", "x", "/~2", "/\ud800"]) {
    assert.throws(() => text.value(pointer), RangeError, pointer);
  }
  assert.deepEqual(text.value("/é😀/0"), at(TEXT.indexOf("1")));
});

test("a text that is no JSON has no positions, and says where it ceases to be", () => {
  for (const [given, offset] of [["[1,\n 2", 6], ["", 0], ['{"é": 01}', 7], [Uint8Array.of(0x5b, 0xff, 0x5d), 1]]) {
    assert.throws(() => schemas.positions(given).value(""), (it) => it.name === "SyntaxError" && it.offset === offset);
  }
});

test("a long text, whose characters take more bytes than units", () => {
  const long = `[${'"é😀", '.repeat(3000)}0]`, text = schemas.positions(long);
  for (const index of [0, 1, 500, 2999, 3000]) {
    assert.deepEqual(text.value(`/${index}`), at(1 + index * '"é😀", '.length, long), index);
  }
});

test("a text that is nested as deep as the validator takes, and one that is deeper", () => {
  const deep = (levels) => "[".repeat(levels) + "]".repeat(levels);
  assert.deepEqual(schemas.positions(deep(127)).value("/0".repeat(126)), at(126, deep(127)));
  assert.throws(() => schemas.isValid("urn:x", deep(128)), (it) => it.kind === "NotJson" && it.column === 128);
});
