/** Values as JSON texts: what is written, and what is refused. */
import assert from "node:assert/strict";
import { test } from "node:test";
import { Refused, textOf } from "jschema";

class Point {
  x = 1;
}

test("values are written as JSON", () => {
  for (const [value, text] of [
    [null, "null"], [true, "true"], [[], "[]"], [{}, "{}"], [[1, "a", [false]], '[1,"a",[false]]'],
    [{ b: { "\n": "\u2028\"" }, a: null }, '{"a":null,"b":{"\\n":"\u2028\\""}}'],
    [9007199254740991, "9007199254740991"], [18446744073709551615n, "18446744073709551615"],
    [-9223372036854775808n, "-9223372036854775808"],
    [Object.create(null, { a: { value: 1, enumerable: true } }), '{"a":1}'],
    [JSON.parse('{"__proto__": 1}'), '{"__proto__":1}'],
  ]) {
    assert.equal(textOf(value), text);
  }
});

test("texts stay as they are", () => {
  assert.equal(textOf(' "a" '), ' "a" ');
  const bytes = new Uint8Array([49]);
  assert.equal(textOf(bytes), bytes);
  assert.deepEqual(textOf(new Uint8Array([0, 49]).buffer), new Uint8Array([0, 49]));
  assert.deepEqual(textOf(new DataView(new Uint8Array([0, 49]).buffer, 1)), new Uint8Array([49]));
});

test("what has no verdict is refused, with its place", () => {
  let deep = 1;
  for (let level = 0; level < 128; level++) deep = [deep];
  for (const [value, kind, place] of [
    [0.5, "NotWhole", ""], [[1, { "a/b": 1.5 }], "NotWhole", "/1/a~1b"], [-0, "NotWhole", ""],
    [18446744073709551616n, "NotWhole", ""], [[-9223372036854775809n], "NotWhole", "/0"],
    ["\ud800", "NotJson", ""], [{ "\udc00": 1 }, "NotJson", ""], [["\ud800"], "NotJson", ""], [deep, "NotJson", ""],
  ]) {
    assert.throws(() => textOf(value), (it) => it instanceof Refused && it.kind === kind && it.place === place);
  }
});

test("what JSON doesn't have is a TypeError, with its place", () => {
  const cycle = { a: [] };
  cycle.a.push(cycle);
  for (const [value, said] of [
    [undefined, /no undefined: look at the root/], [{ a: undefined }, /no undefined: look at \/a/],
    [[NaN], /no NaN: look at \/0/], [Infinity, /no Infinity/], [() => 1, /no function/], [Symbol("a"), /no symbol/],
    [new Date(0), /no Date/], [new Map(), /no Map/], [new Point(), /no Point/], [cycle, /no cycle: look at \/a\/0/],
    [{ [Symbol("a")]: 1 }, /no symbol/], [9007199254740992, /may have been rounded: use a bigint/],
    [[, 1], /no undefined/],
  ]) {
    assert.throws(() => textOf(value), (it) => it instanceof TypeError && said.test(it.message));
  }
});

test("the same value twice is no cycle", () => {
  const shared = [1];
  assert.equal(textOf([shared, shared]), "[[1],[1]]");
});
