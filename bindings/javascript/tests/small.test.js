/** The build, on the stand-in small.ll: JSCHEMA_SMALL names the module that was built of it. */
import assert from "node:assert/strict";
import { readFileSync } from "node:fs";
import { test } from "node:test";
import { Stopped } from "jschema";
import { Instance } from "../src/engine.js";

const path = process.env.JSCHEMA_SMALL;
const how = path === undefined ? { skip: "JSCHEMA_SMALL names no module" } : {};
const module = path === undefined ? undefined : new WebAssembly.Module(readFileSync(path));

test("an instance has stopped after a trap, and after the end of its stack", how, () => {
  for (const call of ["places", "finish"]) {
    const instance = new Instance(module);
    const handle = instance.newHandle();
    assert.throws(() => instance[call](handle), (it) => it instanceof Stopped && it.cause instanceof Error);
    assert.ok(instance.hasStopped);
    assert.throws(() => instance.newHandle(), Stopped);
    instance.free(handle);
  }
});

test("arithmetic of 128 bits", how, () => {
  const calls = new WebAssembly.Instance(module, {}).exports;
  const at = calls.allocate(32);
  const mask = (1n << 64n) - 1n;
  const result = (format, x, y) => {
    const view = new DataView(calls.memory.buffer, at);
    [x & mask, x >> 64n, y & mask, y >> 64n].forEach((it, index) => view.setBigUint64(8 * index, it, true));
    assert.equal(calls.jschema_check(at, 0, at, 32, format), 0);
    return view.getBigUint64(0, true) | (view.getBigUint64(8, true) << 64n);
  };
  const numbers = [0n, 1n, 3n, mask, mask + 1n, (1n << 127n) + 5n, 0x123456789abcdef0fedcba9876543210n,
    (1n << 128n) - 1n];
  for (const x of numbers) {
    for (const y of numbers) {
      assert.equal(result(0, x, y), BigInt.asUintN(128, x * y));
      if (y > 0n) assert.equal(result(3, x, y), x / y);
    }
    for (const count of [0n, 1n, 31n, 32n, 63n, 64n, 65n, 100n, 127n]) {
      assert.equal(result(1, x, count), BigInt.asUintN(128, x << count));
      assert.equal(result(2, x, count), x >> count);
    }
  }
});

test("bytes that are picked by indices", how, () => {
  const calls = new WebAssembly.Instance(module, {}).exports;
  const at = calls.allocate(32);
  for (let first = 0; first < 256; first += 16) {
    const bytes = new Uint8Array(calls.memory.buffer, at, 32);
    const given = Uint8Array.from({ length: 16 }, (_, index) => 200 - index);
    const indices = Uint8Array.from({ length: 16 }, (_, index) => first + 15 - index);
    bytes.set(given);
    bytes.set(indices, 16);
    assert.equal(calls.jschema_text(at, at, 16), 16);
    assert.deepEqual([...bytes.subarray(0, 16)], [...indices].map((it) => (it > 127 ? 0 : given[it & 15])));
  }
});

test("bytes that are repeated and exchanged", how, () => {
  const calls = new WebAssembly.Instance(module, {}).exports;
  const at = calls.allocate(32);
  const bytes = new Uint8Array(calls.memory.buffer, at, 17);
  bytes.set(Array.from({ length: 17 }, (_, index) => 100 + index));
  assert.equal(calls.jschema_share(at, at + 16), 0);
  assert.deepEqual([...bytes], [100, 101, 102, 103, 104, 116, 106, 107, 108, 109, 110, 111, 112, 113, 114, 115, 103]);
  assert.equal(calls.jschema_limit(at, 0, 0), 0);
  assert.deepEqual([...bytes], [...Array(16).fill(100), 103]);
});

test("a pointer in memory", how, () => {
  const calls = new WebAssembly.Instance(module, {}).exports;
  const at = calls.allocate(32);
  const bytes = new Uint8Array(calls.memory.buffer, at, 32).fill(255);
  for (const [pointer, length] of [[at, 3], [calls.allocate(1), 4_000_000_000], [0, 0], [0xfffeffff, 1]]) {
    assert.equal(calls.jschema_upgrade(at, pointer, length), 0);
    const numbers = new BigUint64Array(bytes.buffer, at, 4);
    assert.deepEqual([...numbers], [2n ** 64n - 1n, BigInt(pointer), BigInt(length), 2n ** 64n - 1n]);
  }
});

test("bytes that are moved, by a number that isn't known before", how, () => {
  const calls = new WebAssembly.Instance(module, {}).exports;
  const at = calls.allocate(640);
  const bytes = new Uint8Array(calls.memory.buffer, at, 640);
  for (let number = 0; number <= 200; number++) {
    const expected = Uint8Array.from({ length: 640 }, (_, index) => index * 7 & 255);
    bytes.set(expected);
    assert.equal(calls.jschema_document(at, number), 0);
    expected.fill(7, 512, 612);
    expected.copyWithin(3, 0, number);
    expected.copyWithin(256, 3, 3 + number);
    assert.deepEqual(bytes, expected, `${number} bytes`);
  }
});

test("memory is asked of the heap", how, () => {
  const calls = new WebAssembly.Instance(module, {}).exports;
  for (const [first, second] of [[0, 1], [100, 100000], [70000, 10], [1 << 20, 1 << 24]]) {
    assert.equal(calls.jschema_add(0, 0, first, 0, second), 0);
  }
  assert.equal(calls.jschema_add(0, 0, 10, 0, -1), 4);
  assert.equal(calls.jschema_add(0, 0, -1, 0, 1), 4);
  assert.equal(calls.allocate(-1), 0);
  assert.notEqual(calls.allocate(0), 0);
  calls.release(0);
});
