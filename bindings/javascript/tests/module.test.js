/** What the module exports and imports, and how large it is. */
import assert from "node:assert/strict";
import { execFileSync } from "node:child_process";
import { readFileSync } from "node:fs";
import { test } from "node:test";
import { memoryFlags, modulePath } from "./module.js";

const header = readFileSync(new URL("../../c/jschema.h", import.meta.url), "utf8");
const CALLS = [...header.matchAll(/^(?:uint32_t|size_t|void) (jschema_\w+)\(/gm)].map(([, name]) => name);
const bytes = readFileSync(modulePath());
const module = new WebAssembly.Module(bytes);

test("the module exports the header's calls, its memory and the heap's two", () => {
  const exports = WebAssembly.Module.exports(module).map((it) => `${it.kind} ${it.name}`);
  assert.ok(CALLS.length > 10);
  const wanted = [...CALLS.map((it) => `function ${it}`), "function allocate", "function release", "memory memory"];
  assert.deepEqual(exports.sort(), wanted.sort());
});

test("its memory has addresses of 32 bits, and is no thread's", () => {
  assert.equal(memoryFlags(bytes) & ~1, 0);
});

test("the module imports nothing", () => {
  assert.deepEqual(WebAssembly.Module.imports(module), []);
});

test("the module is at most 1.6 MB, and 500 KB gzipped", () => {
  const gzipped = execFileSync("gzip", ["-9"], { input: bytes, maxBuffer: 1 << 24 }).length;
  assert.ok(bytes.length <= 1_600_000 && gzipped <= 500_000, `${bytes.length} bytes, ${gzipped} gzipped`);
});

test("its heap has less than 300 lines", () => {
  const heap = readFileSync(new URL("../wasm/heap.c", import.meta.url), "utf8");
  assert.ok(heap.split("\n").length < 300);
});

test("a handle of zeros can be given to each call", () => {
  const calls = new WebAssembly.Instance(module, {}).exports;
  const handle = calls.allocate(24);
  new Uint8Array(calls.memory.buffer, handle, 24).fill(0);
  assert.equal(calls.jschema_finish(handle), 2);
  assert.equal(calls.jschema_check(handle, 0, handle, 0, 0), 2);
  assert.equal(calls.jschema_text(handle, handle, 0), 0);
  calls.jschema_free(handle);
  assert.equal(calls.jschema_version(), Number(header.match(/^#define JSCHEMA_VERSION (\d+)$/m)[1]));
});

test("jschema_share makes a second handle on the same schemas", () => {
  const calls = new WebAssembly.Instance(module, {}).exports;
  const put = (text) => {
    const bytes = Buffer.from(text), at = calls.allocate(bytes.length);
    new Uint8Array(calls.memory.buffer, at, bytes.length).set(bytes);
    return [at, bytes.length];
  };
  const [one, other] = [calls.allocate(24), calls.allocate(24)];
  for (const it of [one, other]) new Uint8Array(calls.memory.buffer, it, 24).fill(0);
  calls.jschema_new(one);
  const uri = put("urn:x");
  assert.equal(calls.jschema_add(one, ...uri, ...put('{"type": "null"}')), 0);
  assert.equal(calls.jschema_share(one, other), 2);
  assert.equal(calls.jschema_finish(one), 0);
  assert.equal(calls.jschema_share(one, other), 0);
  calls.jschema_free(one);
  assert.equal(calls.jschema_entry(other, ...uri, other + 16), 0);
  assert.equal(calls.jschema_check(other, 0, ...put("null"), 0), 0);
  assert.equal(calls.jschema_check(other, 0, ...put("1"), 0), 1);
});
