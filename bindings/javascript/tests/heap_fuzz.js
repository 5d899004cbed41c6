/**
 * The heap against a plain model: `node heap_fuzz.js MODULE CALLS`. The module is heap.c, whose growth is asked of this
 * script. The model knows which pieces of memory are in use, and what is in them.
 *
 * Long runs refuse some growths at random. Short runs, the same calls each time, refuse each growth in turn, alone
 * and with all later ones. The last line is 'N calls, M refused'.
 */
import { readFileSync } from "node:fs";
import assert from "node:assert/strict";

const [path, count] = process.argv.slice(2);
const module = new WebAssembly.Module(readFileSync(path));
const PIECE = 16, PAGE = 65536, MOST = 96 * PAGE, SHORT = 400;
const LARGEST = 200000;
// What blocks are filled with, by their number; and nothing, as the owner of pieces that are free.
const FILLINGS = Array.from({ length: 16 }, (_, index) => Buffer.alloc(LARGEST, index + 1));
const FREE = Buffer.alloc(MOST / PIECE);

/** The same numbers for the same seed (mulberry32). */
function random(seed) {
  return (below) => {
    seed = (seed + 0x6d2b79f5) | 0;
    let mixed = Math.imul(seed ^ (seed >>> 15), 1 | seed);
    mixed = (mixed + Math.imul(mixed ^ (mixed >>> 7), 61 | mixed)) ^ mixed;
    return ((mixed ^ (mixed >>> 14)) >>> 0) % below;
  };
}

/** A heap with its model. `refuses` says for the number of a growth, from 1, whether it is refused. */
class Modelled {
  constructor(refuses) {
    this.growths = 0;
    this.refused = 0;
    this.wasRefused = false;
    this.blocks = [];
    const grow = (pages) => {
      const memory = this.calls.memory;
      this.growths += 1;
      if (refuses(this.growths) || memory.buffer.byteLength + Number(pages) * PAGE > MOST) {
        this.wasRefused = true;
        return 0xffffffffn;
      }
      return BigInt(memory.grow(Number(pages)));
    };
    this.calls = new WebAssembly.Instance(module, { env: { grow } }).exports;
    this.first = this.calls.memory.buffer.byteLength;
    // For each piece of 16 bytes, a 1 where it is in use.
    this.owner = Buffer.alloc(MOST / PIECE);
    this.number = 0;
    // Where the calls put their answers: the far end of the stack, which they don't come near.
    this.answer = PIECE;
  }

  bytes() {
    return new Uint8Array(this.calls.memory.buffer);
  }

  /** What a call answered: where, or undefined where it was refused. (A pair comes through memory; numbers of the
   * library have 64 bits, addresses 32.) */
  told(call, ...words) {
    this.wasRefused = false;
    call(this.answer, ...words);
    const view = new DataView(this.calls.memory.buffer);
    const ok = view.getBigUint64(this.answer, true), at = Number(view.getBigUint64(this.answer + 8, true));
    assert.ok(ok === 1n || ok === 0n);
    assert.notEqual(at, 0);
    if (ok === 1n) return at;
    assert.ok(this.wasRefused, "refused, and no growth was");
    this.refused += 1;
    return undefined;
  }

  /** Notes a block: it must be aligned, within memory, and overlap no other. */
  take(at, size) {
    const number = this.number += 1;
    assert.equal(at % PIECE, 0);
    assert.ok(at >= this.first - PAGE && at + size <= this.calls.memory.buffer.byteLength);
    const pieces = this.owner.subarray(at / PIECE, Math.ceil((at + size) / PIECE));
    assert.ok(pieces.equals(FREE.subarray(0, pieces.length)), "a block overlaps another");
    pieces.fill(1);
    this.bytes().set(FILLINGS[number % 16].subarray(0, size), at);
    return { at, size, number };
  }

  /** A block's bytes are as they were written, up to a size. */
  check({ at, size, number }, most = size) {
    const length = Math.min(size, most);
    const found = Buffer.from(this.calls.memory.buffer, at, length);
    assert.ok(found.equals(FILLINGS[number % 16].subarray(0, length)), "a block was overwritten");
  }

  drop(block) {
    this.owner.fill(0, block.at / PIECE, Math.ceil((block.at + block.size) / PIECE));
  }

  allocate(size) {
    const at = this.told(this.calls.rattle_alloc, BigInt(size), 8n);
    if (at !== undefined) this.blocks.push(this.take(at, size));
  }

  resize(index, size) {
    const block = this.blocks[index];
    this.check(block);
    const at = this.told(this.calls.rattle_realloc, block.at, BigInt(block.size), BigInt(size), 8n);
    if (at === undefined) {
      this.check(block);
      return;
    }
    this.check({ ...block, at }, size);
    this.drop(block);
    this.blocks[index] = this.take(at, size);
  }

  free(index) {
    const block = this.blocks[index];
    const last = this.blocks.pop();
    if (last !== block) this.blocks[index] = last;
    this.check(block);
    this.drop(block);
    this.calls.rattle_dealloc(block.at);
  }
}

/** A size: most are small, some a few pages. */
function size(next) {
  return next(4) > 0 ? next(100) : next(8) > 0 ? next(2000) : next(LARGEST);
}

function run(heap, calls, next) {
  for (let call = 0; call < calls; call++) {
    const kind = next(heap.blocks.length > 300 ? 6 : 4);
    if (kind === 0 || kind === 3 || heap.blocks.length === 0) heap.allocate(size(next));
    else if (kind === 1) heap.resize(next(heap.blocks.length), size(next));
    else heap.free(next(heap.blocks.length));
  }
  while (heap.blocks.length > 0) heap.free(heap.blocks.length - 1);
  // All is one block again: most of it can be had without a growth.
  const before = heap.growths;
  const there = heap.calls.memory.buffer.byteLength - heap.first;
  if (there > 0) heap.allocate(there - (there >> 2));
  assert.equal(heap.growths, before, "free blocks weren't joined");
}

let calls = 0, refused = 0;

function round(refuses, length, seed) {
  const heap = new Modelled(refuses);
  run(heap, length, random(seed));
  calls += length;
  refused += heap.refused;
  return heap.growths;
}

for (let seed = 1; calls < Number(count); seed++) {
  const growths = round(() => false, SHORT, seed);
  for (let number = 1; number <= growths && calls < Number(count) / 2; number++) {
    round((it) => it === number, SHORT, seed);
    round((it) => it >= number, SHORT, seed);
  }
  const chance = random(seed);
  if (calls >= Number(count) / 2) round(() => chance(3) === 0, Number(count) / 10, seed);
}
assert.ok(refused > 0);
console.log(`${calls} calls, ${refused} refused`);
