/** A file that is read in blocks, and no further than is asked for. */
import { closeSync, fstatSync, openSync, readSync } from "node:fs";
import { LARGEST_TEXT } from "../limits.js";

const STDIN = 0, BLOCK = 1 << 16, LINE_FEED = 10, PAUSE = 10;
const waiting = new Int32Array(new SharedArrayBuffer(4));

/** What a file has, or standard input; of one that is too large, one byte more than the validator takes. */
export function readWhole(path = undefined) {
  const reader = new Reader(path);
  try {
    return reader.read(LARGEST_TEXT + 1);
  } finally {
    reader.close();
  }
}

/** Of one file. */
export class Reader {
  #descriptor;
  #block = Buffer.alloc(0);
  #at = 0;

  /** @param {string} [path] without one, standard input is read */
  constructor(path = undefined) {
    this.#descriptor = path === undefined ? STDIN : openSync(path, "r");
  }

  /** Whether the file is a regular one, which has an end. */
  get isRegular() {
    return fstatSync(this.#descriptor).isFile();
  }

  close() {
    if (this.#descriptor !== STDIN) closeSync(this.#descriptor);
  }

  /** The next bytes: as many as are asked for, or all there are. */
  read(most) {
    return this.#taken(most, () => undefined);
  }

  /** The next line with its line feed, or as much of it as is asked for; empty at the end. */
  line(most) {
    return this.#taken(most, (end) => {
      const found = this.#block.subarray(0, end).indexOf(LINE_FEED, this.#at);
      return found < 0 ? undefined : found + 1;
    });
  }

  /** The next byte, which stays to be read; undefined at the end. */
  peek() {
    this.#fill();
    return this.#block[this.#at];
  }

  /** Up to `most` bytes; no further than where `endIn` says that it ends, in the block up to an index. */
  #taken(most, endIn) {
    const parts = [];
    for (let rest = most, isDone = false; rest > 0 && !isDone && this.#fill();) {
      const whole = Math.min(this.#block.length, this.#at + rest);
      const end = endIn(whole);
      isDone = end !== undefined;
      const part = this.#block.subarray(this.#at, end ?? whole);
      parts.push(part);
      rest -= part.length;
      this.#at += part.length;
    }
    return parts.length === 1 ? parts[0] : Buffer.concat(parts);
  }

  /** Reads the next block if this one is used up. Returns whether there is anything left. */
  #fill() {
    if (this.#at < this.#block.length) return true;
    const block = Buffer.allocUnsafeSlow(BLOCK);
    this.#at = 0;
    this.#block = block.subarray(0, this.#readInto(block));
    return this.#block.length > 0;
  }

  #readInto(block) {
    for (;;) {
      try {
        return readSync(this.#descriptor, block);
      } catch (error) {
        if (error.code === "EOF") return 0;
        if (error.code !== "EAGAIN") throw error;
        // Standard input that doesn't block, and has nothing yet.
        Atomics.wait(waiting, 0, 0, PAUSE);
      }
    }
  }
}
