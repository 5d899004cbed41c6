/** Lines and columns of the values in a JSON text. */
import { steps } from "./locations.js";
import { NotJson, scan } from "./scanner.js";

const POINTER = /^(?:\/(?:[^~]|~[01])*)?$/s;
const INDEX = /^(?:0|[1-9][0-9]*)$/;
const BLOCK = 4096;

/**
 * A JSON text, and where its values stand, as the engine says. It is asked when a position is first wanted, and then
 * for all that are expected.
 *
 * A position has an `offset`, the index into the text as a string, and from 1 a `line` and a `column`, which counts
 * characters (code points).
 */
export class Text {
  #given;
  #engine;
  #bytes;
  #string;
  #faultyFrom;
  #indices;
  #lineStarts;
  // What was found by pointers, and what is to be found with the next one.
  #located = new Map();
  #expected = new Set();

  /** @param {string | Uint8Array} text @param {import("./engine.js").Engine} engine */
  constructor(text, engine) {
    this.#given = text;
    this.#engine = engine;
  }

  /** The text as a string; of bytes that aren't UTF-8, up to where this shows. */
  get string() {
    if (this.#string === undefined) {
      [this.#string, this.#faultyFrom] = typeof this.#given === "string" ? [this.#given] : decoded(this.#given);
    }
    return this.#string;
  }

  get #utf8() {
    this.#bytes ??= typeof this.#given === "string" ? new TextEncoder().encode(this.#given) : this.#given;
    return this.#bytes;
  }

  /** Where the value at a JSON Pointer begins. Throws `NotJson`, and `RangeError` where there is none. */
  value(pointer) {
    return this.#inString(this.located(pointer).value);
  }

  /** Where the name of the member at a JSON Pointer begins; of an item, or the root, the value. */
  name(pointer) {
    const { name, value } = this.located(pointer);
    return this.#inString(name ?? value);
  }

  /** Where the value at a JSON Pointer begins and ends, as indices into the string. */
  range(pointer) {
    const { value, end } = this.located(pointer);
    return { offset: this.#index(value.offset), end: this.#index(end) };
  }

  /** The same of the member's name; of an item, or the root, of the value. */
  nameRange(pointer) {
    const { name } = this.located(pointer);
    if (name === undefined) return this.range(pointer);
    return { offset: this.#index(name.offset), end: this.#index(endOfName(this.#utf8, name.offset)) };
  }

  /** A JSON Pointer as the names of members and the indices of items. */
  path(pointer) {
    this.located(pointer);
    const prefixes = [...pointer.matchAll(/\/|$/g)].slice(1).map((it) => pointer.slice(0, it.index));
    const isIndex = (at) => INDEX.test(prefixes[at].slice(prefixes[at].lastIndexOf("/") + 1));
    this.expect(prefixes.filter((_, at) => isIndex(at)));
    return steps(pointer).map((token, at) =>
      isIndex(at) && this.located(prefixes[at]).name === undefined ? Number(token) : token);
  }

  /** Says which values will be asked for. They are then found together. */
  expect(pointers) {
    for (const pointer of pointers) if (!this.#located.has(pointer)) this.#expected.add(pointer);
  }

  /**
   * Where the value at a JSON Pointer stands in the bytes. Throws as `value` does.
   *
   * @returns {import("./engine.js").Located}
   */
  located(pointer) {
    if (!this.#located.has(pointer)) this.#locate(pointer);
    const found = this.#located.get(pointer);
    if (found === undefined) throw new RangeError(`no value at ${pointer}`);
    return found;
  }

  #locate(pointer) {
    // (What is no pointer, or isn't Unicode, stands in no text.)
    const wanted = [...this.#expected.add(pointer)].filter((it) => POINTER.test(it) && !/\p{Surrogate}/u.test(it));
    const found = this.#engine.positions(this.#utf8, wanted);
    if (found === undefined) throw new NotJson(this.#fault ?? 0);
    for (const it of this.#expected) this.#located.set(it, undefined);
    wanted.forEach((it, index) => this.#located.set(it, found[index]));
    this.#expected.clear();
  }

  /** Where a refused text is refused: at the value that the refusal names, or where it ceases to be JSON. */
  refused(kind, pointer) {
    return this.at(this.#index(this.refusedFrom(kind, pointer)));
  }

  /** The byte at which a refused text is refused. */
  refusedFrom(kind, pointer) {
    const fault = kind === "NotJson" ? this.#fault : undefined;
    if (fault !== undefined) return new TextEncoder().encode(this.string.slice(0, fault)).length;
    // (Of a document that is refused for its URI nobody has read more.)
    if (pointer === "") return /^[ \t\r\n]*/.exec(this.string)[0].length;
    try {
      return this.located(pointer).value.offset;
    } catch (error) {
      if (error instanceof RangeError || error instanceof NotJson) return 0;
      throw error;
    }
  }

  /** The line and column of an index into the string. */
  at(offset) {
    const starts = this.#starts();
    let low = 0, high = starts.length;
    while (high - low > 1) {
      const middle = (low + high) >> 1;
      if (starts[middle] <= offset) low = middle;
      else high = middle;
    }
    return { offset, line: low + 1, column: characters(this.string, starts[low], offset) + 1 };
  }

  /** Where the text ceases to be JSON, as an index into the string. The module says only that it is none. */
  get #fault() {
    const text = this.string;
    if (this.#faultyFrom !== undefined) return this.#faultyFrom;
    try {
      scan(text);
      return undefined;
    } catch (error) {
      if (error instanceof NotJson) return error.offset;
      throw error;
    }
  }

  /** A position in bytes as one in the string. */
  #inString({ offset, line, column }) {
    return { offset: this.#index(offset), line, column };
  }

  /** The index into the string of a byte. */
  #index(offset) {
    if (this.#utf8.length === this.string.length) return offset;
    this.#indices ??= new Indices(this.#utf8);
    return this.#indices.of(offset);
  }

  #starts() {
    if (this.#lineStarts === undefined) {
      this.#lineStarts = [0];
      for (let at = this.string.indexOf("\n"); at >= 0; at = this.string.indexOf("\n", at + 1)) {
        this.#lineStarts.push(at + 1);
      }
    }
    return this.#lineStarts;
  }
}

/** Bytes of UTF-8 as indices into the string. */
class Indices {
  #bytes;
  // The index of each block's first byte.
  #blocks = [0];

  constructor(bytes) {
    this.#bytes = bytes;
    for (let at = 0; at < bytes.length; at += BLOCK) {
      this.#blocks.push(this.#blocks.at(-1) + this.#count(at, at + BLOCK));
    }
  }

  of(offset) {
    const block = Math.floor(offset / BLOCK);
    return this.#blocks[block] + this.#count(block * BLOCK, offset);
  }

  /** How many units of a string the characters take that begin in these bytes: beyond U+FFFF two. */
  #count(begin, end) {
    let count = 0;
    for (let at = begin; at < Math.min(end, this.#bytes.length); at++) {
      const byte = this.#bytes[at];
      if ((byte & 0xc0) !== 0x80) count += byte < 0xf0 ? 1 : 2;
    }
    return count;
  }
}

/** The byte after the name that begins at a byte. (The module says where a value ends, and not where a name does.) */
export function endOfName(bytes, begin) {
  let at = begin + 1;
  for (; at < bytes.length && bytes[at] !== 0x22; at++) at += bytes[at] === 0x5c ? 1 : 0;
  return at + 1;
}

/** How many characters begin between two indices. */
function characters(text, begin, end) {
  let count = 0;
  for (let at = begin; at < end; at++) {
    const code = text.charCodeAt(at);
    count += code < 0xdc00 || code > 0xdfff ? 1 : 0;
  }
  return count;
}

/** Bytes as a string; where they aren't UTF-8, what is before that, and its length. */
function decoded(bytes) {
  const before = (length, stream) =>
    new TextDecoder("utf-8", { fatal: true, ignoreBOM: true }).decode(bytes.subarray(0, length), { stream });
  try {
    return [before(bytes.length, false)];
  } catch {
    // The longest beginning that more bytes could make UTF-8.
    let low = 0, high = bytes.length + 1;
    while (high - low > 1) {
      const middle = (low + high) >> 1;
      try {
        before(middle, true);
        low = middle;
      } catch {
        high = middle;
      }
    }
    const text = before(low, true);
    return [text, text.length];
  }
}
