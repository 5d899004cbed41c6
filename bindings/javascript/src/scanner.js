/**
 * The values of a JSON text with the characters that they are written in, by one pass over it: for what the module
 * doesn't say. That is where a text ceases to be JSON, and how a value of an output is written: its integers may be
 * beyond 2^53, which `JSON.parse` would round.
 *
 * Accepts what the validator reads as JSON: RFC 8259, no byte order mark, no lone surrogate, no number beyond a
 * double's range, at most 127 arrays and objects in one another. Numbers needn't be whole here.
 *
 * `JSON.parse` accepts more, and so does a scan that is lenient: lone surrogates, and any number.
 */
import { DEEPEST } from "./limits.js";

const NUMBER = /-?(?:0|[1-9][0-9]*)(?:\.[0-9]+)?(?:[eE][+-]?[0-9]+)?/y;
const WORD = /true|false|null/y;
const ESCAPE = /\\(?:["\\/bfnrt]|u[0-9a-fA-F]{4})/y;
const QUOTE = 0x22, COMMA = 0x2c, COLON = 0x3a, BACKSLASH = 0x5c;
const OPEN_LIST = 0x5b, CLOSE_LIST = 0x5d, OPEN_OBJECT = 0x7b, CLOSE_OBJECT = 0x7d;

/** The text is no JSON; `offset` is where this shows. */
export class NotJson extends SyntaxError {
  constructor(offset) {
    super(`not a JSON text, from ${offset} on`);
    this.offset = offset;
  }
}

/** A value of the text: its first character, the one after it, the first one of its member's name, what it holds. */
class Node {
  constructor(offset, name) {
    this.offset = offset;
    this.end = offset;
    this.name = name;
    /** @type {Map<string, Node> | Node[] | undefined} */
    this.children = undefined;
  }
}

/**
 * The value of a text. Of members with the same name the last counts. Throws `NotJson`.
 *
 * @param {string} text @param {{ deepest?: number, isLenient?: boolean }} [options]
 */
export function scan(text, { deepest = DEEPEST, isLenient = false } = {}) {
  return new Scanner(text, deepest, isLenient).run();
}

class Scanner {
  constructor(text, deepest, isLenient) {
    this.text = text;
    this.deepest = deepest;
    this.isLenient = isLenient;
    this.at = 0;
    // The arrays and objects that are open.
    this.holders = [];
  }

  run() {
    const root = this.value(undefined);
    for (let last = root; ;) {
      const holder = this.openHolder(last);
      if (holder === undefined) break;
      last = this.child(holder);
    }
    if (this.next() !== undefined) throw new NotJson(this.at);
    return root;
  }

  /** The next character that isn't space; undefined at the end. */
  next() {
    for (; ; this.at++) {
      const code = this.text.charCodeAt(this.at);
      if (code === 0x20 || code === 0x0a || code === 0x0d || code === 0x09) continue;
      return Number.isNaN(code) ? undefined : code;
    }
  }

  /** The value that begins next; an array or an object stays open. */
  value(name) {
    const first = this.next();
    const node = new Node(this.at, name);
    if (first === OPEN_LIST || first === OPEN_OBJECT) {
      if (this.holders.length === this.deepest) throw new NotJson(this.at);
      node.children = first === OPEN_LIST ? [] : new Map();
      this.holders.push(node);
      this.at += 1;
    } else if (first === QUOTE) {
      this.string();
    } else {
      this.scalar();
    }
    node.end = this.at;
    return node;
  }

  scalar() {
    const begin = this.at;
    for (const kind of [NUMBER, WORD]) {
      kind.lastIndex = begin;
      if (kind.test(this.text)) {
        const isTaken = kind === WORD || this.isLenient
          || Number.isFinite(Number(this.text.slice(begin, kind.lastIndex)));
        if (!isTaken) break;
        this.at = kind.lastIndex;
        return;
      }
    }
    throw new NotJson(begin);
  }

  /** The string that begins here. */
  string() {
    const { text, at: begin } = this;
    let isPlain = true;
    for (this.at += 1; ;) {
      const code = text.charCodeAt(this.at);
      if (code === QUOTE) break;
      if (code === BACKSLASH) {
        ESCAPE.lastIndex = this.at;
        if (!ESCAPE.test(text)) throw new NotJson(begin);
        this.at = ESCAPE.lastIndex;
        isPlain = false;
      } else if (code >= 0x20) {
        this.at += 1;
      } else {
        throw new NotJson(begin);
      }
    }
    this.at += 1;
    const token = text.slice(begin, this.at);
    const read = isPlain ? token.slice(1, -1) : JSON.parse(token);
    if (!this.isLenient && /\p{Surrogate}/u.test(read)) throw new NotJson(begin);
    return read;
  }

  /** The innermost array or object that has another child. `last` is the value that was read last. */
  openHolder(last) {
    while (this.holders.length > 0) {
      const holder = this.holders.at(-1);
      const first = this.next();
      if (first === (Array.isArray(holder.children) ? CLOSE_LIST : CLOSE_OBJECT)) {
        this.at += 1;
        holder.end = this.at;
        last = this.holders.pop();
      } else if (holder === last) {
        return holder;
      } else if (first === COMMA) {
        this.at += 1;
        return holder;
      } else {
        throw new NotJson(this.at);
      }
    }
    return undefined;
  }

  /** The next item or member of an open array or object. */
  child(holder) {
    if (Array.isArray(holder.children)) {
      const item = this.value(undefined);
      holder.children.push(item);
      return item;
    }
    if (this.next() !== QUOTE) throw new NotJson(this.at);
    const begin = this.at;
    const name = this.string();
    if (this.next() !== COLON) throw new NotJson(this.at);
    this.at += 1;
    const member = this.value(begin);
    holder.children.set(name, member);
    return member;
  }
}
