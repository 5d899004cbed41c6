/**
 * What a pattern is made of.
 *
 * A sequence is a list of nodes, and alternatives are a list of sequences. Nodes are never changed: two are the same if
 * their keys are.
 */
import { Characters } from "./characters.js";

/** @typedef {Characters | Assertion | Look | Group | Repeat} Node */
/** @typedef {readonly Node[]} Sequence */
/** @typedef {readonly Sequence[]} Alternatives */

/** What two sequences have in common if they are the same. */
export function keyOf(sequence) {
  return sequence.map((it) => it.key).join("");
}

/** The sequences that differ. */
export function distinct(sequences) {
  return [...new Map(sequences.map((it) => [keyOf(it), it])).values()];
}

function keyOfAll(alternatives) {
  return alternatives.map((it) => `${keyOf(it)}|`).join("");
}

/** `^`, `$`, or in ASCII `\b` or `\B`. */
export class Assertion {
  /** @param {string} sign */
  constructor(sign) {
    this.sign = sign;
    this.key = sign;
  }
}

/** A look-ahead or a look-behind. */
export class Look {
  #key;

  /** @param {boolean} isAhead @param {boolean} isNegated @param {Alternatives} body @param {number} [at] where it is */
  constructor(isAhead, isNegated, body, at = 0) {
    this.isAhead = isAhead;
    this.isNegated = isNegated;
    this.body = body;
    this.at = at;
  }

  get key() {
    this.#key ??= `(?${this.isAhead ? "" : "<"}${this.isNegated ? "!" : "="}${keyOfAll(this.body)})`;
    return this.#key;
  }
}

/** Alternatives in parentheses. (Which text a group has captured is never asked.) */
export class Group {
  #key;

  /** @param {Alternatives} body */
  constructor(body) {
    this.body = body;
  }

  get key() {
    this.#key ??= `(${keyOfAll(this.body)})`;
    return this.#key;
  }
}

/** Something from so many to so many times; without an end if `most` is `Infinity`. */
export class Repeat {
  /** @param {Characters | Group} node @param {number} least @param {number} most */
  constructor(node, least, most) {
    this.node = node;
    this.least = least;
    this.most = most;
  }

  get key() {
    return `${this.node.key}{${this.least},${this.most}}`;
  }
}

export const START = new Assertion("^"), END = new Assertion("$");

/** Whether a node is the sign of the start, or of the end. */
export function isStart(node) {
  return node instanceof Assertion && node.sign === START.sign;
}

export function isEnd(node) {
  return node instanceof Assertion && node.sign === END.sign;
}

/** Whether there is a look-around in a node. */
export function hasLook(node) {
  if (node instanceof Repeat) return hasLook(node.node);
  return node instanceof Look || node instanceof Group && node.body.some(haveLook);
}

/** Whether there is one in a sequence. */
export function haveLook(sequence) {
  return sequence.some(hasLook);
}

/** Where the look-arounds of alternatives stand, each before those in it. */
export function looks(body) {
  const found = [];
  for (const node of body.flat()) {
    const inner = node instanceof Repeat ? node.node : node;
    if (inner instanceof Look) found.push(inner.at);
    if (inner instanceof Look || inner instanceof Group) found.push(...looks(inner.body));
  }
  return found;
}

/** Alternatives without all look-arounds but the one that stands there, and those that it stands in. */
export function withLook(body, at) {
  return body.map((sequence) => sequence.flatMap((node) => nodeWithLook(node, at)));
}

function nodeWithLook(node, at) {
  if (node instanceof Look) {
    const isKept = node.at === at || looks(node.body).includes(at);
    return isKept ? [new Look(node.isAhead, node.isNegated, withLook(node.body, at), node.at)] : [];
  }
  if (node instanceof Group) return [new Group(withLook(node.body, at))];
  if (!(node instanceof Repeat && node.node instanceof Group)) return [node];
  return [new Repeat(new Group(withLook(node.node.body, at)), node.least, node.most)];
}

/** The fewest characters that a node matches. */
export function leastWidth(node) {
  if (node instanceof Group) return Math.min(...node.body.map(leastWidthOf));
  if (node instanceof Repeat) return node.least * leastWidth(node.node);
  return node instanceof Characters ? 1 : 0;
}

/** The fewest that a sequence does. */
export function leastWidthOf(sequence) {
  return sequence.reduce((sum, it) => sum + leastWidth(it), 0);
}

/** How many characters a node matches, if that is always the same. */
export function width(node) {
  if (node instanceof Group) {
    const [first, ...others] = node.body.map(widthOf);
    return others.every((it) => it === first) ? first : undefined;
  }
  if (!(node instanceof Repeat)) return leastWidth(node);
  const one = width(node.node);
  if (one === 0) return 0;
  return one === undefined || node.least !== node.most ? undefined : node.least * one;
}

/** How many a sequence does, if that is always the same. */
export function widthOf(sequence) {
  let total = 0;
  for (const it of sequence) {
    const one = width(it);
    if (one === undefined) return undefined;
    total += one;
  }
  return total;
}

/** About how large a node is when `regex` has compiled it. */
export function size(node) {
  if (node instanceof Group || node instanceof Look) return node.body.reduce((sum, it) => sum + sizeOf(it), 1);
  if (!(node instanceof Repeat)) return node instanceof Characters ? node.size : 1;
  const most = node.most === Infinity ? 0 : node.most;
  return 1 + size(node.node) * Math.max(node.least, most, 1);
}

/** About how large a sequence is. */
export function sizeOf(sequence) {
  return sequence.reduce((sum, it) => sum + size(it), 0);
}

/** A node so many times, as short as that can be written. */
export function repeated(node, least, most) {
  if (most === 0) return [];
  return [least === 1 && most === 1 ? node : new Repeat(node, least, most)];
}

/** What is repeated, once less. */
export function fewer({ node, least, most }) {
  return repeated(node, Math.max(least - 1, 0), most - 1);
}
