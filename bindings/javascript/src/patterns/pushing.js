/** Look-arounds of a bounded length, taken into the characters beside them: `(?!-)[a-z-]+` is `[a-z][a-z-]*`. */
import { ANY, Characters } from "./characters.js";
import { Assertion, END, Group, Look, Repeat, START, fewer, isEnd, isStart, keyOf, leastWidth, repeated,
  sizeOf } from "./nodes.js";

/**
 * What a look-around finds: characters, or the end of the text.
 *
 * @typedef {readonly (Characters | Assertion)[]} Word
 */

/** What stands behind a pattern in a text. */
export const ANYTHING = Object.freeze([new Repeat(ANY, 0, Infinity), END]);
const KEY_OF_ANYTHING = keyOf(ANYTHING);
const MOST_WORDS = 64, MOST_TURNS = 8, DEEPEST = 60, LARGEST = 20_000;

/** A pattern can't be rewritten exactly. */
export class NotExact extends Error {}

/** Whether a sequence is `ANYTHING`. */
export function isAnything(sequence) {
  return sequence.length === ANYTHING.length && keyOf(sequence) === KEY_OF_ANYTHING;
}

/** What a look-ahead asks for, without a tail that is always there. */
export function shortened(sequence) {
  let found = sequence;
  while (found.length > 0) {
    const last = found.at(-1);
    if (last instanceof Repeat && last.least !== last.most) {
      found = [...found.slice(0, -1), ...repeated(last.node, last.least, last.least)];
    } else if (last instanceof Group && last.body.some((it) => it.length === 0)) {
      found = found.slice(0, -1);
    } else {
      break;
    }
  }
  return found;
}

/**
 * All that a look-ahead finds. Throws `NotExact` where that isn't a few words of a bounded length.
 *
 * @param {import("./nodes.js").Alternatives} body @returns {Word[]}
 */
export function words(body) {
  const found = body.flatMap((it) => wordsOf(shortened(it)));
  if (found.length > MOST_WORDS) throw new NotExact();
  return found;
}

function wordsOf(sequence) {
  return products(sequence.map(wordsOfNode));
}

function wordsOfNode(node) {
  if (node instanceof Characters) return [[node]];
  if (isEnd(node)) return [[END]];
  if (node instanceof Group) return node.body.flatMap(wordsOf);
  if (!(node instanceof Repeat && node.most <= MOST_TURNS)) throw new NotExact();
  const one = wordsOfNode(node.node), found = [];
  for (let count = node.least; count <= node.most; count++) found.push(...products(Array(count).fill(one)));
  return found;
}

/** Each choice of one word of each list, joined. */
function products(lists) {
  const count = lists.reduce((product, it) => product * it.length, 1);
  if (count > MOST_WORDS) throw new NotExact();
  return lists.reduce((begun, list) => begun.flatMap((before) => list.map((it) => [...before, ...it])), [[]]);
}

/** A sequence from its end to its beginning, which matches the texts that are so too. */
export function mirrored(sequence) {
  return sequence.map(mirroredNode).reverse();
}

function mirroredNode(node) {
  if (node instanceof Group) return new Group(node.body.map(mirrored));
  if (node instanceof Look) return new Look(!node.isAhead, node.isNegated, node.body.map(mirrored));
  if (node instanceof Repeat) return new Repeat(mirroredNode(node.node), node.least, node.most);
  if (isStart(node)) return END;
  return isEnd(node) ? START : node;
}

/** Takes a look-ahead into what follows. */
export class Pusher {
  #isNegated;
  #isWhole;
  #steps;
  #depth = 0;

  /** @param {boolean} isNegated @param {boolean} isWhole whether the pattern ends where what follows ends */
  constructor(isNegated, isWhole, steps) {
    this.#isNegated = isNegated;
    this.#isWhole = isWhole;
    this.#steps = steps;
  }

  /**
   * The sequences that together match what the look-ahead and the rest do. Throws `NotExact`.
   *
   * @param {readonly Word[]} wanted @param {import("./nodes.js").Sequence} rest
   */
  pushed(wanted, rest) {
    this.#steps -= 1;
    if (this.#steps < 0 || this.#depth > DEEPEST) throw new NotExact();
    const isFound = wanted.some((it) => it.length === 0);
    if (isFound || wanted.length === 0) {
      if (isFound === this.#isNegated) return [];
      return [this.#isWhole && isAnything(rest) ? [] : rest];
    }
    if (rest.length === 0 && !this.#isWhole) throw new NotExact();
    const [first, ...others] = rest.length === 0 ? ANYTHING : rest;
    this.#depth += 1;
    const found = this.#byFirst(wanted, first, others);
    this.#depth -= 1;
    if (found.reduce((sum, it) => sum + sizeOf(it), 0) > LARGEST) throw new NotExact();
    return found;
  }

  #byFirst(wanted, first, rest) {
    if (first instanceof Characters) {
      const begins = wanted.filter(([begin]) => begin instanceof Characters).map(([begin, ...left]) => [begin, left]);
      return regions(first, begins).flatMap(([region, left]) => joined(region, this.pushed(left, rest)));
    }
    if (first instanceof Group) return first.body.flatMap((body) => this.pushed(wanted, [...body, ...rest]));
    if (first instanceof Repeat) return this.#repeated(wanted, first, rest);
    if (isEnd(first)) {
      const isThere = wanted.some((word) => word.every(isEnd));
      return isThere === this.#isNegated ? [] : [[first, ...rest]];
    }
    // (What takes no characters changes places with the look-ahead.)
    return this.pushed(wanted, rest).map((it) => [first, ...it]);
  }

  #repeated(wanted, first, rest) {
    if (leastWidth(first.node) === 0) throw new NotExact();
    const found = first.least === 0 ? this.pushed(wanted, rest) : [];
    if (first.most === 0) return found;
    return [...found, ...this.pushed(wanted, [first.node, ...fewer(first), ...rest])];
  }
}

function joined(region, found) {
  return found.length < 2 ? found.map((it) => [region, ...it]) : [[region, new Group(found)]];
}

/**
 * The parts of a set by the words that begin with their characters, with what is left of these words.
 *
 * @template Left @param {Characters} given @param {readonly [Characters, Left][]} begins
 * @returns {[Characters, Left[]][]}
 */
export function regions(given, begins) {
  let found = [[given, []]];
  for (const [begin, rest] of begins) {
    if (begin.isFolded !== given.isFolded) throw new NotExact();
    found = found
      .flatMap(([region, left]) => [[region.both(begin), [...left, rest]], [region.minus(begin), left]])
      .filter(([region]) => !region.isEmpty);
    if (found.length > MOST_WORDS) throw new NotExact();
  }
  return found;
}
