/**
 * Look-aheads of any length, taken into what follows them up to the end of the pattern: `(?=.*[0-9])[a-z0-9]*$` is
 * `[a-z]*[0-9][0-9a-z]*$`.
 *
 * What is looked for and what follows are read side by side, a character at a time. What is left of both is a state of
 * an automaton, whose states are taken out one by one until the first one leads to the end alone.
 */
import { Characters, ranges } from "./characters.js";
import { END, Group, Repeat, distinct, fewer, isEnd, keyOf, sizeOf } from "./nodes.js";
import { ANYTHING, NotExact, isAnything, regions, shortened } from "./pushing.js";

const FIRST = 0, LAST = -1;
const MOST_STATES = 100, MOST_EDGES = 500, LARGEST = 5000;

/**
 * The sequences that together match what a look-ahead and the rest of the pattern do. Throws `NotExact`.
 *
 * @param {boolean} isNegated @param {import("./nodes.js").Alternatives} body
 * @param {import("./nodes.js").Sequence} rest
 * @returns {import("./nodes.js").Alternatives}
 */
export function taken(isNegated, body, rest) {
  return new Automaton(isNegated).alternatives(shortened(rest), body.map(shortened));
}

/** What is left in each state, and its edges. States with the same sequences are one, whatever their order is. */
class Automaton {
  #isNegated;
  #numbers = new Map();
  // Of each state, what is left of what follows, and of all that may be looked for.
  #left = [];
  // Of each state, what leads to others by their numbers, and to the end of the pattern.
  #edges = new Map();
  #count = 0;

  constructor(isNegated) {
    this.#isNegated = isNegated;
  }

  /** What leads to the end from the first state, which has all. */
  alternatives(rest, wanted) {
    const atOnce = this.#ends(rest, wanted);
    if (atOnce !== undefined) return atOnce;
    this.#number(rest, wanted);
    // (The list grows on the way.)
    for (const [number, left] of this.#left.entries()) this.#edges.set(number, this.#read(...left));
    while (this.#edges.size > 1) this.#takeOut(this.#cheapest());
    const edges = this.#edges.get(FIRST);
    const ends = edges.get(LAST) ?? [];
    const loop = edges.get(FIRST);
    return ends.length > 0 && loop !== undefined ? [joined(repeatedLoop(loop), ends)] : ends;
  }

  /** What leads to the end, if what is left is over on one of the two sides. */
  #ends(given, wanted) {
    const rest = isAnything(given) ? [] : given;
    if (wanted.some((it) => mayBeEmpty(it, false))) return this.#isNegated ? [] : [rest];
    if (wanted.length === 0) return this.#isNegated ? [rest] : [];
    return rest.length > 0 || this.#isNegated ? undefined : wanted;
  }

  /** The edges of a state. */
  #read(rest, wanted) {
    const edges = new Map();
    if (mayBeEmpty(rest, true) && wanted.some((it) => mayBeEmpty(it, true)) !== this.#isNegated) {
      edges.set(LAST, [[END]]);
    }
    const begins = wanted.flatMap((it) => beginsOf(it));
    for (const [one, after] of beginsOf(rest)) {
      for (const [region, left] of regions(one, begins)) {
        this.#count += 1;
        if (this.#count > MOST_EDGES) throw new NotExact();
        this.#addEdge(edges, region, after, left);
      }
    }
    return edges;
  }

  /** Adds the edge of a region, behind which this is left. */
  #addEdge(edges, region, after, left) {
    const ends = this.#ends(after, left);
    const target = ends === undefined ? this.#number(after, left) : LAST;
    if (ends?.length === 0) return;
    const label = ends === undefined ? [region] : joined([[region]], ends);
    edges.set(target, united(edges.get(target) ?? [], [label]));
  }

  /** The state in which this is left. */
  #number(given, wanted) {
    const rest = given.length === 0 ? ANYTHING : given;
    const all = distinct(wanted);
    const key = [keyOf(rest), ...all.map(keyOf).sort()].join("\n");
    let number = this.#numbers.get(key);
    if (number === undefined) {
      number = this.#left.length;
      if (number === MOST_STATES) throw new NotExact();
      this.#numbers.set(key, number);
      this.#left.push([rest, all]);
    }
    return number;
  }

  /** The state, other than the first, that makes the fewest edges when it is taken out. */
  #cheapest() {
    const costs = [...this.#edges.keys()].filter((it) => it !== FIRST).map((state) => [this.#cost(state), state]);
    return costs.reduce((least, it) => it[0] < least[0] ? it : least)[1];
  }

  #cost(state) {
    return this.#edges.get(state).size * [...this.#edges.values()].filter((edges) => edges.has(state)).length;
  }

  /** Leads the edges to a state on to where its own lead. */
  #takeOut(state) {
    const edges = this.#edges.get(state);
    this.#edges.delete(state);
    const loop = repeatedLoop(edges.get(state) ?? []);
    edges.delete(state);
    for (const others of this.#edges.values()) {
      const before = others.get(state);
      if (before === undefined) continue;
      others.delete(state);
      for (const [target, label] of edges) {
        others.set(target, united(others.get(target) ?? [], [joined(before, loop, label)]));
      }
    }
  }
}

/** The characters that a sequence may begin with, each with what is left then. */
function beginsOf(sequence) {
  if (sequence.length === 0 || isEnd(sequence[0])) return [];
  const [first, ...after] = sequence;
  if (first instanceof Characters) return [[first, after]];
  if (first instanceof Group) return first.body.flatMap((it) => beginsOf([...it, ...after]));
  if (!(first instanceof Repeat) || mayBeEmpty([first.node], true)) throw new NotExact();
  const passed = first.least === 0 ? beginsOf(after) : [];
  return first.most === 0 ? passed : [...passed, ...beginsOf([first.node, ...fewer(first), ...after])];
}

/** Whether a sequence may match no character: at the end of the text, or anywhere. */
function mayBeEmpty(sequence, atEnd) {
  return sequence.every((it) => isEmpty(it, atEnd));
}

function isEmpty(node, atEnd) {
  if (node instanceof Characters) return false;
  if (node instanceof Group) return node.body.some((it) => mayBeEmpty(it, atEnd));
  if (node instanceof Repeat) return node.least === 0 || isEmpty(node.node, atEnd);
  if (!isEnd(node)) throw new NotExact();
  return atEnd;
}

/** What one or the other matches. Characters alone are one set. */
function united(one, other) {
  let both = distinct([...one, ...other]);
  const isSingle = (it) => it.length === 1 && it[0] instanceof Characters && it[0].isPlain;
  const single = both.filter(isSingle);
  if (single.length > 1) {
    both = [[new Characters(ranges(single.flatMap(([it]) => it.ranges)))], ...both.filter((it) => !isSingle(it))];
  }
  if (both.reduce((sum, it) => sum + sizeOf(it), 0) > LARGEST) throw new NotExact();
  return both;
}

/** One after the other. */
function joined(...parts) {
  return parts.flatMap((it) => it.length === 1 ? it[0] : [new Group(it)]);
}

/** What a state leads to itself by, any number of times. */
function repeatedLoop(loop) {
  if (loop.length === 0) return [[]];
  const only = loop.length === 1 && loop[0].length === 1 ? loop[0][0] : undefined;
  return [[new Repeat(only instanceof Characters ? only : new Group(loop), 0, Infinity)]];
}
