/**
 * Patterns with look-around, as combinations of patterns without.
 *
 * `^(?!A)B` matches a text if `^B` does and `^A` doesn't; `B(?<!A)$` if `B$` does and `A$` doesn't.
 */
import { taken } from "./automata.js";
import { ANY, Characters } from "./characters.js";
import { NEVER, Not, Plain, every, isNever, some } from "./combinations.js";
import { END, Group, Look, Repeat, START, hasLook, haveLook, isEnd, isStart, leastWidthOf, repeated, width,
  widthOf } from "./nodes.js";
import { NotExact, Pusher, mirrored, shortened, words } from "./pushing.js";

const MOST_SEQUENCES = 40;
// The most nodes that are looked at, each time that they are; and how many an automaton counts as.
const MOST_NODES = 5000, AUTOMATON = 250;
// How long the words of a look-around may be, and how many steps it may take to take them in.
const SHORT = Object.freeze({ longest: 1, steps: 12 }), LONG = Object.freeze({ longest: 100, steps: 300 });
const MOST_TURNS = 4;

/**
 * The combination that matches the same texts. Throws `NotExact`.
 *
 * @param {import("./nodes.js").Alternatives} body @returns {import("./combinations.js").Combination}
 */
export function combination(body) {
  return new Rewriter(["fromStartAlone", "short", "atStart", "atEnd", "inAllPlaces", ...ALONE]).combined(body);
}

/** One pattern without look-around that matches the same texts, if there is one that isn't much larger. */
export function single(body) {
  try {
    const found = new Rewriter(["short", ...ALONE]).combined(body);
    return found instanceof Plain ? found : undefined;
  } catch (error) {
    if (error instanceof NotExact) return undefined;
    throw error;
  }
}

/** A sequence in which groups that have one alternative, and look-around in it, are that. */
function opened(sequence) {
  return sequence.flatMap((node) => {
    if (!(node instanceof Group) || node.body.length !== 1) return [node];
    return hasLook(node) || node.body[0].some(isStart) ? opened(node.body[0]) : [node];
  });
}

// The rules that make patterns alone, after that for one character.
const ALONE = ["long", "ofAnyLength", "distributed"];

/** Rewrites by rules with these names, the first that applies. Each returns undefined where it doesn't. */
class Rewriter {
  #rules;
  #nodes = 0;

  /** @param {readonly string[]} rules */
  constructor(rules) {
    this.#rules = rules;
  }

  /** The combination of alternatives: those without look-around are one pattern. */
  combined(body) {
    const found = body.map((it) => this.#combinationOf(opened(it))).filter((it) => !isNever(it));
    return found.length > 0 ? some(...found) : NEVER;
  }

  #combinationOf(sequence) {
    this.#nodes += 1 + sequence.length;
    if (this.#nodes > MOST_NODES) throw new NotExact();
    if (!haveLook(sequence)) return new Plain([sequence]);
    for (const rule of this.#rules) {
      const found = this[rule](sequence);
      if (found !== undefined) return found;
    }
    throw new NotExact();
  }

  /** `(?!^A)B`: from the start `B` without `A`, or `B` from elsewhere. `(?=^A)B` begins at the start. */
  fromStartAlone(sequence) {
    const [look, ...rest] = sequence;
    if (!(look instanceof Look) || !look.isAhead || isAnchored(sequence)) return undefined;
    if (!look.body.every((it) => isStart(opened(it)[0]))) return undefined;
    const fromStart = this.#combinationOf([START, ...sequence]);
    return look.isNegated ? some(fromStart, this.#combinationOf([ANY, ...rest])) : fromStart;
  }

  /** A look-around so many characters behind the start. */
  atStart(sequence) {
    const found = firstCondition(sequence);
    return found && this.#withCondition(sequence, found.index, found.body);
  }

  /** A look-around so many characters before the end. */
  atEnd(sequence) {
    const found = firstCondition(mirrored(sequence));
    return found && this.#withCondition(sequence, sequence.length - 1 - found.index, found.body.map(mirrored));
  }

  /** A sequence without the look-around at an index, and that the text is as that wants it. */
  #withCondition(sequence, index, body) {
    const { isNegated } = sequence[index];
    const condition = body.length > 0 ? this.combined(body) : NEVER;
    const rest = this.#combinationOf(sequence.filter((_, other) => other !== index));
    if (isNever(condition)) return isNegated ? rest : NEVER;
    return every(isNegated ? new Not(condition) : condition, rest);
  }

  /** `^((?!A)c)*$`: `A` is at none of the places, so nowhere. */
  inAllPlaces(sequence) {
    if (sequence.length < 3 || !isStart(sequence[0]) || !isEnd(sequence.at(-1))) return undefined;
    const place = widthOf(sequence.slice(1, -2)), last = sequence.at(-2);
    if (place === undefined || !(last instanceof Repeat) || !(last.node instanceof Group)) return undefined;
    if (last.node.body.length !== 1 || last.most === 0) return undefined;
    const inner = opened(last.node.body[0]);
    const index = inner.findIndex((it) => it instanceof Look);
    if (index < 0 || widthOf(inner) !== 1) return undefined;
    const body = inOnePlace(inner, index, place);
    if (body === undefined) return undefined;
    const others = inner.filter((_, other) => other !== index);
    const one = others.length === 1 && others[0] instanceof Characters ? others[0] : new Group([others]);
    const rest = [...sequence.slice(0, -2), new Repeat(one, last.least, last.most), END];
    return every(new Not(this.combined(body)), this.#combinationOf(rest));
  }

  /** Look-arounds for one character, here and in groups. */
  short(sequence) {
    return this.#pushed(sequence, SHORT);
  }

  /** Those for words of a bounded length. */
  long(sequence) {
    return this.#pushed(sequence, LONG);
  }

  #pushed(sequence, bounds) {
    for (const [index, node] of sequence.entries()) {
      if (node instanceof Look) {
        const found = beside(sequence, index, true, bounds);
        if (found !== undefined) return this.combined(found);
      } else if (hasLook(node)) {
        const made = inside(node, bounds);
        if (made !== undefined) return this.#combinationOf(replaced(sequence, index, [made]));
      }
    }
    return undefined;
  }

  /** A look-around, and what stands beside it up to the end, read side by side. */
  ofAnyLength(sequence) {
    for (const [index, node] of sequence.entries()) {
      if (!(node instanceof Look)) continue;
      if (haveLook(node.isAhead ? sequence.slice(index + 1) : sequence.slice(0, index))) continue;
      this.#nodes += AUTOMATON;
      const found = turned(sequence, index, (look, rest) => taken(look.isNegated, withoutLook(look.body), rest));
      if (found !== undefined) return this.combined(found);
    }
    return undefined;
  }

  /** Each alternative of the first group with look-around, with what stands around the group. */
  distributed(sequence) {
    const index = sequence.findIndex(hasLook), node = sequence[index];
    let parts = [];
    if (node instanceof Group) {
      parts = node.body;
    } else if (node instanceof Repeat && node.most <= MOST_TURNS) {
      for (let count = node.least; count <= node.most; count++) parts.push(Array(count).fill(node.node));
    } else {
      return undefined;
    }
    if (parts.length > MOST_SEQUENCES) return undefined;
    return this.combined(parts.map((it) => replaced(sequence, index, it)));
  }
}

/** A sequence with others in place of the node at an index. */
function replaced(sequence, index, nodes) {
  return [...sequence.slice(0, index), ...nodes, ...sequence.slice(index + 1)];
}

/** Whether the sequence says that it begins at the start of the text. */
function isAnchored(sequence) {
  for (const node of sequence) {
    if (isStart(node)) return true;
    if (width(node) !== 0) return false;
  }
  return false;
}

/**
 * The first look-around that stands so many characters behind the start, and for which it is known what patterns find
 * what it wants: its index, and these as its body.
 */
function firstCondition(sequence) {
  if (!isAnchored(sequence)) return undefined;
  for (const [index, look] of sequence.entries()) {
    const place = widthOf(sequence.slice(0, index));
    if (place === undefined) return undefined;
    const body = look instanceof Look ? fromStart(look, place) : undefined;
    if (body !== undefined) return { index, body };
  }
  return undefined;
}

/** The patterns that find what a look-around wants, so many characters behind the start; undefined if not known. */
function fromStart(look, place) {
  const found = [];
  for (const body of look.body) {
    const length = look.isAhead ? 0 : widthOf(body);
    if (length === undefined) return undefined;
    const begin = place - length;
    if (begin === 0 && isStart(body[0])) found.push(body);
    else if (begin >= 0) found.push([START, ...repeated(ANY, begin, begin), ...body]);
  }
  return look.isAhead ? found.map(shortened) : found;
}

/**
 * The patterns that find what a look-around forbids, where it is asked beside each character from a place on. Undefined
 * where these aren't known.
 */
function inOnePlace(inner, index, place) {
  const { isAhead, isNegated, body } = inner[index];
  const isBefore = widthOf(inner.slice(0, index)) === 0;
  // (Otherwise it might be empty at the end, or at the start, where it isn't asked.)
  const hasWidth = body.every((it) => leastWidthOf(it) > 0);
  if (!isNegated || isBefore === isAhead && !hasWidth || !isAhead && place > 0) return undefined;
  if (isBefore === isAhead && place === 0) return body;
  if (!isAhead) return body.map((it) => [...it, new Repeat(ANY, 1, Infinity), END]);
  const any = new Repeat(ANY, isBefore ? 0 : 1, Infinity);
  return body.map((it) => [START, ...repeated(ANY, place, place), any, ...it]);
}

/**
 * The sequences without the look-around at an index that match the same; `isWhole` says that the pattern is no longer.
 * Undefined where it is too long, or they are too many.
 */
function beside(sequence, index, isWhole, { longest, steps }) {
  return turned(sequence, index, (look, rest) => {
    const wanted = words(look.body);
    if (wanted.some((it) => it.length > longest)) throw new NotExact();
    return new Pusher(look.isNegated, isWhole, steps).pushed(wanted, rest);
  });
}

/**
 * The sequences with what becomes of the look-around at an index and what follows it; a look-behind is turned for that,
 * with what stands before it. Undefined where that can't be.
 */
function turned(sequence, index, join) {
  const look = sequence[index], before = sequence.slice(0, index), after = sequence.slice(index + 1);
  try {
    if (look.isAhead) return join(look, after).map((it) => [...before, ...it]);
    const ahead = new Look(true, look.isNegated, look.body.map(mirrored));
    return join(ahead, mirrored(before)).map((it) => [...mirrored(it), ...after]);
  } catch (error) {
    if (error instanceof NotExact) return undefined;
    throw error;
  }
}

/** The same as what a look-ahead wants without the look-aheads in it. */
function withoutLook(body) {
  if (!body.some(haveLook)) return body;
  const found = body.some(haveLookBehind) ? undefined : single(body);
  if (found === undefined) throw new NotExact();
  return found.body;
}

function haveLookBehind(sequence) {
  return sequence.map((it) => it instanceof Repeat ? it.node : it)
    .filter((it) => it instanceof Look || it instanceof Group)
    .some((it) => it instanceof Look && !it.isAhead || it.body.some(haveLookBehind));
}

/** A group in which no look-around is left, or something that is repeated. Undefined where one looks out of it. */
function inside(node, bounds) {
  if (node instanceof Repeat) {
    const inner = inside(node.node, bounds);
    return inner && new Repeat(inner, node.least, node.most);
  }
  if (!(node instanceof Group)) return undefined;
  const found = [], waiting = [...node.body].reverse();
  while (waiting.length > 0) {
    const sequence = opened(waiting.pop());
    const index = sequence.findIndex(hasLook);
    if (index < 0) {
      found.push(sequence);
      continue;
    }
    if (sequence[index] instanceof Look) {
      const made = beside(sequence, index, false, bounds);
      if (made === undefined || waiting.length + made.length > MOST_SEQUENCES) return undefined;
      waiting.push(...made.reverse());
    } else {
      const made = inside(sequence[index], bounds);
      if (made === undefined) return undefined;
      waiting.push(replaced(sequence, index, [made]));
    }
  }
  return new Group(found.length > 0 ? found : NEVER.body);
}
