/** Sets of characters, and how `regex` writes them. */

/**
 * Ranges of code points, in order, which don't touch one another.
 *
 * @typedef {readonly (readonly [number, number])[]} Ranges
 */

export const GREATEST = 0x10ffff;
const FIRST_SURROGATE = 0xd800, LAST_SURROGATE = 0xdfff;
// What has a meaning in a class or outside of one.
const IN_CLASS = new Set("\\[]^-&~"), OUTSIDE = new Set("\\.+*?()|[]{}^$");
// Properties and folded characters are large sets when `regex` has compiled them.
const LARGE = 500;

/** Ranges in order, those that touch joined. Surrogates are in no text, so they are left out. */
export function ranges(given) {
  const found = [];
  const parts = [...given].flatMap(withoutSurrogates).sort((one, other) => one[0] - other[0] || one[1] - other[1]);
  for (const [first, last] of parts) {
    const before = found.at(-1);
    if (before !== undefined && first <= before[1] + 1) before[1] = Math.max(before[1], last);
    else found.push([first, last]);
  }
  return found;
}

function withoutSurrogates([first, last]) {
  const below = [first, Math.min(last, FIRST_SURROGATE - 1)], above = [Math.max(first, LAST_SURROGATE + 1), last];
  return [below, above].filter(([begin, end]) => begin <= end);
}

/** All other characters. */
export function complement(given) {
  const found = [];
  let begin = 0;
  for (const [first, last] of given) {
    found.push([begin, first - 1]);
    begin = last + 1;
  }
  return ranges([...found, [begin, GREATEST]].filter(([first, last]) => first <= last));
}

/** The characters of both. */
export function common(one, other) {
  return ranges(one.flatMap(([a, b]) => other.map(([c, d]) => [Math.max(a, c), Math.min(b, d)]))
    .filter(([first, last]) => first <= last));
}

/** One character of a set: of ranges, and of properties as they are written, as `\p{L}`. */
export class Characters {
  #key;

  /**
   * @param {Ranges} ranges
   * @param {{ properties?: readonly string[], isNegated?: boolean, isFolded?: boolean,
   *     without?: readonly Characters[] }} [more] whether upper and lower case are the same, as after `(?i)`; and the
   *     characters that are taken away
   */
  constructor(ranges, { properties = [], isNegated = false, isFolded = false, without = [] } = {}) {
    this.ranges = ranges;
    this.properties = properties;
    this.isNegated = isNegated;
    this.isFolded = isFolded;
    this.without = without;
  }

  /** What two sets have in common if they are the same. */
  get key() {
    this.#key ??= `[${this.isFolded ? "i" : ""}${this.isNegated ? "^" : ""}${this.ranges.join(";")}` +
      `${this.properties.join("")}${this.without.map((it) => `-${it.key}`).join("")}]`;
    return this.#key;
  }

  /** Whether the ranges say it all. */
  get isPlain() {
    return !(this.properties.length > 0 || this.isNegated || this.isFolded || this.without.length > 0);
  }

  /** Whether the set is known to have no character. */
  get isEmpty() {
    return this.isPlain && this.ranges.length === 0;
  }

  /** About how large the set is when `regex` has compiled it. */
  get size() {
    const more = this.properties.length > 0 || this.isFolded ? LARGE : 0;
    return this.without.reduce((sum, it) => sum + it.size, 1 + this.ranges.length + more);
  }

  /** The characters of this set that aren't in the other. */
  minus(other) {
    if (this.isPlain && other.isPlain) return new Characters(common(this.ranges, complement(other.ranges)));
    return new Characters(this.ranges, { ...this.#more, without: [...this.without, other] });
  }

  /** The characters of both sets. */
  both(other) {
    if (this.isPlain && other.isPlain) return new Characters(common(this.ranges, other.ranges));
    return this.minus(other.opposite());
  }

  /** All other characters. */
  opposite() {
    if (this.isPlain) return new Characters(complement(this.ranges));
    if (this.without.length > 0) return new Characters(ANY.ranges, { isFolded: this.isFolded, without: [this] });
    return new Characters(this.ranges, { ...this.#more, isNegated: !this.isNegated });
  }

  /** The set as `regex` reads it, where the case counts as it does here. */
  written() {
    const [first] = this.ranges;
    if (this.isPlain && this.ranges.length === 1 && first[0] === first[1]) return literal(first[0], OUTSIDE);
    return this.key === ANY.key ? "(?s:.)" : this.inBrackets();
  }

  /** The same as a class. */
  inBrackets() {
    const inside = this.#inside();
    if (this.without.length === 0) return inside;
    return `[${inside}${this.without.map((it) => `--${it.inBrackets()}`).join("")}]`;
  }

  /** The class without what is taken away. */
  #inside() {
    let members = this.ranges, { isNegated } = this;
    const others = complement(members);
    if (this.properties.length === 0 && !this.isFolded && others.length < members.length) {
      members = others;
      isNegated = !isNegated;
    }
    if (members.length === 0 && this.properties.length === 0) {
      // (No class is empty.)
      members = [[0, GREATEST]];
      isNegated = !isNegated;
    }
    return `[${isNegated ? "^" : ""}${members.map(range).join("")}${this.properties.join("")}]`;
  }

  get #more() {
    const { properties, isNegated, isFolded } = this;
    return { properties, isNegated, isFolded };
  }
}

function range([first, last]) {
  const one = literal(first, IN_CLASS);
  return first === last ? one : `${one}${last > first + 1 ? "-" : ""}${literal(last, IN_CLASS)}`;
}

/** A character as it stands for itself. */
function literal(code, special) {
  const character = String.fromCodePoint(code);
  if (special.has(character)) return `\\${character}`;
  return /^[ -~\p{L}]$/u.test(character) ? character : `\\x{${code.toString(16).toUpperCase()}}`;
}

export const ANY = new Characters(ranges([[0, GREATEST]]));
const DIGITS = ranges([[0x30, 0x39]]);
const WORDS = ranges([[0x30, 0x39], [0x41, 0x5a], [0x5f, 0x5f], [0x61, 0x7a]]);
// ECMA-262's white space and line ends: those of Unicode's category Zs, and these.
const SPACES = ranges([[0x09, 0x0d], [0x20, 0x20], [0xa0, 0xa0], [0x1680, 0x1680], [0x2000, 0x200a], [0x2028, 0x2029],
  [0x202f, 0x202f], [0x205f, 0x205f], [0x3000, 0x3000], [0xfeff, 0xfeff]]);
const LINE_ENDS = ranges([[0x0a, 0x0a], [0x0d, 0x0d], [0x2028, 0x2029]]);

/** What `\d`, `\w`, `\s` and `.` are, and their opposites. */
export const CLASSES = new Map(Object.entries({ d: DIGITS, w: WORDS, s: SPACES, D: complement(DIGITS),
  W: complement(WORDS), S: complement(SPACES) }));
export const DOT = new Characters(complement(LINE_ENDS));
