/**
 * Patterns as ECMA-262 reads them with the flag `u`, and what else people write where all who read it agree:
 *
 * an escaped character that is no letter or digit stands for itself, `]`, `}` and `{` may stand alone, `\A` is `^`,
 * `\z` and `\Z` are `$`, `(?i)` holds up to the end of its group, `(?P<name>..)` is a group.
 */
import { CLASSES, Characters, DOT, GREATEST, complement, ranges } from "./characters.js";
import { Assertion, Group, Look, Repeat } from "./nodes.js";

const QUANTIFIER = /(?:([*+?])|\{([0-9]+)(?:(,)([0-9]*))?\})\??/y;
const BRACED = /\{[0-9]*,?[0-9]*\}/y;
const LOOK = /\(\?(<?)([=!])/y;
const NAMED = /\(\?P?<([A-Za-z_$][A-Za-z0-9_$]*)>/y;
const PROPERTY = /\\[pP]\{[A-Za-z0-9_]+(?:=[A-Za-z0-9_]+)?\}/y;
const CODE = new RegExp("\\\\(?:x(?<two>[0-9A-Fa-f]{2})|u(?<four>[0-9A-Fa-f]{4})|u\\{(?<braced>[0-9A-Fa-f]+)\\}" +
  "|c(?<control>[A-Za-z])|(?<zero>0)(?![0-9]))", "y");
const SECOND = /\\u([dD][c-fC-F][0-9A-Fa-f]{2})/y;
const LETTER_OR_DIGIT = /^[\p{L}\p{N}]$/u;
const CONTROLS = new Map(Object.entries({ t: 0x09, n: 0x0a, v: 0x0b, f: 0x0c, r: 0x0d }));
const BOUNDS = { "*": [0, Infinity], "+": [1, Infinity], "?": [0, 1] };
const ANCHORS = new Map(Object.entries({ A: "^", z: "$", Z: "$" }));
const DEEPEST = 100, MOST_DIGITS = 9;

/** A pattern isn't read here: it is malformed, has a back-reference, or is read in several ways. */
export class NotRead extends Error {
  /** The index up to which it was read. */
  at = 0;
}

/**
 * Reads a pattern: its alternatives, and whether `regex` reads the same text otherwise, or not at all. Throws
 * `NotRead`.
 *
 * @param {string} pattern
 */
export function readSyntax(pattern) {
  const reader = new Reader(pattern);
  try {
    const alternatives = reader.alternatives(0);
    if (reader.at < pattern.length || reader.hasSingleBracket && reader.hasBracketInClass) throw new NotRead();
    return { alternatives, differs: reader.differs };
  } catch (error) {
    if (error instanceof NotRead) error.at = reader.at;
    throw error;
  }
}

/** A member of a class: a character, a class, or a property. */
class Member {
  /**
   * @param {import("./characters.js").Ranges} ranges
   * @param {readonly string[]} [properties]
   * @param {number} [code] the code point of a character. (It may be a surrogate, which is in no text.)
   */
  constructor(ranges, properties = [], code = undefined) {
    this.ranges = ranges;
    this.properties = properties;
    this.code = code;
  }

  static of(code) {
    return new Member(ranges([[code, code]]), [], code);
  }
}

/** A pass over a pattern: `at` is the index of the next character. */
class Reader {
  at = 0;
  differs = false;
  isFolded = false;
  hasSingleBracket = false;
  hasBracketInClass = false;
  #names = new Set();

  constructor(pattern) {
    this.pattern = pattern;
  }

  /** Those up to the end of the group, or of the pattern. */
  alternatives(depth) {
    if (depth > DEEPEST) throw new NotRead();
    const folded = this.isFolded;
    const found = [this.#sequence(depth)];
    while (this.#skip("|")) found.push(this.#sequence(depth));
    this.isFolded = folded;
    return found;
  }

  #sequence(depth) {
    const found = [];
    for (let sign; !["", "|", ")"].includes(sign = this.#next());) {
      if (this.#skip("(?i)")) {
        this.isFolded = true;
        continue;
      }
      const node = sign === "(" ? this.#group(depth) : this.#atom(sign);
      found.push(...this.#repeated(node, this.#bounds()));
    }
    return found;
  }

  /** A node with what is written behind it. */
  #repeated(node, bounds) {
    if (bounds === undefined) return [node];
    if (node instanceof Look && node.isAhead) {
      // (So it was before the flag `u`.)
      this.differs = true;
      return bounds[0] > 0 ? [node] : [];
    }
    if (!(node instanceof Characters || node instanceof Group)) throw new NotRead();
    return [new Repeat(node, ...bounds)];
  }

  /** The character at an index, or nothing at the end. */
  #characterAt(index) {
    const code = this.pattern.codePointAt(index);
    return code === undefined ? "" : String.fromCodePoint(code);
  }

  #next() {
    return this.#characterAt(this.at);
  }

  #skip(text) {
    const isThere = this.pattern.startsWith(text, this.at);
    if (isThere) this.at += text.length;
    return isThere;
  }

  #take(expression) {
    expression.lastIndex = this.at;
    const found = expression.exec(this.pattern);
    if (found !== null) this.at = expression.lastIndex;
    return found ?? undefined;
  }

  #isBraced() {
    BRACED.lastIndex = this.at;
    return BRACED.test(this.pattern);
  }

  /** How often what was read may be there, if that is written behind it. */
  #bounds() {
    const found = this.#take(QUANTIFIER);
    if (found === undefined) {
      if (this.#isBraced()) throw new NotRead();
      return undefined;
    }
    const [, sign, first, comma, second = ""] = found;
    if (sign !== undefined) return BOUNDS[sign];
    if (first.length > MOST_DIGITS || second.length > MOST_DIGITS) throw new NotRead();
    const least = Number(first);
    const most = comma === undefined ? least : second === "" ? Infinity : Number(second);
    if (most < least) throw new NotRead();
    return [least, most];
  }

  #group(depth) {
    const folded = this.isFolded, begin = this.at;
    const look = this.#take(LOOK);
    if (look !== undefined) this.differs = true;
    else this.#openGroup();
    const body = this.alternatives(depth + 1);
    this.isFolded = folded;
    if (!this.#skip(")")) throw new NotRead();
    return look === undefined ? new Group(body) : new Look(look[1] === "", look[2] === "!", body, begin);
  }

  /** Passes over the beginning of a group without look-around. */
  #openGroup() {
    const named = this.#take(NAMED);
    if (named !== undefined) {
      const [, name] = named;
      if (this.#names.has(name)) throw new NotRead();
      this.#names.add(name);
      this.differs ||= name.includes("$");
    } else if (this.#skip("(?i:")) {
      this.isFolded = true;
    } else if (!this.#skip("(?:") && (this.#skip("(?") || !this.#skip("("))) {
      throw new NotRead();
    }
  }

  #atom(sign) {
    if (sign === "\\") return this.#escape();
    if (sign === "[") return this.#class();
    if (sign === "{" && this.#isBraced() || "*+?".includes(sign)) throw new NotRead();
    this.at += sign.length;
    if ("^$".includes(sign)) return new Assertion(sign);
    if (sign === ".") {
      this.differs = true;
      return this.#characters(DOT.ranges);
    }
    this.hasSingleBracket ||= sign === "]";
    this.differs ||= sign === "{";
    const code = sign.codePointAt(0);
    return this.#characters(ranges([[code, code]]));
  }

  #characters(given, properties = [], isNegated = false) {
    const isPlain = properties.length === 0 && !this.isFolded;
    if (isPlain && isNegated) return new Characters(complement(given));
    return new Characters(given, { properties, isNegated, isFolded: this.isFolded });
  }

  #escape() {
    const letter = this.#characterAt(this.at + 1);
    if (letter === "b" || letter === "B") {
      this.differs = true;
      this.at += 2;
      // (To `regex` it names a kind of boundary.)
      if (this.#next() === "{") throw new NotRead();
      return new Assertion(`\\${letter}`);
    }
    if (ANCHORS.has(letter)) {
      this.differs ||= letter === "Z";
      this.at += 2;
      return new Assertion(ANCHORS.get(letter));
    }
    const found = this.#escaped(letter);
    return this.#characters(found.ranges, found.properties);
  }

  /** What an escape names, in a class or outside. */
  #escaped(letter) {
    if (CLASSES.has(letter)) {
      this.differs = true;
      this.at += 2;
      return new Member(CLASSES.get(letter));
    }
    if (letter !== "p" && letter !== "P") return Member.of(this.#code(letter));
    const found = this.#take(PROPERTY);
    if (found === undefined) throw new NotRead();
    return new Member([], [found[0]]);
  }

  /** The code point that an escape names. */
  #code(letter) {
    const found = this.#take(CODE);
    if (found !== undefined) return this.#codeOf(found.groups);
    if (letter === "" || LETTER_OR_DIGIT.test(letter) && !CONTROLS.has(letter)) throw new NotRead();
    this.at += 1 + letter.length;
    // (To `regex` two of these are bounds of words.)
    this.differs ||= "<>".includes(letter) || letter > "\x7f";
    return CONTROLS.get(letter) ?? letter.codePointAt(0);
  }

  #codeOf({ two, four, braced, control, zero }) {
    if (control !== undefined) {
      this.differs = true;
      return control.codePointAt(0) % 32;
    }
    let code = parseInt(two ?? four ?? braced ?? "0", 16);
    if (four !== undefined && code >= 0xd800 && code < 0xdc00) {
      const second = this.#take(SECOND);
      if (second !== undefined) code = 0x10000 + (code - 0xd800) * 0x400 + parseInt(second[1], 16) - 0xdc00;
    }
    if (code > GREATEST) throw new NotRead();
    this.differs ||= zero !== undefined || four !== undefined && code > 0xd7ff;
    return code;
  }

  #class() {
    const begin = this.at;
    this.at += 1;
    const isNegated = this.#skip("^");
    const given = [], properties = [];
    this.differs ||= this.#next() === "]";
    while (!this.#skip("]")) {
      const low = this.#classMember();
      if (this.#next() === "-" && this.#characterAt(this.at + 1) !== "]") {
        this.at += 1;
        const high = this.#classMember();
        given.push(...this.#range(low, high));
        properties.push(...high.properties);
      } else {
        given.push(...low.ranges);
      }
      properties.push(...low.properties);
    }
    // (To `regex` these are operators.)
    const text = this.pattern.slice(begin, this.at);
    this.differs ||= ["&&", "--", "~~"].some((it) => text.includes(it));
    return this.#characters(ranges(given), properties, isNegated);
  }

  #classMember() {
    const sign = this.#next();
    if (sign === "\\") {
      const letter = this.#characterAt(this.at + 1);
      if (letter !== "b") return this.#escaped(letter);
      this.differs = true;
      this.at += 2;
      return Member.of(0x08);
    }
    if (sign === "") throw new NotRead();
    this.at += sign.length;
    if (sign === "[") this.differs = this.hasBracketInClass = true;
    return Member.of(sign.codePointAt(0));
  }

  /**
   * The characters from one to another. Beside a class the hyphen stands for itself, as before the flag `u`, and so it
   * does beside a property for those who read that.
   */
  #range(low, high) {
    if (low.code !== undefined && high.code !== undefined) {
      if (high.code < low.code) throw new NotRead();
      return ranges([[low.code, high.code]]);
    }
    this.differs = true;
    return [...low.ranges, ...high.ranges, [0x2d, 0x2d]];
  }
}
