/**
 * Schema documents as people write them, rewritten before the validator gets them: patterns of ECMA-262 in the syntax
 * of the crate `regex`, numbers with fractions as integers. That they say the same then is tested, and not proved.
 *
 * What can't be rewritten exactly is left as it is, and refused as it is without this.
 */
import { Change } from "./changes.js";
import { SIX, isObject } from "./dialects.js";
import { REWRITING } from "./interface.js";
import { DEEPEST, LARGEST_TEXT } from "./limits.js";
import { pointer } from "./locations.js";
import { Decimal, exactText, isTaken, number } from "./numbers.js";
import { rewriteNumbers, textsInAnnotations } from "./numbers_keywords.js";
import { integer, read } from "./reading.js";
import { Document, Targets } from "./resources.js";
import { Restoring } from "./restoring.js";
import { fragmentOf, joined, withPointer } from "./uris.js";

const NAMES = "patternProperties", INTEGERS = "integer";
// What a document has that may change; and numbers that `JSON.parse` may round.
const PATTERN = /pattern|\\u00/, NUMBER = /[0-9][.eE]|-0|[0-9]{19}/, ROUNDED = /[0-9][.eE]|-0|[0-9]{16}/;
// What a document has that names a dialect in which `1.0` is no integer, or asks for integers.
const OLD = /draft-0[34]|\\u00[2-7]/, INTEGER = /integer|\\u00[67]/;

const encoder = new TextEncoder();

/** A document whose value is rewritten, and what became of keywords in each of its schemas. */
class Rewritten {
  /** Pairs of the tokens of a schema and a change. */
  changes = [];
  /** What a name in `patternProperties` became, by the pointer that it had. */
  names = new Map();

  /** @param {Document} document @param {boolean} hasNumbers whether a number of it is written otherwise now */
  constructor(document, hasNumbers) {
    this.document = document;
    this.hasNumbers = hasNumbers;
  }

  /** The tokens that something has now. */
  now(tokens) {
    return tokens.map((it, index) => this.names.get(pointer(tokens.slice(0, index + 1))) ?? it);
  }

  /** What became of other keywords and names, or has another message, by the pointers now. */
  places() {
    return new Map(this.changes
      .filter(([, change]) => change.isMoved || change.message !== undefined)
      .map(([schema, change]) => [pointer([...this.now(schema), ...change.now]),
        { tokens: [...schema, ...change.before], change, isName: change.before[0] === NAMES }]));
  }
}

/**
 * What is rewritten, and the documents that were. Throws `RangeError` for what isn't one of the options.
 *
 * `patterns` is `ecma` or undefined, `numbers` is `exact`, `texts` (where fractions in annotations become texts) or
 * undefined.
 */
export class Rewriting {
  #patterns;
  #numbers;
  // What rewrites keywords that have patterns; undefined where no document has any.
  #ofPatterns;
  // Whether `1.0` isn't the integer 1.
  #isStrict = false;
  // What names became, and all that are taken.
  #names = new Map();
  #taken = new Set();
  // The entry that was looked up last, and what it is now.
  #entry = [];
  /** What leads from what the documents are now to what they were. */
  restoring = new Restoring(new Map(), new Map());

  /**
   * @param {{ patterns?: "ecma", numbers?: "exact" | "texts" }} options
   * @param {typeof import("./patterns/keywords.js")} [ofPatterns]
   */
  constructor({ patterns, numbers }, ofPatterns = undefined) {
    for (const [name, given] of Object.entries({ patterns, numbers })) {
      const known = Object.keys(REWRITING[name].words).slice(0, -1);
      if (given !== undefined && !known.includes(given)) {
        throw new RangeError(`${name}: '${given}': it is ${known.join(" or ")}, or undefined`);
      }
    }
    this.#patterns = patterns;
    this.#numbers = numbers;
    this.#ofPatterns = ofPatterns;
  }

  /**
   * The same for documents: what rewrites patterns is loaded where one may have some.
   *
   * @param {{ patterns?: "ecma", numbers?: "exact" | "texts" }} options
   * @param {readonly { bytes: Uint8Array }[]} documents
   */
  static async create(options, documents) {
    const mayHave = ({ bytes }) => PATTERN.test(decoded(bytes) ?? "");
    const isNeeded = options.patterns !== undefined && documents.some(mayHave);
    return new Rewriting(options, isNeeded ? await import("./patterns/keywords.js") : undefined);
  }

  /** Whether numbers are rewritten. */
  get hasNumbers() {
    return this.#numbers !== undefined;
  }

  /**
   * The documents, rewritten. One that names no dialect is of the one that is assumed.
   *
   * @param {readonly { uri: string, bytes: Uint8Array }[]} given @param {number} assumed
   */
  texts(given, assumed) {
    const texts = given.map(({ bytes }) => decoded(bytes));
    this.#isStrict = this.hasNumbers
      && given.some(({ uri }, index) => hasOldIntegers(uri, texts[index], assumed));
    const documents = new Map(given
      .map(({ uri }, index) => [index, this.#read(uri, texts[index], assumed)])
      .filter(([, it]) => it !== undefined));
    const all = [...documents.values()];
    for (const { value } of all.flatMap((it) => it.document.schemas)) {
      for (const name of isObject(value[NAMES]) ? Object.keys(value[NAMES]) : []) this.#taken.add(name);
    }
    for (const it of all) this.#rewrite(it);
    if (this.#names.size > 0) this.#refer(all);
    this.restoring = new Restoring(documents, new Map(Array.from(this.#names, ([name, now]) => [now, name])));
    return given.map(({ uri, bytes }, index) => ({ uri, bytes: bytesOf(documents.get(index), bytes) }));
  }

  /** The text of an instance, as the validator gets it: the same one where no number is rewritten. */
  instance(text) {
    if (!this.hasNumbers) return text;
    if (typeof text === "string") return exactText(text, !this.#isStrict);
    // (What isn't UTF-8 is refused anyway.)
    const characters = decoded(text) ?? "";
    const rewritten = exactText(characters, !this.#isStrict);
    return rewritten === characters ? text : encoder.encode(rewritten);
  }

  /** The URI that an entry has now. */
  entry(uri) {
    if (this.#names.size === 0 || !uri.includes(NAMES)) return uri;
    if (this.#entry[0] !== uri) this.#entry = [uri, this.restoring.renamed(uri, this.#names)];
    return this.#entry[1];
  }

  /** A document that may change. Undefined for one that can't be read: the validator says why. */
  #read(uri, text, assumed) {
    if (text === undefined || text.length > LARGEST_TEXT) return undefined;
    if (!(this.#patterns && PATTERN.test(text)) && !(this.hasNumbers && NUMBER.test(text))) return undefined;
    let hasNumbers = false;
    const exactly = (digits) => {
      hasNumbers ||= !isTaken(digits);
      return number(digits);
    };
    const whole = this.hasNumbers ? exactly : within;
    try {
      const value = ROUNDED.test(text) ? read(text, whole, { isLenient: true }) : plain(text);
      return new Rewritten(new Document(uri, value, assumed), hasNumbers);
    } catch (error) {
      return noneFor(error);
    }
  }

  #rewrite(made) {
    for (const schema of [...made.document.schemas].reverse()) {
      const { value, tokens } = schema;
      const dialect = made.document.dialectAt(tokens);
      const changes = [];
      if (this.hasNumbers) changes.push(...rewriteNumbers(value, dialect));
      if (this.#numbers === "texts") textsInAnnotations(value, dialect);
      if (this.#patterns !== undefined && this.#ofPatterns !== undefined) {
        changes.push(...this.#ofPatterns.rewritePattern(value, dialect));
        const ofNames = this.#ofPatterns.rewriteNames(value, dialect, (name, text) => this.#free(name, text));
        for (const { before, now } of ofNames.filter((it) => it.before[0] === NAMES)) {
          made.names.set(pointer([...tokens, ...before]), now[1]);
        }
        changes.push(...ofNames);
      }
      made.changes.push(...changes.map((change) => [tokens, change]));
    }
  }

  /** The name that a name becomes: each one another, and none that was there. */
  #free(name, text) {
    if (name === text) return name;
    if (!this.#names.has(name)) {
      let free = text;
      while (this.#taken.has(free)) free += "(?:)";
      this.#taken.add(free);
      this.#names.set(name, free);
    }
    return this.#names.get(name);
  }

  /** Rewrites the references that lead through names that are others now. */
  #refer(all) {
    const madeOf = new Map(all.map((it) => [it.document, it])), targets = new Targets(madeOf.keys());
    for (const made of all) {
      for (const { value, tokens, base, references } of made.document.schemas) {
        for (const [keyword, reference] of references) {
          const referred = referredNow(reference, joined(base, reference), targets, madeOf);
          if (referred === reference) continue;
          value[keyword] = referred;
          made.changes.push([tokens, new Change([keyword], [keyword])]);
        }
      }
    }
  }
}

/** A reference to what has this URI. */
function referredNow(reference, uri, targets, madeOf) {
  const fragment = fragmentOf(uri);
  if (!fragment.includes(NAMES) || !fragment.startsWith("/")) return reference;
  const found = targets.target(uri);
  if (found === undefined) return reference;
  const now = madeOf.get(found.document).now(found.tokens);
  if (now.every((it, index) => it === found.tokens[index])) return reference;
  return withPointer(reference, now.slice(-fragment.split("/").length + 1));
}

/** The bytes of a document: those that were given where nothing has changed. */
function bytesOf(made, bytes) {
  if (made === undefined || !made.hasNumbers && made.changes.length === 0) return bytes;
  return encoder.encode(textOf(made.document.value));
}

/** The JSON text of a value. What is left of other numbers is one that the validator refuses wherever it stands. */
function textOf(value) {
  if (value instanceof Decimal) return "0.5";
  if (Array.isArray(value)) return `[${value.map(textOf)}]`;
  if (!isObject(value)) return typeof value === "bigint" ? String(value) : JSON.stringify(value);
  return `{${Object.entries(value).map(([name, it]) => `${JSON.stringify(name)}:${textOf(it)}`)}}`;
}

/** The text of bytes in UTF-8; undefined for others. */
function decoded(bytes) {
  try {
    return new TextDecoder("utf-8", { fatal: true, ignoreBOM: true }).decode(bytes);
  } catch {
    return undefined;
  }
}

/** The value of a text whose numbers aren't looked at. Throws `RangeError` where it nests deeper than it may. */
function plain(text) {
  const value = JSON.parse(text);
  const isHolder = (it) => typeof it === "object" && it !== null;
  let level = [value].filter(isHolder);
  for (let depth = 0; level.length > 0; depth++) {
    if (depth === DEEPEST) throw new RangeError("nested too deep");
    level = level.flatMap((it) => Object.values(it)).filter(isHolder);
  }
  return value;
}

/** An integer as the validator takes it. */
function within(digits) {
  if (!isTaken(digits)) throw new RangeError(`${digits} is no integer in the range`);
  return integer(digits);
}

/** Undefined for what was thrown where a document can't be read. */
function noneFor(error) {
  if (error instanceof SyntaxError || error instanceof RangeError) return undefined;
  throw error;
}

/**
 * Whether a document, or a part of it, is of a draft in which `1.0` is no integer, and asks for integers. (It may say
 * so of one where only a value looks like that.)
 */
function hasOldIntegers(uri, text, assumed) {
  if (text === undefined || text.length > LARGEST_TEXT) return false;
  if (assumed >= SIX && !OLD.test(text) || !INTEGER.test(text)) return false;
  try {
    const document = new Document(uri, plain(text), assumed);
    return Math.min(...document.dialects) < SIX && namesInteger(document.value);
  } catch (error) {
    // (The validator refuses it.)
    return noneFor(error) ?? false;
  }
}

/** Whether a `type`, or a `disallow` of draft-03, somewhere in a value names integers. */
function namesInteger(value) {
  if (Array.isArray(value)) return value.some(namesInteger);
  if (!isObject(value)) return false;
  return [value.type, value.disallow].some((it) => it === INTEGERS || Array.isArray(it) && it.includes(INTEGERS))
    || Object.values(value).some(namesInteger);
}
