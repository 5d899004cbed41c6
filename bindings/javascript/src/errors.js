/** What is thrown, and the errors of an instance. */
import { MEANINGS } from "./interface.js";
import { schemaSteps } from "./locations.js";
import { Text } from "./positions.js";

/** One error of an instance: a unit of the `basic` output. */
export class ValidationError {
  #text;

  constructor(unit, text, original = unit.absoluteKeywordLocation) {
    /** What is wrong. */
    this.message = unit.error;
    /** JSON Pointer to the value that was validated. */
    this.instanceLocation = unit.instanceLocation;
    /** JSON Pointer through the schemas, with references followed; through upgraded ones of older drafts. */
    this.keywordLocation = unit.keywordLocation;
    /** URI of the keyword, with a JSON Pointer as its fragment: in the document that was passed in. */
    this.absoluteKeywordLocation = original;
    /** The same in the document that was validated with: of an older draft, the upgraded one. */
    this.upgradedLocation = unit.absoluteKeywordLocation;
    this.#text = text;
  }

  /** The keyword that isn't met; `false` for a schema `false` in a list or an object of schemas. */
  get keyword() {
    const last = schemaSteps(this.keywordLocation).at(-1);
    return last?.isKeyword ? String(last.token) : "false";
  }

  /** Where the value begins in the text; for errors of `propertyNames`, where the member's name begins. */
  get position() {
    return this.isAboutName ? this.#text.name(this.instanceLocation) : this.#text.value(this.instanceLocation);
  }

  /** Whether a member's name is wrong, and not its value: the error is of `propertyNames`. */
  get isAboutName() {
    return schemaSteps(this.keywordLocation).some((it) => it.isKeyword && it.token === "propertyNames");
  }

  get offset() {
    return this.position.offset;
  }

  get line() {
    return this.position.line;
  }

  get column() {
    return this.position.column;
  }

  /** The instance location as names of members and indices. */
  get path() {
    return this.#text.path(this.instanceLocation);
  }

  toString() {
    return `${this.message} (at ${this.instanceLocation || "the root"}; ${this.absoluteKeywordLocation})`;
  }
}

const START = Object.freeze({ offset: 0, line: 1, column: 1 });

/** An input that has no verdict: it isn't JSON, has a number that isn't taken, or is a malformed schema. */
export class Refused extends Error {
  #text;
  #document;

  /**
   * @param {string} subject what is refused: `document`, `entry`, `instance`, `walk` or `input`
   * @param {string} kind the name of the refusal, such as `NotWhole`
   * @param {string} [place] JSON Pointer into the document or the instance
   * @param {number} [index] the number of the document, in the order they were given, from 0
   * @param {boolean} [isUpgraded] whether the place is one in the upgraded document, which its text doesn't have
   */
  constructor(subject, kind, place = undefined, index = undefined, isUpgraded = false) {
    super();
    this.subject = subject;
    this.kind = kind;
    this.place = place;
    this.index = index;
    this.isUpgraded = isUpgraded;
    /** What the kind means, for people. */
    this.meaning = MEANINGS[kind] ?? "see docs/REFUSALS.md";
  }

  get name() {
    return "Refused";
  }

  get message() {
    const what = this.subject === "document" ? `document ${this.#document}` : this.subject;
    const where = `${this.place ? ` at ${this.place}` : ""}${this.isUpgraded ? " in the upgraded document" : ""}`;
    return `${what}${where}: ${this.kind}: ${this.meaning}`;
  }

  /** The URI that the refused document is registered under. */
  get document() {
    return this.#document;
  }

  /**
   * Where in the text of the document or the instance: at its beginning without a place; undefined for an entry, and
   * for a place in an upgraded document.
   */
  get position() {
    if (this.isUpgraded) return undefined;
    return this.place === undefined ? this.#text && START : this.#text?.refused(this.kind, this.place);
  }

  get line() {
    return this.position?.line;
  }

  get column() {
    return this.position?.column;
  }

  /** Says which text is refused, and for a document its URI; and the engine that finds places in the text. */
  of(text, document = undefined, engine = undefined) {
    this.#text = new Text(text, engine);
    this.#document = document;
    return this;
  }
}

/** The memory can't grow any more. The schemas can still be used. */
export class OutOfMemory extends Error {
  constructor() {
    super("out of memory");
  }

  get name() {
    return "OutOfMemory";
  }
}

/** The module stopped in the middle of a call, or a worker was stopped at its time limit. */
export class Stopped extends Error {
  get name() {
    return "Stopped";
  }
}
