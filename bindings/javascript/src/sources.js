/** What is read: a text as it was written, and the JSON text that the validator gets for it. */
import { Lines } from "./lines.js";
import { locate } from "./locating.js";
import { Text, endOfName } from "./positions.js";

/** A stretch of a text. A position has the `offset` of a byte, and from 1 a `line` and a `column` of characters. */
/** @typedef {{ begin: Position, end: Position }} Range */
/** @typedef {{ offset: number, line: number, column: number }} Position */

export const START = Object.freeze({ offset: 0, line: 1, column: 1 });
/** The place of what concerns a whole file. */
export const WHOLE = Object.freeze({ begin: START, end: START });

/** A text in JSON, or in JSON with comments: then `json` has blanks in their place, so each byte keeps its place. */
export class Source {
  #positions;

  /** @param {Uint8Array} data @param {Uint8Array} json */
  constructor(data, json = data) {
    this.data = data;
    this.json = json;
  }

  /** The JSON text as a string. Throws `TypeError` where it isn't UTF-8. */
  get text() {
    return new TextDecoder("utf-8", { fatal: true, ignoreBOM: true }).decode(this.json);
  }

  /** The value of the text. Throws `SyntaxError` or `TypeError` where it isn't JSON. */
  get value() {
    return JSON.parse(this.text);
  }

  /** Where its values stand, as an engine says. */
  positions(engine) {
    this.#positions ??= new Positions(this, engine);
    return this.#positions;
  }
}

/** Where the values of a text stand. */
export class Positions {
  #source;
  #text;
  #lines;

  /** @param {Source} source @param {import("./engine.js").Engine} engine */
  constructor(source, engine) {
    this.#source = source;
    this.#text = new Text(source.json, { positions: (...asked) => engine.positions(...asked) ?? locate(...asked) });
  }

  /** Says which values will be asked for. They are then found together. */
  expect(pointers) {
    this.#text.expect(pointers);
  }

  /** Where the value at a JSON Pointer stands. Throws `RangeError`, or `NotJson` for a text that isn't JSON. */
  value(pointer) {
    const { value, end } = this.#text.located(pointer);
    return this.#range(value, end);
  }

  /** Where the name of the member at a JSON Pointer stands; of an item, or the root, the value. */
  name(pointer) {
    const { name } = this.#text.located(pointer);
    return name === undefined ? this.value(pointer) : this.#range(name, endOfName(this.#source.json, name.offset));
  }

  /**
   * Where the text is refused: at the value that the refusal names, or where it ceases to be JSON. A place in an
   * upgraded document has none.
   */
  refusal({ kind, place, isUpgraded }) {
    if (place === undefined || isUpgraded) return WHOLE;
    try {
      if (kind !== "NotJson" && place !== "") return this.value(place);
    } catch (error) {
      if (error instanceof RangeError) return WHOLE;
      throw error;
    }
    const begin = this.at(this.#text.refusedFrom(kind, place));
    return { begin, end: begin };
  }

  /** The position of a byte. */
  at(offset) {
    this.#lines ??= new Lines(this.#source.data);
    return this.#lines.at(offset);
  }

  /** (Not the lines of `json`: it has a blank for each byte of a comment, whose characters may be fewer.) */
  #range(begin, end) {
    const isSame = this.#source.json === this.#source.data;
    return { begin: isSame ? begin : this.at(begin.offset), end: this.at(end) };
  }
}
