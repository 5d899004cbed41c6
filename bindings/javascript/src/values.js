/** Instances: JSON texts as they are, and values as JSON texts. */
import { Refused } from "./errors.js";
import { DEEPEST } from "./limits.js";
import { pointer } from "./locations.js";

// What stands in a JSON text as it is.
const PLAIN = /^[ !#-[\]-~]*$/;
const LEAST = -(2n ** 63n), GREATEST = 2n ** 64n - 1n;

/**
 * The JSON text of an instance. A string or a Uint8Array is a text; every other value is written, never rounded.
 * Where numbers are exact, `-0` is 0.
 *
 * Throws `Refused` for what has no verdict, and `TypeError` for a value that JSON doesn't have.
 */
export function textOf(instance, isExact = false) {
  if (typeof instance === "string") {
    if (!isWellFormed(instance)) throw new Refused("instance", "NotJson", "").of(instance);
    return instance;
  }
  if (instance instanceof Uint8Array) return instance;
  if (ArrayBuffer.isView(instance)) return new Uint8Array(instance.buffer, instance.byteOffset, instance.byteLength);
  if (instance instanceof ArrayBuffer) return new Uint8Array(instance);
  return written(instance, { isExact });
}

/**
 * The JSON text of a value: a string is a string here. `isExact` says that `-0` is 0, and `hasFractions` that fractions
 * are written too.
 */
export function written(value, { isExact = false, hasFractions = false } = {}) {
  return new Writer(isExact, hasFractions).text(value);
}

/** Writes one value. */
class Writer {
  // The names and indices that lead to where it is, and the arrays and objects around it.
  #tokens = [];
  #holders = [];
  #isExact;
  #hasFractions;

  constructor(isExact, hasFractions) {
    this.#isExact = isExact;
    this.#hasFractions = hasFractions;
  }

  text(value) {
    switch (typeof value) {
      case "string":
        return quoted(value);
      case "boolean":
        return value ? "true" : "false";
      case "number":
        return this.#number(value);
      case "bigint":
        if (value < LEAST || value > GREATEST) throw new Refused("instance", "NotWhole", this.#pointer);
        return value.toString();
      case "object":
        return value === null ? "null" : this.#holder(value);
      default:
        throw this.#noJson(typeof value);
    }
  }

  #number(value) {
    // (The text -0 is refused too: it isn't an integer's.)
    if (Number.isSafeInteger(value) && !Object.is(value, -0)) return String(value);
    if (!Number.isFinite(value)) throw this.#noJson(String(value));
    if (this.#isExact && value === 0 || this.#hasFractions && !Number.isInteger(value)) return String(value);
    if (value === 0 || !Number.isInteger(value)) throw new Refused("instance", "NotWhole", this.#pointer);
    throw new TypeError(`${value} may have been rounded: use a bigint: look at ${this.#where}`);
  }

  #holder(value) {
    if (this.#holders.includes(value)) throw new TypeError(`JSON has no cycle: look at ${this.#where}`);
    if (this.#holders.length === DEEPEST) throw new Refused("instance", "NotJson", "");
    this.#holders.push(value);
    const text = Array.isArray(value) ? this.#array(value) : this.#object(value);
    this.#holders.pop();
    return text;
  }

  #array(items) {
    let text = "";
    for (let index = 0; index < items.length; index++) {
      text += `${index > 0 ? "," : "["}${this.#below(index, items[index])}`;
    }
    return text === "" ? "[]" : `${text}]`;
  }

  /** (Members go by name, as in the output.) */
  #object(value) {
    let text = "";
    for (const name of this.#names(value)) {
      text += `${text === "" ? "{" : ","}${quoted(name)}:${this.#below(name, value[name])}`;
    }
    return text === "" ? "{}" : `${text}}`;
  }

  /** The text of an item or a member. */
  #below(token, value) {
    this.#tokens.push(token);
    const text = this.text(value);
    this.#tokens.pop();
    return text;
  }

  /** The names of a plain object's members, in order. */
  #names(value) {
    const prototype = Object.getPrototypeOf(value);
    if (prototype !== null && Object.getPrototypeOf(prototype) !== null) {
      throw this.#noJson(value.constructor?.name || "such object");
    }
    if (Object.getOwnPropertySymbols(value).length > 0) throw this.#noJson("symbol");
    const names = Object.keys(value);
    return names.some((name, index) => index > 0 && names[index - 1] > name) ? names.sort() : names;
  }

  #noJson(what) {
    return new TypeError(`JSON has no ${what}: look at ${this.#where}`);
  }

  get #pointer() {
    return pointer(this.#tokens.map(String));
  }

  get #where() {
    return this.#pointer || "the root";
  }
}

/** A string as JSON has it. */
function quoted(text) {
  if (PLAIN.test(text)) return `"${text}"`;
  if (!isWellFormed(text)) throw new Refused("instance", "NotJson", "");
  return JSON.stringify(text);
}

/** Whether a string has no lone surrogate. */
export function isWellFormed(text) {
  return text.isWellFormed ? text.isWellFormed() : !/\p{Surrogate}/u.test(text);
}
