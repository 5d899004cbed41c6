/**
 * Numbers with fractions and exponents, by exact arithmetic: what they are among the integers from -2^63 to 2^64 - 1,
 * and what bounds by them say of those.
 *
 * No instance has another number, so each number of a schema has an equivalent: `minimum: 0.5` is `minimum: 1`. That
 * this is so is tested, and not proved.
 */
import { isObject } from "./dialects.js";
import { Numeral } from "./numerals.js";
import { isInteger, shortest } from "./reading.js";

/** The range of the integers that the validator takes. */
export const LEAST = -(2n ** 63n), GREATEST = 2n ** 64n - 1n;

const NUMBER = /^(-?)([0-9]+)(?:\.([0-9]+))?(?:[eE]([+-]?[0-9]+))?$/;
// The most digits that are computed with, and the most of an exponent that is read.
const MOST_DIGITS = 1000, MOST_OF_EXPONENT = 18;
// So many digits are beyond the range.
const FAR = 20n;
// What may be a number that isn't written as the validator takes it.
const CANDIDATE = /[0-9][.eE]|-0/, MINUS_ZERO = /-0(?![0-9.eE])/;
// Strings, and numbers with what a malformed text may have around them.
const PART =
  /"[^"\\]*(?:\\.[^"\\]*)*"|(?<![0-9.eE+-])-?(?:0|[1-9][0-9]*)(?:\.[0-9]+)?(?:[eE][+-]?[0-9]+)?(?![0-9.eE+-])/gs;

/** A number that is no integer in the range: `digits` times a power of ten. */
export class Decimal extends Numeral {
  /** @param {bigint} digits @param {bigint} exponent @param {string} text */
  constructor(digits, exponent, text) {
    super(text);
    this.digits = digits;
    this.exponent = exponent;
  }

  /** Whether it is an integer, which then is out of range. */
  get isWhole() {
    return this.exponent >= 0n;
  }

  /** Whether it is above zero. (Zero itself is in the range.) */
  get isPositive() {
    return this.digits > 0n;
  }

  /** The greatest integer that isn't above it; one that is out of range stands for all that are on that side. */
  floor() {
    return inReach(this.#below());
  }

  /** The least integer that isn't below it, or one out of range. */
  ceiling() {
    return inReach(this.#below() + (this.isWhole ? 0n : 1n));
  }

  /** The greatest integer that isn't above it, or one far out of range. */
  #below() {
    const length = BigInt(String(this.digits).replace("-", "").length) + this.exponent;
    if (length > FAR) return this.isPositive ? 10n ** (FAR + 1n) : -(10n ** (FAR + 1n));
    if (length <= 0n) return this.isPositive ? 0n : -1n;
    if (this.isWhole) return this.digits * 10n ** this.exponent;
    const divisor = 10n ** -this.exponent, quotient = this.digits / divisor;
    return this.digits % divisor < 0n ? quotient - 1n : quotient;
  }

  /** The numerator in lowest terms: an integer is a multiple of the number if it is one of that. */
  numerator() {
    if (this.exponent >= 0n) return GREATEST + 1n;
    let found = this.digits;
    for (const factor of [2n, 5n]) {
      for (let count = -this.exponent; count > 0n && found % factor === 0n; count--) found /= factor;
    }
    return found;
  }
}

function inReach(value) {
  if (value < LEAST) return LEAST - 1n;
  return value > GREATEST ? GREATEST + 1n : value;
}

/** Whether an integer is in the range. */
export function isInRange(value) {
  return LEAST <= value && value <= GREATEST;
}

/** Whether the validator takes a number as it is written. */
export function isTaken(digits) {
  return isInteger(digits) && digits !== "-0" && digits.length < 21 && isInRange(BigInt(digits));
}

/**
 * The number that a text of JSON is: a Number, a bigint, or where it is no integer in the range a `Decimal`. Throws
 * `RangeError` for more digits than are computed with.
 *
 * @param {string} text @returns {number | bigint | Decimal}
 */
export function number(text) {
  const found = NUMBER.exec(text);
  if (found === null) throw new RangeError(`'${text}' is no number`);
  const [, sign, whole, fraction = "", power = ""] = found;
  const digits = (whole + fraction).replace(/^0+/, "");
  const significant = withoutZeros(digits);
  if (significant === "") return 0;
  const { length } = significant;
  if (length > MOST_DIGITS) throw new RangeError(`a number of ${length} digits`);
  const exponent = exponentOf(power) - BigInt(fraction.length) + BigInt(digits.length - length);
  const value = BigInt(sign + significant);
  if (exponent >= 0n && BigInt(length) + exponent <= FAR) {
    const product = value * 10n ** exponent;
    return isInRange(product) ? shortest(product) : new Decimal(product, 0n, text);
  }
  return new Decimal(value, exponent, text);
}

/** Digits without the zeros at their end. (A regular expression would look at each zero between them again.) */
function withoutZeros(digits) {
  let end = digits.length;
  while (end > 0 && digits[end - 1] === "0") end -= 1;
  return digits.slice(0, end);
}

function exponentOf(power) {
  const digits = power.replace(/^[+-]?0*/, "");
  const read = BigInt(digits.length > MOST_OF_EXPONENT ? "9".repeat(MOST_OF_EXPONENT) : digits || "0");
  return power.startsWith("-") ? -read : read;
}

/**
 * The JSON text of an instance, with the integers that are written as `1.0`, `1e2` or `-0` in digits alone. What is no
 * integer in the range stays, and so does what is no JSON; without `hasFractions` also `1.0` and `1e2`.
 *
 * @param {string} text its characters, or of each byte one
 */
export function exactText(text, hasFractions = true) {
  const candidate = hasFractions ? CANDIDATE : MINUS_ZERO;
  if (!candidate.test(text)) return text;
  return text.replace(PART, (part) => part.startsWith('"') || !candidate.test(part) ? part : inDigits(part));
}

function inDigits(part) {
  try {
    const found = number(part);
    return found instanceof Decimal ? part : String(found);
  } catch {
    return part;
  }
}

/** Whether a value has a number in it that is no integer in the range: then no instance is equal to it. */
export function hasDecimal(value) {
  if (Array.isArray(value)) return value.some(hasDecimal);
  return isObject(value) ? Object.values(value).some(hasDecimal) : value instanceof Decimal;
}

/** A value with the texts of such numbers. */
export function asTexts(value) {
  return withDecimals(value, (it) => it.text);
}

/** A value with something else for each of such numbers. */
export function withDecimals(value, made) {
  if (value instanceof Decimal) return made(value);
  if (Array.isArray(value)) return value.map((it) => withDecimals(it, made));
  if (!isObject(value)) return value;
  return Object.fromEntries(Object.entries(value).map(([name, it]) => [name, withDecimals(it, made)]));
}
