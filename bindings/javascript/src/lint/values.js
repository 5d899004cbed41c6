/** Values of schemas as lint reads them: integers exactly, other numbers as they are written. */
import { Numeral } from "../numerals.js";
import { integer, isInteger, read } from "../reading.js";

// (Of an integer with more digits, one that is as far beyond 64 bits.)
const MOST_DIGITS = 100;
/** How a text is read: also one that the validator refuses, unless it nests too deep to be looked at. */
export const LENIENTLY = Object.freeze({ deepest: 1000, isLenient: true });
// Other numbers are shown with an exponent where that is smaller, or not below this one.
const LEAST_EXPONENT = -4, END_OF_EXPONENT = 16;

/** The value of a JSON text. Throws `NotJson` where `JSON.parse` doesn't read it either. */
export function valueOf(text) {
  const number = (digits) => isInteger(digits) ? integer(digits.slice(0, MOST_DIGITS)) : new Numeral(digits);
  return read(text, number, LENIENTLY);
}

/** Whether a value is an integer, written as one. */
export function isWhole(value) {
  return typeof value === "number" || typeof value === "bigint";
}

/** Whether a value is a number that can be compared. */
export function isNumber(value) {
  return isWhole(value) || value instanceof Numeral && Number.isFinite(Number(value.text));
}

/** A number in a form in which two can be compared. */
export function comparable(number) {
  return number instanceof Numeral ? Number(number.text) : number;
}

/** A number as it is shown: an integer in digits, another one as the shortest that a double is read from. */
export function shown(number) {
  if (!(number instanceof Numeral)) return String(number);
  const [, sign, digits, exponent] = /^(-?)([0-9.]+)e([+-][0-9]+)$/.exec(Number(number.text).toExponential());
  const plain = digits.replace(".", ""), power = Number(exponent);
  const minus = sign || (Object.is(Number(number.text), -0) ? "-" : "");
  if (power >= END_OF_EXPONENT || power < LEAST_EXPONENT) {
    return `${minus}${digits}e${power < 0 ? "-" : "+"}${String(Math.abs(power)).padStart(2, "0")}`;
  }
  if (power < 0) return `${minus}0.${"0".repeat(-power - 1)}${plain}`;
  const whole = plain.slice(0, power + 1).padEnd(power + 1, "0");
  return `${minus}${whole}.${plain.slice(power + 1) || "0"}`;
}
