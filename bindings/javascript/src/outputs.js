/** The validator's outputs, parsed. */
import { integer, isInteger, read } from "./reading.js";

// An integer that a Number may not hold has at least this many digits.
const LONG = /[0-9]{16}/;

/** The value of a JSON text. An integer beyond 2^53 is a bigint. */
export function parse(text) {
  return LONG.test(text) ? read(text, number, { deepest: Infinity }) : JSON.parse(text);
}

function number(digits) {
  return isInteger(digits) ? integer(digits) : Number(digits);
}
