/** Numbers that the validator refuses. */
import { isObject } from "../dialects.js";
import { Numeral } from "../numerals.js";
import { isTaken, number } from "../numbers.js";
import { rewriteNumbers, textsInAnnotations } from "../numbers_keywords.js";
import { integer, read } from "../reading.js";
import { Document } from "../resources.js";
import { ERROR } from "./finding.js";
import { LENIENTLY } from "./values.js";

/**
 * The numbers that the validator refuses; where numbers are rewritten (`exact` or `texts`), those that it refuses then.
 *
 * @param {import("./index.js").SchemaText} given @param {string | undefined} numbers
 * @returns {Generator<import("./finding.js").Found>}
 */
export function* outside(given, numbers) {
  const found = (tokens, message) => ({ rule: "number", severity: ERROR, tokens, isName: false, message });
  const rewritten = numbers === undefined ? undefined : rewrittenOf(given);
  if (rewritten === undefined) {
    for (const { tokens, text } of numerals(valueOf(given, asWritten))) yield found(tokens, why(text));
    return;
  }
  const left = [...numerals(rewritten.value)];
  for (const { value, tokens } of rewritten.schemas) textsInAnnotations(value, rewritten.dialectAt(tokens));
  const refused = new Set(Array.from(numerals(rewritten.value), ({ tokens }) => JSON.stringify(tokens)));
  for (const { tokens, text } of left) {
    if (refused.has(JSON.stringify(tokens))) yield found(tokens, `${why(text)}, and this can't be rewritten`);
    else if (numbers === "exact") yield found(tokens, `${why(text)}; \`--numbers texts\` makes a text of it`);
  }
}

/**
 * The document with the numbers that can be rewritten as they are then. Undefined where they aren't computed with: they
 * have too many digits.
 */
function rewrittenOf(given) {
  let value;
  try {
    value = valueOf(given, number);
  } catch (error) {
    if (error instanceof RangeError) return undefined;
    throw error;
  }
  const made = new Document(given.uri, value, given.document.dialect);
  for (const { value: schema, tokens } of [...made.schemas].reverse()) rewriteNumbers(schema, made.dialectAt(tokens));
  return made;
}

/** The value of a text, with its numbers as they are read. */
function valueOf({ source }, number) {
  return read(source.text, number, LENIENTLY);
}

function asWritten(digits) {
  return isTaken(digits) ? integer(digits) : new Numeral(digits);
}

/** The numbers in a value that the validator doesn't take, as their texts with the tokens to them. */
function* numerals(value) {
  const waiting = [{ value, tokens: [] }];
  while (waiting.length > 0) {
    const { value: it, tokens } = waiting.pop();
    if (it instanceof Numeral) yield { tokens, text: it.text };
    if (!Array.isArray(it) && !isObject(it)) continue;
    for (const [token, child] of Object.entries(it)) waiting.push({ value: child, tokens: [...tokens, token] });
  }
}

/** Why the validator doesn't take a number. */
function why(text) {
  if (text === "-0") return "the validator takes no minus before zero";
  if (/^-*[0-9]+$/.test(text)) return "the validator takes numbers from -2^63 to 2^64 - 1";
  return "the validator takes whole numbers, without `.` and `e`";
}
