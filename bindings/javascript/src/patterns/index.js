/**
 * Patterns as JSON Schema recommends them, in the syntax of ECMA-262, and what they are in that of the crate `regex`.
 *
 * A pattern that can't be rewritten exactly is left as it is. That a rewritten one matches the same texts is tested,
 * and not proved.
 */
import { Every, Not, Plain } from "./combinations.js";
import { combination, single } from "./looking.js";
import { haveLook, looks, withLook } from "./nodes.js";
import { NotExact } from "./pushing.js";
import { NotRead, readSyntax } from "./syntax.js";
import { written } from "./writing.js";

export { Every, Plain };

const MOST = 10_000;

/** What a pattern is in the syntax of `regex`. Undefined where it is the same there, or where it can't be rewritten. */
export const read = memoized((pattern) => rewritten(pattern, combination));

/** The same, if it is one pattern that isn't much larger. */
export const readSingle = memoized((pattern) => rewritten(pattern, single));

/** A function that calls another one once for each pattern. */
function memoized(call) {
  const found = new Map();
  return (pattern) => {
    if (!found.has(pattern)) {
      if (found.size >= MOST) found.clear();
      found.set(pattern, call(pattern));
    }
    return found.get(pattern);
  };
}

function rewritten(pattern, rewrite) {
  try {
    const { alternatives, differs } = readSyntax(pattern);
    if (!differs) return undefined;
    return alternatives.some(haveLook) ? rewrite(alternatives) : new Plain(alternatives);
  } catch (error) {
    return noneFor(error);
  }
}

/** Undefined for what is thrown where a pattern isn't read, or isn't rewritten. (The last is for the stack's end.) */
function noneFor(error) {
  if ([NotRead, NotExact, RangeError].some((it) => error instanceof it)) return undefined;
  throw error;
}

/** The text of a pattern, as `regex` reads it. */
export function textOf(plain) {
  return written(plain.body);
}

/** The texts of all patterns in a combination. */
export function textsOf(given) {
  if (given instanceof Plain) return [textOf(given)];
  return (given instanceof Not ? [given.of] : given.of).flatMap(textsOf);
}

/** A schema that is valid for the strings that a combination matches, and for what is no string. */
export function schemaOf(given) {
  if (given instanceof Plain) return { pattern: textOf(given) };
  // (A `pattern` says nothing of what is no string, and a `not` of it would.)
  if (given instanceof Not) return { not: { type: "string", ...schemaOf(given.of) } };
  return { [given instanceof Every ? "allOf" : "anyOf"]: given.of.map(schemaOf) };
}

/**
 * Where the first look-around stands in a pattern that can't be rewritten. Undefined where there is none, and where the
 * pattern isn't read.
 */
export function left(pattern) {
  let body;
  try {
    body = readSyntax(pattern).alternatives;
  } catch (error) {
    return noneFor(error);
  }
  const places = looks(body);
  if (places.length === 0 || isExact(body)) return undefined;
  return places.find((at) => !isExact(withLook(body, at))) ?? places[0];
}

function isExact(body) {
  try {
    combination(body);
    return true;
  } catch (error) {
    return noneFor(error) ?? false;
  }
}
