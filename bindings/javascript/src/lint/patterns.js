/** Patterns that the validator doesn't read, with the part that it doesn't. */
import { isObject } from "../dialects.js";
import { left, textsOf } from "../patterns/index.js";
import { ofNames, ofPattern } from "../patterns/keywords.js";
import { looks } from "../patterns/nodes.js";
import { NotRead, readSyntax } from "../patterns/syntax.js";
import { ERROR } from "./finding.js";

// (In a class `(?=` is four characters, and `\b` a backspace.)
const PART = new RegExp("(?<escaped>\\\\(?:(?<named>k<[\\p{L}\\p{N}_]+>|g\\{?[\\p{L}\\p{N}_]+)|(?<number>[1-9]\\d*)" +
  "|(?<control>c[A-Za-z])|.))|(?<class>\\[\\^?\\]?(?:\\\\.|[^\\]\\\\])*\\])|(?<look>\\(\\?<?[=!])|(?<atomic>\\(\\?>)",
"gsu");
const PARTS = { named: "a back-reference", number: "a back-reference", control: "a control character",
  atomic: "an atomic group" };
const LOOK = /\(\?<?[=!]/y;
const LOOKS = { "(?=": "look-ahead", "(?!": "negative look-ahead", "(?<=": "look-behind",
  "(?<!": "negative look-behind" };
const PROPERTY = /\\[pP](?:\{[^}]*\}|[A-Za-z])/g;

/**
 * Why a pattern isn't read, and as `part` from which index of it to which one; undefined for the whole.
 *
 * @typedef {{ message: string, part?: readonly [number, number] }} Fault
 */

/** @type {Fault} */
const NONE = { message: "it isn't a regular expression of `regex`" };

/**
 * The patterns that the validator refuses; where they are rewritten, those that it refuses then.
 *
 * @param {import("../resources.js").Document} document @param {boolean} isRewritten
 * @param {(schema: unknown) => import("../errors.js").Refused | undefined} judge whether the validator refuses a schema
 * @returns {Generator<import("./finding.js").Found>}
 */
export function* unread(document, isRewritten, judge) {
  for (const { pattern, refused } of refusedOf([...patternsOf(document, isRewritten)], judge)) {
    const { message, part } = faultOf(pattern, refused, isRewritten, judge);
    yield { rule: "pattern", severity: ERROR, tokens: pattern.tokens, isName: pattern.isName,
      message: `the validator doesn't read this pattern: ${message}`, part };
  }
}

/** The patterns of a schema: the tokens, whether it is a name, the text, and what the validator gets for it. */
function* patternsOf(document, isRewritten) {
  for (const { value, tokens } of document.schemas) {
    const dialect = document.dialectAt(tokens), { pattern, patternProperties: names } = value;
    if (typeof pattern === "string") {
      const made = isRewritten ? ofPattern(value, dialect) : undefined;
      yield { tokens: [...tokens, "pattern"], isName: false, text: pattern, given: givenFor(pattern, made) };
    }
    const made = isRewritten ? ofNames(value, dialect) : new Map();
    for (const name of isObject(names) ? Object.keys(names) : []) {
      const { weaker, whole } = made.get(name) ?? {};
      yield { tokens: [...tokens, "patternProperties", name], isName: true, text: name,
        given: givenFor(name, whole ?? weaker) };
    }
  }
}

function givenFor(pattern, made) {
  return made === undefined ? [pattern] : textsOf(made);
}

/** Those that the validator refuses. It names the first, so it is asked once more for each. */
function* refusedOf(patterns, judge) {
  for (let rest = patterns; rest.length > 0;) {
    const texts = rest.flatMap(({ given }, index) => given.map((text) => ({ index, text })));
    const refused = judge({ allOf: texts.map(({ text }) => ({ pattern: text })) });
    if (!refused?.place?.startsWith("/allOf/")) return;
    const { index } = texts[Number(refused.place.split("/")[2])];
    yield { pattern: rest[index], refused };
    rest = rest.slice(index + 1);
  }
}

/** What the validator doesn't read in a pattern, or what can't be rewritten. */
function faultOf({ text, given, isName }, refused, isRewritten, judge) {
  if (refused.kind !== "BadPattern") return { message: refused.meaning };
  if (!isRewritten) return partOf(text) ?? NONE;
  let places;
  try {
    places = looks(readSyntax(text).alternatives);
  } catch (error) {
    if (!(error instanceof NotRead)) throw error;
    return partOf(text, false) ?? notRead(text, error.at);
  }
  const place = left(text);
  if (place !== undefined) return lookAt(text, place, "can't be rewritten exactly");
  if (places.length > 0 && given.length === 1 && given[0] === text) {
    return lookAt(text, places[0], isName ? "needs a name alone, with `additionalProperties: false`"
      : "can't be rewritten in this schema");
  }
  return propertyOf(text, judge) ?? NONE;
}

function notRead(text, at) {
  const message = `it isn't a regular expression of ECMA-262 (see character ${characterAt(text, at)})`;
  const character = String.fromCodePoint(text.codePointAt(at) ?? 0);
  return at < text.length ? { message, part: [at, at + character.length] } : { message };
}

/** The first part that `regex` doesn't have; a look-around may be one. */
function partOf(pattern, hasLook = true) {
  for (const found of pattern.matchAll(PART)) {
    if (found.groups.look !== undefined && hasLook) return lookAt(pattern, found.index, "`regex` doesn't have");
    const name = Object.keys(PARTS).find((it) => found.groups[it] !== undefined);
    if (name !== undefined) return faultAt(pattern, found, `${PARTS[name]}, which \`regex\` doesn't have`);
  }
  return undefined;
}

function lookAt(pattern, at, why) {
  LOOK.lastIndex = at;
  const found = LOOK.exec(pattern);
  return faultAt(pattern, found, `a ${LOOKS[found[0]]}, which ${why}`);
}

/** The first property of characters that `regex` doesn't know. */
function propertyOf(pattern, judge) {
  for (const found of pattern.matchAll(PROPERTY)) {
    if (judge({ pattern: found[0] }) === undefined) continue;
    return faultAt(pattern, found, "a property of characters that `regex` doesn't have");
  }
  return undefined;
}

function faultAt(pattern, { 0: text, index }, what) {
  const message = `\`${text}\` at ${characterAt(pattern, index)} is ${what}`;
  return { message, part: [index, index + text.length] };
}

/** Which character of a text begins at an index, counted from 1. */
function characterAt(text, index) {
  return Array.from(text.slice(0, index)).length + 1;
}
