/** A line of a text, with a part of it underlined. */
import { width } from "./width.js";

/** How many columns of a line are shown, and how many of them before the part that is meant. */
export const WIDTH = 100;
const BEFORE = 40, LINE_FEED = 10, CUT = "…";

const HIDDEN = /[\p{Cc}\p{Cf}\p{Cs}\p{Zl}\p{Zp}]/u;

/**
 * The line on which a part of a text begins: the part that is `meant`, and what is `before` and `after` it. Of a long
 * one the surroundings are shown.
 *
 * @param {Uint8Array} given
 * @param {import("../sources.js").Range} where
 */
export function snippet(given, { begin: { offset: begin }, end: { offset: last } }) {
  const data = Buffer.from(given.buffer, given.byteOffset, given.length);
  const start = begin === 0 ? 0 : data.lastIndexOf(LINE_FEED, begin - 1) + 1;
  // (A line may be a whole file: what is shown is at most four bytes a column.)
  const near = Math.max(start, begin - 4 * BEFORE);
  const far = Math.min(data.length, begin + 4 * WIDTH);
  const found = data.subarray(begin, far).indexOf(LINE_FEED);
  const end = found < 0 ? far : begin + found;
  const before = decoded(data.subarray(near, begin)).replace(/^\ufffd+/, "");
  const meant = withoutEnd(decoded(data.subarray(begin, Math.max(begin, Math.min(last, end)))));
  const after = withoutEnd(decoded(data.subarray(begin, end))).slice(meant.length);
  const left = ending(before, BEFORE);
  const middle = beginning(meant, WIDTH - BEFORE);
  const right = beginning(middle.isCut ? "" : after, WIDTH - BEFORE - width(middle.text));
  const isCutAfter = middle.isCut || right.isCut || found < 0 && end < data.length;
  return { before: (left.isCut || near > start ? CUT : "") + left.text, meant: middle.text,
    after: (right.text + (isCutAfter ? CUT : "")).trimEnd() };
}

function decoded(bytes) {
  return new TextDecoder("utf-8", { ignoreBOM: true }).decode(bytes);
}

function withoutEnd(text) {
  return text.replace(/[\r\ufffd]+$/, "");
}

/** A character as it is shown: a terminal would obey control characters. */
function shown(character) {
  if (character === "\t") return "    ";
  return HIDDEN.test(character) ? `\\u${character.codePointAt(0).toString(16).padStart(4, "0")}` : character;
}

/** The beginning of a text in so many columns, and whether anything is cut off. */
function beginning(text, most) {
  const parts = within(text, most);
  return { text: parts.shown.join(""), isCut: parts.isCut };
}

/** The end of a text in so many columns, and whether anything is cut off. */
function ending(text, most) {
  const parts = within([...text].reverse(), most);
  return { text: parts.shown.reverse().join(""), isCut: parts.isCut };
}

/** As many of these characters as have room, as they are shown. */
function within(characters, most) {
  const parts = [];
  let taken = 0;
  for (const character of characters) {
    const it = shown(character);
    taken += width(it);
    if (taken > most) return { shown: parts, isCut: true };
    parts.push(it);
  }
  return { shown: parts, isCut: false };
}
