/** Whether a pattern without look-around matches a short text. */
import { Characters } from "./characters.js";
import { Every, Not, Plain } from "./combinations.js";
import { Assertion, Group, Repeat, isEnd, isStart } from "./nodes.js";
import { NotExact } from "./pushing.js";

const MOST_TURNS = 1000;

/** Whether a combination matches a text. Throws `NotExact` where that isn't known here. */
export function matches(given, text) {
  const characters = Array.from(text, (it) => it.codePointAt(0));
  return isMatch(given, characters);
}

function isMatch(given, characters) {
  if (given instanceof Plain) {
    const begins = new Set(characters.keys()).add(characters.length);
    return given.body.some((it) => ends(it, characters, begins).size > 0);
  }
  if (given instanceof Not) return !isMatch(given.of, characters);
  return given instanceof Every ? given.of.every((it) => isMatch(it, characters))
    : given.of.some((it) => isMatch(it, characters));
}

/** Where a sequence ends that begins at one of these places. */
function ends(sequence, characters, begins) {
  return sequence.reduce((places, node) => after(node, characters, places), begins);
}

function after(node, characters, begins) {
  if (node instanceof Characters) {
    if (!node.isPlain) throw new NotExact();
    return new Set([...begins].filter((at) => at < characters.length && has(node, characters[at])).map((at) => at + 1));
  }
  if (node instanceof Assertion) {
    if (!isStart(node) && !isEnd(node)) throw new NotExact();
    const place = isStart(node) ? 0 : characters.length;
    return new Set(begins.has(place) ? [place] : []);
  }
  if (node instanceof Group) return new Set(node.body.flatMap((it) => [...ends(it, characters, begins)]));
  if (node instanceof Repeat) return afterRepeated(node, characters, begins);
  throw new NotExact();
}

function afterRepeated({ node, least, most }, characters, begins) {
  if (least > MOST_TURNS) throw new NotExact();
  let places = begins;
  for (let turn = 0; turn < least; turn++) places = after(node, characters, places);
  const found = new Set(places);
  for (let turns = least; places.size > 0 && turns < most; turns++) {
    // (What was reached before leads nowhere else.)
    places = new Set([...after(node, characters, places)].filter((it) => !found.has(it)));
    for (const it of places) found.add(it);
  }
  return found;
}

function has({ ranges }, code) {
  return ranges.some(([first, last]) => first <= code && code <= last);
}
