/** Combinations of patterns without look-around. */
import { Characters } from "./characters.js";

/** A pattern without look-around. */
export class Plain {
  /** @param {import("./nodes.js").Alternatives} body */
  constructor(body) {
    this.body = body;
  }
}

/** What a combination doesn't match. */
export class Not {
  /** @param {Combination} of */
  constructor(of) {
    this.of = of;
  }
}

/** Several combinations. */
class Several {
  /** @param {readonly Combination[]} of */
  constructor(of) {
    this.of = of;
  }
}

/** What each of them matches. */
export class Every extends Several {}

/** What one of them matches. */
export class Some extends Several {}

/** @typedef {Plain | Not | Every | Some} Combination */

/** What matches nothing. */
export const NEVER = new Plain([[new Characters([])]]);

/** Whether this is known to match nothing. */
export function isNever(combination) {
  return combination instanceof Plain && combination.body.length === 1 && combination.body[0].length === 1
    && combination.body[0][0] instanceof Characters && combination.body[0][0].isEmpty;
}

/** What each of these matches. */
export function every(...parts) {
  return new Every(parts.flatMap((it) => it instanceof Every ? it.of : [it]));
}

/** What one of these matches: those without look-around are one pattern. */
export function some(...parts) {
  const all = parts.flatMap((it) => it instanceof Some ? it.of : [it]);
  const plain = all.filter((it) => it instanceof Plain).flatMap((it) => it.body);
  const found = [...plain.length > 0 ? [new Plain(plain)] : [], ...all.filter((it) => !(it instanceof Plain))];
  return found.length === 1 ? found[0] : new Some(found);
}
