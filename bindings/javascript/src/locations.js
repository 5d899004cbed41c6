/** JSON Pointers (RFC 6901), and what the steps of a keyword location are. */

import { ofForm } from "./keyword_table.js";

/** The keywords of draft 2020-12 whose value is a list of schemas. */
export const LISTS = ofForm("schemas");

/** Those whose value is an object of schemas. */
export const OBJECTS = ofForm("named schemas");

/** The tokens of a JSON Pointer, unescaped. */
export function steps(pointer) {
  return pointer.split("/").slice(1).map((token) => token.replaceAll("~1", "/").replaceAll("~0", "~"));
}

/** The JSON Pointer of these tokens. */
export function pointer(tokens) {
  return tokens.map((token) => `/${token.replaceAll("~", "~0").replaceAll("/", "~1")}`).join("");
}

/** The steps of a keyword location: keywords, and below those that hold several schemas an index or a name. */
export function schemaSteps(keywordLocation) {
  const found = [];
  let holder;
  for (const token of steps(keywordLocation)) {
    const step = LISTS.has(holder) ? { token: Number(token), isKeyword: false }
      : { token, isKeyword: !OBJECTS.has(holder) };
    found.push(step);
    holder = step.isKeyword ? token : undefined;
  }
  return found;
}
