/** Where values stand in a text that `JSON.parse` reads, and the validator doesn't: one with a lone surrogate, say. */
import { Lines } from "./lines.js";
import { steps } from "./locations.js";
import { NotJson, scan } from "./scanner.js";

const INDEX = /^(?:0|[1-9][0-9]*)$/;

/**
 * The places of the values at JSON Pointers; undefined for one that isn't there, and in place of the list if the text
 * can't be read.
 *
 * @param {Uint8Array} bytes @param {readonly string[]} pointers
 * @returns {(import("./engine.js").Located | undefined)[] | undefined}
 */
export function locate(bytes, pointers) {
  let text, root;
  try {
    text = new TextDecoder("utf-8", { fatal: true, ignoreBOM: true }).decode(bytes);
    root = scan(text, { deepest: Infinity, isLenient: true });
  } catch (error) {
    if (error instanceof NotJson || error instanceof TypeError) return undefined;
    throw error;
  }
  const lines = new Lines(bytes), encoder = new TextEncoder();
  const at = (index) => lines.at(encoder.encode(text.slice(0, index)).length);
  return pointers.map((pointer) => {
    const found = steps(pointer).reduce(childOf, root);
    return found && { value: at(found.offset), end: at(found.end).offset,
      name: found.name === undefined ? undefined : at(found.name) };
  });
}

function childOf(node, token) {
  const children = node?.children;
  return Array.isArray(children) ? children[INDEX.test(token) ? Number(token) : -1] : children?.get(token);
}
