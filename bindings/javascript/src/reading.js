/** The values of JSON texts, with numbers as a caller reads them: `JSON.parse` would round some. */
import { scan } from "./scanner.js";

const INTEGER = /^-?[0-9]+$/;

/**
 * The value of a JSON text, made without recursion.
 *
 * @param {string} text
 * @param {(digits: string) => unknown} number makes of the text of a number what it is read as
 * @param {{ deepest?: number, isLenient?: boolean }} [options] as for `scan`
 */
export function read(text, number, options = {}) {
  const root = scan(text, options);
  const value = begun(text, root, number);
  const open = [[root, value]];
  while (open.length > 0) {
    const [node, holder] = open.pop();
    for (const [key, child] of node.children?.entries() ?? []) {
      const started = begun(text, child, number);
      // (An ordinary assignment to `__proto__` would set the prototype.)
      Object.defineProperty(holder, key, { value: started, writable: true, enumerable: true, configurable: true });
      if (child.children !== undefined) open.push([child, started]);
    }
  }
  return value;
}

/** A scalar's value, or an empty array or object. */
function begun(text, node, number) {
  if (node.children !== undefined) return Array.isArray(node.children) ? [] : {};
  const token = text.slice(node.offset, node.end);
  return /^[-0-9]/.test(token) ? number(token) : JSON.parse(token);
}

/** Whether a number is written as an integer: in digits alone. */
export function isInteger(digits) {
  return INTEGER.test(digits);
}

/** An integer: a Number where that is exact, else a bigint. */
export function integer(digits) {
  return shortest(BigInt(digits));
}

/** A bigint as a Number, where that is exact. */
export function shortest(value) {
  const found = Number(value);
  return Number.isSafeInteger(found) ? found : value;
}
