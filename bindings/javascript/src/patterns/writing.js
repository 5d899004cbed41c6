/** Patterns in the syntax of the crate `regex`. */
import { Characters } from "./characters.js";
import { Assertion, Group, Look, Repeat } from "./nodes.js";

/** The text of a pattern without look-around. */
export function written(alternatives) {
  return alternatives.map(sequence).join("|");
}

function sequence(nodes) {
  let text = "";
  for (let begin = 0, end; begin < nodes.length; begin = end) {
    const folded = isFolded(nodes[begin]);
    end = begin + 1;
    while (end < nodes.length && isFolded(nodes[end]) === folded) end += 1;
    const part = nodes.slice(begin, end).map(textOf).join("");
    text += folded ? `(?i:${part})` : part;
  }
  return text;
}

/** Whether a node has characters, all of which are the same in upper and lower case. */
function isFolded(node) {
  const inner = node instanceof Repeat ? node.node : node;
  return inner instanceof Characters && inner.isFolded;
}

function textOf(node) {
  if (node instanceof Characters) return node.written();
  // (`\b` in ASCII, as ECMA-262 has it.)
  if (node instanceof Assertion) return "^$".includes(node.sign) ? node.sign : `(?-u:${node.sign})`;
  if (node instanceof Group) return `(?:${written(node.body)})`;
  if (node instanceof Look) throw new TypeError("`regex` has no look-around");
  return textOf(node.node) + bounds(node);
}

function bounds({ least, most }) {
  if (most === Infinity) return least === 0 ? "*" : least === 1 ? "+" : `{${least},}`;
  if (least === 0 && most === 1) return "?";
  return least === most ? `{${least}}` : `{${least},${most}}`;
}
