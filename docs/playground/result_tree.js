/** Result trees: the output `verbose` as nodes, pruned, and written again. */
import { scan } from "../../bindings/javascript/src/scanner.js";

// The members of a node that are texts of its unit, in the order in which they are written, and the lists of children.
const LISTS = ["annotations", "errors"];

/**
 * A node of a result. It isn't changed once it is made.
 *
 * @typedef {object} Node
 * @property {number} id the number of the node in the whole tree, in preorder from 0
 * @property {boolean} valid
 * @property {string} absolute where the keyword or schema is
 * @property {string} instance a JSON Pointer to the value
 * @property {string} keyword a JSON Pointer through the schemas
 * @property {string | undefined} note what the node says: the JSON text of its error or annotation
 * @property {object} written the JSON text of each member, by its name
 * @property {readonly Node[]} children
 */

/** The tree of the text of an output `verbose`, `detailed` or `merged`. */
export function treeOf(text) {
  let count = 0;
  const nodeOf = (scanned) => {
    const id = count++;
    const written = {};
    const children = [];
    for (const [name, value] of scanned.children) {
      if (LISTS.includes(name)) value.children.forEach((it) => children.push(nodeOf(it)));
      else written[name] = text.slice(value.offset, value.end);
    }
    return {
      id, children, written,
      valid: written.valid === "true",
      absolute: JSON.parse(written.absoluteKeywordLocation),
      instance: JSON.parse(written.instanceLocation),
      keyword: JSON.parse(written.keywordLocation),
      note: written.error ?? written.annotation,
    };
  };
  return nodeOf(scan(text, { deepest: Infinity }));
}

/** The text of a tree, as the validator writes it: members by name, and a line feed at the end. */
export function textOf(root) {
  return `${nodeText(root)}\n`;
}

function nodeText(node) {
  const members = { ...node.written };
  if (node.children.length > 0) {
    members[node.valid ? "annotations" : "errors"] = `[${node.children.map(nodeText).join(",")}]`;
  }
  return `{${Object.keys(members).sort().map((name) => `"${name}":${members[name]}`).join(",")}}`;
}

/** How many nodes a tree has. */
export function countOf(node) {
  return node.children.reduce((count, it) => count + countOf(it), 1);
}

/** The nodes that have the root's verdict, if every node above them does too. */
export function pruned(root) {
  const below = (node) => ({ ...node, children: node.children.filter((it) => it.valid === root.valid).map(below) });
  return below(root);
}

/** Each node of a tree, in preorder. */
export function* nodesOf(node) {
  yield node;
  for (const it of node.children) yield* nodesOf(it);
}
