/**
 * Condensing, step by step.
 *
 * Two rules, anywhere below the root and in any order: a node without a note is dropped if it has no child, and
 * replaced by its child if it has exactly one. A third one merges: a node is dropped, with all below it, if an earlier
 * sibling is alike, which is equal except for keyword locations. Whatever the order, all runs end in one tree: by two
 * rules in the output `detailed`, by three in `merged`.
 */

/** The rules. */
export const DROP = "drop", REPLACE = "replace", MERGE = "merge";

/**
 * A step that is possible.
 *
 * @typedef {object} Step
 * @property {string} rule
 * @property {import("./result_tree.js").Node} node what goes
 * @property {import("./result_tree.js").Node} [stays] what takes its place, or the sibling that it is alike to
 */

/**
 * The steps that are possible in a tree: of a node the one that comes first. In postorder, so the first takes nodes
 * away from below.
 *
 * @returns {Step[]}
 */
export function possibleSteps(root, isMerging) {
  const found = [];
  const likeness = new Likeness();
  const visit = (node) => {
    const seen = new Map();
    for (const it of node.children) {
      visit(it);
      const number = isMerging ? likeness.of(it) : it.id;
      const step = stepAt(it, seen.get(number));
      if (step !== undefined) found.push(step);
      if (!seen.has(number)) seen.set(number, it);
    }
  };
  visit(root);
  return found;
}

function stepAt(node, twin) {
  if (twin !== undefined) return { rule: MERGE, node, stays: twin };
  if (node.note !== undefined || node.children.length > 1) return undefined;
  return node.children.length === 0 ? { rule: DROP, node } : { rule: REPLACE, node, stays: node.children[0] };
}

/** The tree after a step. What doesn't change is shared with the tree before. */
export function after(root, { rule, node }) {
  const below = (it) => {
    const at = it.children.findIndex((child) => child.id === node.id);
    if (at >= 0) {
      const instead = rule === REPLACE ? it.children[at].children : [];
      return { ...it, children: it.children.toSpliced(at, 1, ...instead) };
    }
    for (const [index, child] of it.children.entries()) {
      const changed = below(child);
      if (changed !== child) return { ...it, children: it.children.with(index, changed) };
    }
    return it;
  };
  return below(root);
}

/** The tree in which every run of steps ends. */
export function normalForm(root, isMerging) {
  const likeness = new Likeness();
  const firsts = (trees) => {
    const seen = new Map();
    for (const it of trees) if (!seen.has(likeness.of(it))) seen.set(likeness.of(it), it);
    return [...seen.values()];
  };
  const condensed = (node) => {
    const children = [];
    for (const it of node.children.map(condensed)) {
      if (it.note !== undefined || it.children.length > 1) children.push(it);
      else children.push(...it.children);
    }
    return { ...node, children: isMerging ? firsts(children) : children };
  };
  return condensed(root);
}

/** Numbers of trees: alike trees have the same one. */
class Likeness {
  #numbers = new Map();
  #known = new WeakMap();

  /** @param {import("./result_tree.js").Node} node */
  of(node) {
    let number = this.#known.get(node);
    if (number === undefined) {
      const { valid, absolute, instance, note } = node;
      const text = JSON.stringify([valid, absolute, instance, note ?? null, node.children.map((it) => this.of(it))]);
      number = this.#numbers.get(text) ?? this.#numbers.size;
      this.#numbers.set(text, number);
      this.#known.set(node, number);
    }
    return number;
  }
}
