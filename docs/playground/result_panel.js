/** The panel with the whole result, as a tree that folds. */
import { counted, element } from "./elements.js";
import { countOf, treeOf } from "./result_tree.js";
import { TreeView } from "./tree_view.js";

export class ResultPanel {
  #holder = element("div", {});
  #hint = element("p", { class: "hint" });
  #tree;

  /** @param {{ chosen: (node: object) => void }} how */
  constructor({ chosen }) {
    const button = (label, isOpen) =>
      element("button", { type: "button", onclick: () => this.#tree.unfold(isOpen) }, label);
    this.#holder.append(this.#hint, element("div", { class: "controls" },
      button("Unfold all", () => true), button("Fold all", (_, depth) => depth === 0)));
    this.#tree = new TreeView(this.#holder, { label: "Result", shown: shownNode, chosen });
  }

  get element() {
    return this.#holder;
  }

  show(text) {
    const root = text === undefined ? undefined : treeOf(text);
    this.#hint.textContent = root === undefined ? "There is no result that could be shown as a tree."
      : `Each schema and keyword that was evaluated (the output verbose): ${counted(countOf(root), "node")}.`;
    this.#tree.show(root, (node, depth) => root !== undefined && isUnfolded(root, node, depth));
  }
}

/** Whether a node is unfolded at first: down to what decided the verdict. */
function isUnfolded(root, node, depth) {
  return depth < 2 || !root.valid && !node.valid;
}

/** How a node of a result is shown below its parent. */
export function shownNode(node, parent) {
  const from = parent?.keyword.length ?? 0;
  const isElsewhere = parent === undefined || parent.instance !== node.instance;
  return {
    valid: node.valid,
    label: node.keyword.slice(from).replace(/^\//, "") || "schema",
    place: isElsewhere ? node.instance || "the whole instance" : undefined,
    note: node.note === undefined ? undefined : noteText(node),
  };
}

function noteText({ written, note }) {
  const text = written.error === undefined ? note : JSON.parse(note);
  return text.length > 300 ? `${text.slice(0, 300)} …` : text;
}
