/** A foldable tree: rows that arrow keys move between, as the ARIA pattern "tree view" has it. */
import { element, withCommas } from "./elements.js";

/** The most rows that are shown at once. */
const MOST_ROWS = 2000;

/**
 * How a node is shown.
 *
 * @typedef {object} Shown
 * @property {boolean} valid
 * @property {string} label
 * @property {string} [place] the instance's place
 * @property {string} [note] what the node says
 * @property {string} [kind] classes of the row
 * @property {{ label: string, description: string, act: () => void }} [action] what can be done to the node
 */

export class TreeView {
  #holder;
  #how;
  #root;
  #open = new Set();
  #focused;
  #rows = [];

  /**
   * @param {Element} holder
   * @param {{ label: string, shown: (node: object, parent?: object) => Shown, chosen: (node: object) => void }} how
   */
  constructor(holder, how) {
    this.#how = how;
    this.#holder = element("div", { class: "tree", role: "tree", "aria-label": how.label });
    this.#holder.addEventListener("keydown", (event) => this.#key(event));
    holder.append(this.#holder);
  }

  /** Shows a tree. What `isOpen` says of a node counts until it is folded or unfolded. */
  show(root, isOpen) {
    this.#root = root;
    this.#open = new Set();
    this.#openWhere(isOpen);
    this.#focused = root?.id;
    this.#draw();
  }

  /** Shows another tree, with the same nodes unfolded. */
  update(root) {
    this.#root = root;
    this.#draw();
  }

  /** Unfolds the nodes for which this holds, and folds the others. */
  unfold(isOpen) {
    this.#open = new Set();
    this.#openWhere(isOpen);
    this.#draw();
  }

  #openWhere(isOpen) {
    const visit = (node, depth) => {
      if (isOpen(node, depth)) this.#open.add(node.id);
      for (const it of node.children) visit(it, depth + 1);
    };
    if (this.#root !== undefined) visit(this.#root, 0);
  }

  #draw() {
    const hadFocus = this.#holder.contains(document.activeElement);
    this.#rows = [];
    if (this.#root !== undefined) this.#collect(this.#root, undefined, 1, 1, 1);
    const shown = this.#rows.slice(0, MOST_ROWS);
    if (!shown.some((it) => it.node.id === this.#focused)) this.#focused = shown[0]?.node.id;
    this.#holder.replaceChildren(...shown.map((it) => this.#rowOf(it)));
    if (this.#rows.length > MOST_ROWS) {
      const left = withCommas(this.#rows.length - MOST_ROWS);
      this.#holder.append(element("p", { class: "hint" }, `${left} more rows: fold some of those above.`));
    }
    if (hadFocus) this.#element()?.focus({ preventScroll: true });
  }

  /** Adds the rows of a node: what can be seen of it. */
  #collect(node, parent, level, position, count) {
    this.#rows.push({ node, parent, level, position, count });
    if (!this.#open.has(node.id)) return;
    node.children.forEach((it, index) => this.#collect(it, node, level + 1, index + 1, node.children.length));
  }

  #rowOf({ node, parent, level, position, count }) {
    const shown = this.#how.shown(node, parent);
    const isFolder = node.children.length > 0;
    const row = element("div", {
      class: `row ${shown.valid ? "valid" : "invalid"} ${shown.kind ?? ""}`, role: "treeitem", "data-id": node.id,
      tabindex: node.id === this.#focused ? "0" : "-1", "aria-level": level, "aria-posinset": position,
      "aria-setsize": count, "aria-expanded": isFolder ? String(this.#open.has(node.id)) : undefined,
      "aria-label": spoken(shown),
      onclick: () => this.#choose(node),
      onfocus: () => this.#focusOn(node.id),
    }, ...cellsOf(shown));
    row.style.paddingInlineStart = `${(level - 1) * 1.1 + 1.6}em`;
    if (isFolder) row.prepend(this.#twistie(node, level));
    return row;
  }

  #twistie(node, level) {
    const made = element("span", {
      class: "twistie", "aria-hidden": "true",
      onclick: (event) => {
        event.stopPropagation();
        this.#toggle(node);
      },
    }, this.#open.has(node.id) ? "▾" : "▸");
    made.style.insetInlineStart = `${(level - 1) * 1.1}em`;
    return made;
  }

  #choose(node) {
    this.#focusOn(node.id);
    this.#how.chosen(node);
  }

  #toggle(node) {
    if (!this.#open.delete(node.id)) this.#open.add(node.id);
    this.#focused = node.id;
    this.#draw();
  }

  #element(id = this.#focused) {
    return this.#holder.querySelector(`[data-id="${id}"]`);
  }

  #focusOn(id) {
    this.#element()?.setAttribute("tabindex", "-1");
    this.#focused = id;
    this.#element()?.setAttribute("tabindex", "0");
  }

  #key(event) {
    const at = this.#rows.findIndex((it) => it.node.id === this.#focused);
    const row = this.#rows[at];
    if (row === undefined || event.altKey || event.ctrlKey || event.metaKey) return;
    const isOpen = this.#open.has(row.node.id), isFolder = row.node.children.length > 0;
    const go = (to) => {
      this.#focusOn(to.node.id);
      this.#element()?.focus();
    };
    const keys = {
      ArrowDown: () => go(this.#rows[Math.min(at + 1, this.#rows.length - 1)]),
      ArrowUp: () => go(this.#rows[Math.max(at - 1, 0)]),
      Home: () => go(this.#rows[0]),
      End: () => go(this.#rows.at(-1)),
      ArrowRight: () => isFolder && (isOpen ? go(this.#rows[at + 1]) : this.#toggle(row.node)),
      ArrowLeft: () => isFolder && isOpen ? this.#toggle(row.node) : row.parent && go({ node: row.parent }),
      Enter: () => this.#act(row),
      " ": () => this.#act(row),
    };
    if (keys[event.key] === undefined || event.target.closest("button") !== null) return;
    event.preventDefault();
    keys[event.key]();
  }

  #act({ node, parent }) {
    const { action } = this.#how.shown(node, parent);
    if (action === undefined) this.#choose(node);
    else action.act();
  }
}

/** What a row shows. */
function cellsOf({ valid, label, place, note, action }) {
  return [
    element("span", { class: "verdict" }, valid ? "✓" : "✗"),
    element("span", { class: "label" }, label),
    place === undefined ? undefined : element("span", { class: "place" }, place),
    note === undefined ? undefined : element("span", { class: "note" }, note),
    action && element("button", {
      type: "button", class: "action", tabindex: "-1", title: action.description,
      onclick: (event) => {
        event.stopPropagation();
        action.act();
      },
    }, action.label),
  ];
}

/** What a screen reader says of a row. */
function spoken({ valid, label, place, note, action }) {
  const parts = [label, valid ? "valid" : "invalid", place && `of ${place}`, note, action && `can be: ${action.label}`];
  return parts.filter(Boolean).join(", ");
}
