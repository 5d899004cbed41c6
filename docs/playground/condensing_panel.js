/** The panel that shows how the result is condensed, step by step, in any order. */
import { DROP, MERGE, REPLACE, after, normalForm, possibleSteps } from "./condensing.js";
import { counted, element, withCommas } from "./elements.js";
import { shownNode } from "./result_panel.js";
import { countOf, pruned, textOf, treeOf } from "./result_tree.js";
import { TreeView } from "./tree_view.js";

/** The most nodes of a pruned tree whose steps are shown. */
const MOST_NODES = 3000;

const LABELS = { [DROP]: "drop", [REPLACE]: "replace by its child", [MERGE]: "drop: repeated" };
const DESCRIPTIONS = {
  [DROP]: "It has neither a note nor a child.",
  [REPLACE]: "It has no note and exactly one child.",
  [MERGE]: "An earlier sibling is equal, except for keyword locations.",
};

export class CondensingPanel {
  #holder = element("div", {});
  #said = element("p", { class: "said", role: "status" });
  #progress = element("progress", { "aria-label": "Nodes taken away" });
  #history = element("ol", { class: "history", "aria-label": "Steps taken" });
  #merging = element("input", { type: "checkbox" });
  #buttons = {};
  #tree;
  #how;
  // The tree before each step, and the present one at the end; the steps; those that were taken back.
  #trees = [];
  #steps = [];
  #undone = [];
  // By the id of a node, the step that is possible at it.
  #actions = new Map();
  #outputs = {};

  /** @param {{ chosen: (node: object) => void, changed: (isMerging: boolean) => void }} how */
  constructor(how) {
    this.#how = how;
    this.#merging.addEventListener("change", () => how.changed(this.#merging.checked));
    const button = (key, label, act) => {
      this.#buttons[key] = element("button", { type: "button", onclick: act }, label);
      return this.#buttons[key];
    };
    this.#holder.append(
      element("p", { class: "hint" }, "Nodes whose verdict isn't the root's are pruned. Then two rules take nodes away:"
        + " one without note and child is dropped, one without note and with one child is replaced by it."
        + " Whatever the order, all ways end in the same tree: the output detailed."),
      element("div", { class: "controls" },
        button("start", "Start", () => this.#goTo(0)), button("back", "Back", () => this.#goTo(this.#steps.length - 1)),
        button("step", "Step", () => this.#take(this.#undone.at(-1) ?? this.#possible()[0])),
        button("random", "Random step", () => this.#take(randomOf(this.#possible()))),
        button("end", "End", () => this.#finish()),
        element("label", {}, this.#merging, "also drop repeated siblings (the output merged)")),
      element("div", { class: "progress" }, this.#progress, this.#said));
    this.#tree = new TreeView(this.#holder, {
      label: "Result, being condensed", shown: (node, parent) => this.#shown(node, parent), chosen: how.chosen,
    });
    this.#holder.append(this.#history);
  }

  get element() {
    return this.#holder;
  }

  /** Begins with the texts of outputs: `verbose`, and `detailed` or `merged`, with which the end is compared. */
  show(outputs, isMerging) {
    this.#merging.checked = isMerging;
    this.#outputs = outputs;
    this.#steps = [];
    this.#undone = [];
    const root = outputs.verbose === undefined ? undefined : pruned(treeOf(outputs.verbose));
    this.#trees = root !== undefined && countOf(root) <= MOST_NODES ? [root] : [];
    this.#tree.show(this.#trees[0], () => true);
    this.#update();
  }

  #present() {
    return this.#trees.at(-1);
  }

  #possible() {
    return possibleSteps(this.#present(), this.#merging.checked);
  }

  #take(step) {
    if (step === undefined) return;
    if (this.#undone.at(-1)?.node.id === step.node.id) this.#undone.pop();
    else this.#undone = [];
    this.#add(step);
    this.#update();
  }

  #add(step) {
    this.#trees.push(after(this.#present(), step));
    this.#steps.push(step);
  }

  #finish() {
    while (this.#undone.length > 0) this.#add(this.#undone.pop());
    for (let steps = this.#possible(); steps.length > 0; steps = this.#possible()) this.#add(steps[0]);
    this.#update();
  }

  /** Goes back to where this many steps were taken. */
  #goTo(count) {
    while (this.#steps.length > count) {
      this.#undone.push(this.#steps.pop());
      this.#trees.pop();
    }
    this.#update();
  }

  #update() {
    const root = this.#present();
    const steps = root === undefined ? [] : this.#possible();
    this.#actions = new Map(steps.map((it) => [it.node.id, it]));
    for (const key of ["start", "back"]) this.#buttons[key].disabled = this.#steps.length === 0;
    for (const key of ["step", "random", "end"]) this.#buttons[key].disabled = steps.length === 0;
    this.#tree.update(root);
    this.#history.replaceChildren(...this.#steps.map((step, index) => element("li", {},
      element("button", { type: "button", title: "Go back to before this step", onclick: () => this.#goTo(index) },
        described(step)))));
    this.#progress.hidden = root === undefined;
    if (root === undefined) {
      this.#said.textContent = this.#outputs.verbose === undefined ? "There is no result that could be condensed."
        : `The pruned tree has more than ${withCommas(MOST_NODES)} nodes: too many to show each step.`;
      return;
    }
    this.#describe(root, steps.length);
  }

  #describe(root, possible) {
    const format = this.#merging.checked ? "merged" : "detailed";
    const [first, now, last] = [this.#trees[0], root, normalForm(root, this.#merging.checked)].map(countOf);
    this.#progress.max = Math.max(first - last, 1);
    this.#progress.value = first - now || Number(first === last);
    const taken = `${counted(this.#steps.length, "step")} taken, ${now} of ${counted(first, "node")} left.`;
    this.#said.classList.toggle("ended", possible === 0);
    if (possible > 0) {
      this.#said.textContent = `${taken} ${possible} possible now.`;
    } else {
      const isSame = textOf(root) === this.#outputs[format];
      const compared = isSame ? `byte for byte the output ${format}` : `which is NOT the output ${format}`;
      this.#said.textContent = `${taken} No rule applies: this is the one normal form, ${compared}.`;
    }
  }

  #shown(node, parent) {
    const shown = shownNode(node, parent);
    const step = this.#actions.get(node.id);
    if (step === undefined) return shown;
    const action = { label: LABELS[step.rule], description: DESCRIPTIONS[step.rule], act: () => this.#take(step) };
    return { ...shown, action, kind: `can-${step.rule}` };
  }
}

function randomOf(list) {
  return list[Math.floor(Math.random() * list.length)];
}

/** What a step did. */
function described({ rule, node, stays }) {
  const name = (it) => it.keyword || "the root";
  if (rule === DROP) return `${name(node)} was dropped: no note, no child`;
  if (rule === REPLACE) return `${name(node)} was replaced by its child ${name(stays)}`;
  return `${name(node)} was dropped: equal to ${name(stays)} except for keyword locations`;
}
