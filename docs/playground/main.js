/** The playground: what was typed goes to the worker, and its answers to the panels. */
import { Engine } from "../../bindings/javascript/src/engine.js";
import { Checker } from "./checker.js";
import { quickAnswer } from "./checking.js";
import { DocumentTabs } from "./document_tabs.js";
import { Editor } from "./editor.js";
import { counted, element, showText, withCommas } from "./elements.js";
import { ErrorList } from "./error_list.js";
import { EXAMPLES, stateOfExample } from "./examples.js";
import { forbidConnections, loadModule, startWorker } from "./loading.js";
import { SchemaTexts, Values, isOfName } from "./places.js";
import { fragmentOf, stateOf } from "./sharing.js";
import { Tabs } from "./tabs.js";

const PANELS = { errors: "Errors", tree: "Result tree", condensing: "Condensing", output: "Output" };

/** The most characters of a link. (Browsers take somewhat more.) */
const LONGEST_LINK = 1_000_000;

/** The most schemas that are offered to check against. */
const MOST_ENTRIES = 500;

// How long after the last key press the outputs that a panel shows are asked for, and the address gets the state.
const PAUSE_MILLISECONDS = 200, QUIET_MILLISECONDS = 600;

// How long the page waits for its first verdict before anything is drawn: it needn't be drawn twice then.
const MOMENT_MILLISECONDS = 100;

const at = (id) => document.getElementById(id);

class Playground {
  #checker;
  // Finds the places of the nodes that are chosen.
  #engine;
  #answer;
  #panel = "errors";
  #format = "detailed";
  #isMerging = false;
  #pause;
  #quiet;

  constructor() {
    this.documents = new DocumentTabs({
      changed: () => this.#typed(), moved: (document, offset) => this.#caretAt("inSchema", offset, document),
    });
    this.instance = new Editor({
      holder: at("instance-editor"), label: "Instance", id: "instance-text",
      changed: () => this.#typed(), moved: (offset) => this.#caretAt("inInstance", offset),
    });
    this.panels = {
      errors: new ErrorList({
        places: (error) => this.#positions(error),
        chosen: (error, where) => this.#reveal(error, where),
      }),
    };
    this.tabs = new Tabs({
      holder: at("panels"), label: "Result", panel: "panel", chosen: (panel) => this.#choose({ panel }),
    });
    at("entry").addEventListener("input", () => this.#typed());
    at("share").addEventListener("click", () => this.#share());
    this.#offerExamples();
  }

  /** Shows the first verdict by this module. What is quick is checked here: it takes a while to start a worker. */
  async connect(module) {
    this.#engine = new Engine(module);
    const answer = await quickAnswer(this.#engine, this.#request);
    if (answer !== undefined) this.#answered(answer);
  }

  /** Begins to check in a worker, and adds the other panels. */
  async complete() {
    const answered = new Promise((resolve) => {
      const tell = (answer) => resolve(this.#answered(answer));
      this.#checker = new Checker({ start: startWorker, module: this.#engine.module, tell });
    });
    this.#check();
    const { otherPanels } = await import("./panels.js");
    Object.assign(this.panels, otherPanels({
      chosen: (node) => this.#revealNode(node), changed: (what) => this.#choose(what),
    }));
    this.#showPanel();
    await answered;
  }

  get state() {
    return {
      documents: this.documents.documents, selected: this.documents.selected, entry: at("entry").value,
      instance: this.instance.text, panel: this.#panel, format: this.#format, isMerging: this.#isMerging,
    };
  }

  show({ documents, selected, entry, instance, panel, format, isMerging }) {
    this.#panel = panel in PANELS ? panel : "errors";
    this.#format = format;
    this.#isMerging = isMerging;
    this.documents.show(documents, selected);
    at("entry").value = entry;
    this.instance.text = instance;
    this.#check();
  }

  #offerExamples() {
    const select = at("examples");
    select.append(element("option", { value: "" }, "choose …"),
      ...EXAMPLES.map(({ name }, index) => element("option", { value: index }, name)));
    select.addEventListener("change", () => {
      if (select.value === "") return;
      this.show(stateOfExample(EXAMPLES[select.value]));
      select.value = "";
      this.#later();
    });
  }

  /** Asks for the verdict and the errors at once, and for more where nothing follows. */
  #typed() {
    const { wanted, ...request } = this.#request;
    clearTimeout(this.#pause);
    this.#checker?.ask({ ...request, wanted: [] });
    if (wanted.length > 0) this.#pause = setTimeout(() => this.#check(), PAUSE_MILLISECONDS);
    this.#later();
  }

  #choose({ panel = this.#panel, format = this.#format, isMerging = this.#isMerging }) {
    this.#panel = panel;
    this.#format = format;
    this.#isMerging = isMerging;
    this.#check();
    this.#later();
  }

  /** What is asked: the verdict, the errors, and the outputs that the panel shows. */
  get #request() {
    const { documents, entry, instance } = this.state;
    const wanted = {
      errors: [], tree: ["verbose"], output: [this.#format],
      condensing: ["verbose", this.#isMerging ? "merged" : "detailed"],
    }[this.#panel];
    return { documents, entry, instance, wanted };
  }

  #check() {
    clearTimeout(this.#pause);
    this.#checker?.ask(this.#request);
  }

  #answered(answer) {
    this.#answer = answer;
    this.#say(answer);
    document.body.hidden = false;
    performance.mark("verdict");
    this.#underline(answer);
    if (answer.places !== undefined) offerEntries(answer.places);
    this.#showPanel();
  }

  #underline({ fault, errors = [] }) {
    const faults = fault === undefined ? errors : [fault];
    const marks = (where) => faults.filter((it) => it[where] !== undefined)
      .map((it) => ({ ...it[where], message: it.meaning ?? it.message }));
    this.documents.marks = marks("inSchema");
    this.instance.marks = marks("inInstance");
  }

  #say({ verdict, count, milliseconds, fault }) {
    const said = at("verdict");
    const text = {
      valid: () => "✓ Valid", invalid: () => `✗ Invalid: ${counted(count, "error")}`,
      none: () => `${fault.name}: ${fault.message}`,
    }[verdict]();
    said.className = verdict;
    showText(said, text);
    at("time").textContent = milliseconds === undefined ? ""
      : milliseconds < 1 ? "in less than 1 ms" : `in ${Math.round(milliseconds)} ms`;
  }

  #showPanel() {
    if (this.#answer === undefined) return;
    const panel = this.panels[this.#panel];
    const { verdict, outputs = {} } = this.#answer;
    this.tabs.show(Object.entries(PANELS).map(([key, label]) => ({ key, label })), this.#panel);
    // (Panels are added once there is a verdict, and outputs may come after it.)
    const isWaiting = verdict !== "none" && !this.#request.wanted.every((it) => it in outputs);
    if (panel === undefined || isWaiting) return;
    if (at("panel").firstChild !== panel.element) at("panel").replaceChildren(panel.element);
    if (this.#panel === "errors") panel.show(this.#answer);
    else if (this.#panel === "tree") panel.show(outputs.verbose);
    else if (this.#panel === "condensing") panel.show(outputs, this.#isMerging);
    else panel.show(outputs, this.#format);
  }

  /** Where an error is, in words. */
  #positions({ inInstance, inSchema }) {
    const position = inInstance && this.instance.positionOf(inInstance.begin);
    return {
      instance: position && `${position.line}:${position.column}`,
      schema: inSchema && this.documents.position(inSchema),
    };
  }

  /** Shows an error's places: both, or one of them with the caret. */
  #reveal({ inInstance, inSchema }, where) {
    if (inSchema !== undefined && where !== "instance") this.documents.reveal(inSchema, where === "schema");
    if (inInstance !== undefined && where !== "schema") this.instance.reveal(inInstance, where === "instance");
  }

  /** Shows the places of a node of the result. */
  #revealNode({ instance, keyword, absolute }) {
    const inInstance = new Values(this.instance.text, this.#engine).ofValue(instance, isOfName(keyword));
    const inSchema = new SchemaTexts(this.documents.documents, this.#engine).find(absolute);
    this.#reveal({ inInstance, inSchema }, "both");
  }

  /** Emphasizes the errors at the caret. */
  #caretAt(where, offset, document = undefined) {
    const { errors = [] } = this.#answer ?? {};
    this.panels.errors.emphasize(errors, ({ [where]: it }) =>
      it !== undefined && it.document === document && it.begin <= offset && offset <= it.end);
  }

  /** Puts the state into the address once nothing has changed for a while. */
  #later() {
    clearTimeout(this.#quiet);
    this.#quiet = setTimeout(() => this.#keep(), QUIET_MILLISECONDS);
  }

  /** The link to the state. Unless it is too long, the page has it as its address then. */
  async #keep() {
    const link = new URL(await fragmentOf(this.state), location.href).href;
    if (link.length <= LONGEST_LINK) history.replaceState(null, "", link);
    return link;
  }

  async #share() {
    clearTimeout(this.#quiet);
    const link = await this.#keep();
    const length = withCommas(link.length);
    if (link.length > LONGEST_LINK) {
      notify(`A link would have ${length} characters, which browsers don't take. Make the texts shorter.`);
      return;
    }
    try {
      await navigator.clipboard.writeText(link);
      notify(`The link was copied: ${length} characters that hold everything. What follows # is sent to nobody.`);
    } catch {
      notify(`The address of this page is the link now: ${length} characters that hold everything.`);
    }
  }
}

let offered;

/** Offers these schemas to check against. */
function offerEntries(places) {
  const entries = places.slice(0, MOST_ENTRIES).map((it) => it.replace(/#$/, ""));
  if (offered === entries.join("\n")) return;
  offered = entries.join("\n");
  at("entries").replaceChildren(...entries.map((it) => element("option", { value: it })));
}

function notify(text) {
  at("notice").textContent = text;
}

/** The state of the link, or the first example. */
async function firstState() {
  try {
    const state = await stateOf(location.hash);
    if (state !== undefined) return state;
  } catch (error) {
    notify(`The link can't be read (${error.message}); this is an example.`);
  }
  return stateOfExample(EXAMPLES[0]);
}

/** Has the page drawn only with its first verdict, unless that takes longer than a moment, or something was drawn. */
function waitUnseen() {
  document.body.hidden = performance.getEntriesByType("paint").length === 0;
  setTimeout(() => {
    document.body.hidden = false;
  }, MOMENT_MILLISECONDS);
}

async function begin() {
  at("theme").addEventListener("change", ({ target }) => {
    document.documentElement.dataset.theme = target.value;
  });
  const loading = loadModule();
  waitUnseen();
  const playground = new Playground();
  playground.show(await firstState());
  const module = await loading;
  forbidConnections();
  await playground.connect(module);
  window.addEventListener("hashchange", async () => playground.show(await firstState()));
  // (The verdict is drawn first.)
  await new Promise((resolve) => requestAnimationFrame(() => setTimeout(resolve)));
  performance.mark("drawn");
  await playground.complete();
  performance.mark("complete");
}

begin().catch((error) => {
  at("verdict").className = "none";
  at("verdict").textContent = `The validator can't be loaded: ${error.message}`;
});
