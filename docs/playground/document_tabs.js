/** The schema documents: a tab for each, its URI, its text. */
import { Editor } from "./editor.js";
import { Tabs } from "./tabs.js";

export class DocumentTabs {
  #documents = [];
  #selected = 0;
  #marks = [];
  #tabs;
  #uri = document.getElementById("uri");
  #remove = document.getElementById("remove-document");
  #editor;
  #how;

  /** @param {{ changed: () => void, moved: (document: number, offset: number) => void }} how */
  constructor(how) {
    this.#how = how;
    this.#tabs = new Tabs({
      holder: document.getElementById("documents"), label: "Schema documents", panel: "document",
      chosen: (key) => this.select(key),
    });
    this.#editor = new Editor({
      holder: document.getElementById("schema-editor"), label: "Schema", id: "schema-text",
      changed: () => this.#edit({ text: this.#editor.text }),
      moved: (offset) => how.moved(this.#selected, offset),
    });
    this.#uri.addEventListener("input", () => this.#edit({ uri: this.#uri.value }));
    this.#remove.addEventListener("click", () => this.#removeSelected());
    document.getElementById("add-document").addEventListener("click", () => this.#add());
  }

  get documents() {
    return this.#documents;
  }

  get selected() {
    return this.#selected;
  }

  show(documents, selected) {
    this.#documents = documents;
    this.#marks = [];
    this.select(selected);
  }

  select(selected) {
    this.#selected = selected;
    this.#uri.value = this.#documents[selected].uri;
    this.#editor.text = this.#documents[selected].text;
    this.#draw();
  }

  /** What is underlined: stretches of documents, which they name by number. */
  set marks(marks) {
    this.#marks = marks;
    this.#draw();
  }

  /** Shows a stretch of a document. */
  reveal(stretch, focus) {
    if (stretch.document !== this.#selected) this.select(stretch.document);
    this.#editor.reveal(stretch, focus);
  }

  /** The place of a stretch, as `3:5`; with several documents also which one. */
  position({ document, begin }) {
    const name = this.#documents.length > 1 ? `${labelOf(this.#documents[document])} ` : "";
    if (document !== this.#selected) return name.trim();
    const { line, column } = this.#editor.positionOf(begin);
    return `${name}${line}:${column}`;
  }

  #draw() {
    const faulty = new Set(this.#marks.map((it) => it.document));
    this.#tabs.show(this.#documents.map((it, key) =>
      ({ key, label: labelOf(it), kind: faulty.has(key) ? "marked" : undefined })), this.#selected);
    this.#remove.disabled = this.#documents.length === 1;
    this.#editor.marks = this.#marks.filter((it) => it.document === this.#selected);
  }

  #edit(change) {
    this.#documents = this.#documents.with(this.#selected, { ...this.#documents[this.#selected], ...change });
    if (change.uri !== undefined) this.#draw();
    this.#how.changed();
  }

  #add() {
    const used = new Set(this.#documents.map((it) => it.uri));
    let number = this.#documents.length + 1;
    while (used.has(`https://example.com/schema-${number}`)) number++;
    this.#documents = [...this.#documents, { uri: `https://example.com/schema-${number}`, text: "{}\n" }];
    this.select(this.#documents.length - 1);
    this.#how.changed();
    this.#uri.focus();
    this.#uri.select();
  }

  #removeSelected() {
    this.#documents = this.#documents.toSpliced(this.#selected, 1);
    this.#marks = [];
    this.select(Math.min(this.#selected, this.#documents.length - 1));
    this.#how.changed();
  }
}

/** What a document's tab says: the end of its URI. */
function labelOf({ uri }) {
  return uri.replace(/#.*$/, "").split(/[/:]/).filter(Boolean).at(-1) ?? "schema";
}
