/** The panel with the output as it is written, in any format. */
import { FORMATS } from "../../bindings/javascript/src/interface.js";
import { element, withCommas } from "./elements.js";
import { indented } from "./indenting.js";

/** The most characters of an output that are shown. */
const MOST_CHARACTERS = 200_000;

export class OutputPanel {
  #holder = element("div", {});
  #format;
  #text = element("pre", { tabindex: "0", "aria-label": "Output" });
  #hint = element("p", { class: "hint" });

  /** @param {{ changed: (format: string) => void }} how */
  constructor({ changed }) {
    this.#format = element("select", { onchange: () => changed(this.#format.value) },
      ...FORMATS.map((it) => element("option", { value: it }, it)));
    this.#holder.append(element("div", { class: "controls" }, element("label", {}, "Format ", this.#format)),
      this.#hint, this.#text);
  }

  get element() {
    return this.#holder;
  }

  show(outputs, format) {
    this.#format.value = format;
    const text = outputs[format];
    this.#text.hidden = text === undefined;
    this.#text.textContent = text === undefined ? "" : indented(text.slice(0, MOST_CHARACTERS));
    this.#hint.textContent = text === undefined ? "There is no output that could be shown." : hintFor(text);
  }
}

function hintFor({ length }) {
  return `${withCommas(length)} characters; indented here${length > MOST_CHARACTERS ? " and cut" : ""}.`;
}
