/** The panel with the errors of the instance. */
import { counted, element, patch, showText } from "./elements.js";

export class ErrorList {
  #holder = element("div", {});
  #list = element("ol", { class: "errors" });
  #hint = element("p", { class: "hint" });
  #how;
  #errors = [];

  /** @param {{ places: (error: object) => { instance?: string, schema?: string }, chosen: Function }} how */
  constructor(how) {
    this.#how = how;
    this.#holder.append(this.#list, this.#hint);
  }

  get element() {
    return this.#holder;
  }

  show({ verdict, errors = [], count = 0, fault }) {
    this.#errors = errors;
    this.emphasize(errors, () => false);
    patch(this.#list, errors.map((error) => this.#described(error)), (it, index) => this.#item(it, index));
    this.#list.hidden = errors.length === 0;
    const left = count - errors.length;
    const hint = verdict === "valid" ? "The instance is valid: there are no errors."
      : verdict === "none" ? helpFor(fault) : left > 0 ? `${counted(left, "more error")}.` : "";
    showText(this.#hint, hint);
  }

  /** Emphasizes the errors for which this holds. */
  emphasize(errors, holds) {
    errors.forEach((it, index) => this.#list.children[index]?.classList.toggle("current", holds(it)));
  }

  /** What an item of the list says. */
  #described(error) {
    const { instance, schema } = this.#how.places(error);
    const { message, instanceLocation, keywordLocation, absoluteKeywordLocation: title } = error;
    return {
      message, title,
      value: `${instanceLocation || "the whole instance"}${instance ? ` (${instance})` : ""}`,
      keyword: `${keywordLocation || "the schema false"}${schema ? ` (${schema})` : ""}`,
    };
  }

  #item({ message, title, value, keyword }, index) {
    const button = (attributes, where, label) => element("button",
      { type: "button", ...attributes, onclick: () => this.#how.chosen(this.#errors[index], where) }, label);
    return element("li", {},
      button({ class: "message" }, "both", message),
      element("span", { class: "where" }, button({ title: "Go to the value" }, "instance", value), " fails ",
        button({ title }, "schema", keyword)));
  }
}

/** What can be done about a refusal. */
function helpFor({ name, kind }) {
  if (name === "Stopped") return "The check was ended. Try a smaller instance, or a simpler schema.";
  if (name === "OutOfMemory") return "The check needs more memory than the page can have.";
  if (kind === "TooLarge") return "A schema that applies itself without end gives this too: break the cycle.";
  return "There is no verdict: an input is refused. The refused place is underlined.";
}
