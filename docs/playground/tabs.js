/** Tabs, between which arrow keys move, as the ARIA pattern "tabs" has it. */
import { element, showText } from "./elements.js";

export class Tabs {
  #holder;
  #chosen;

  #panel;

  /**
   * `panel` is the id of the element that shows what is chosen.
   *
   * @param {{ holder: Element, label: string, panel: string, chosen: (key: number | string) => void }} how
   */
  constructor({ holder, label, panel, chosen }) {
    this.#holder = holder;
    this.#chosen = chosen;
    this.#panel = panel;
    holder.setAttribute("role", "tablist");
    holder.setAttribute("aria-label", label);
    holder.addEventListener("keydown", (event) => this.#key(event));
  }

  /** Shows these tabs. @param {{ key: number | string, label: string, kind?: string }[]} tabs */
  show(tabs, selected) {
    const hadFocus = this.#holder.contains(document.activeElement);
    while (this.#holder.children.length > tabs.length) this.#holder.lastChild.remove();
    tabs.forEach((tab, index) => {
      const button = this.#holder.children[index] ?? this.#holder.appendChild(this.#button());
      const isSelected = tab.key === selected;
      button.id = `${this.#panel}-${tab.key}`;
      button.className = tab.kind ?? "";
      button.tabIndex = isSelected ? 0 : -1;
      showText(button, tab.label);
      button.setAttribute("aria-selected", String(isSelected));
      button.onclick = () => this.#chosen(tab.key);
    });
    document.getElementById(this.#panel).setAttribute("aria-labelledby", `${this.#panel}-${selected}`);
    if (hadFocus) this.#holder.querySelector("[aria-selected=true]")?.focus();
  }

  #button() {
    return element("button", { type: "button", role: "tab", "aria-controls": this.#panel });
  }

  #key(event) {
    const tabs = [...this.#holder.children];
    const at = tabs.indexOf(document.activeElement);
    const to = { ArrowRight: at + 1, ArrowLeft: at - 1, Home: 0, End: tabs.length - 1 }[event.key];
    if (to === undefined || at < 0) return;
    event.preventDefault();
    tabs[(to + tabs.length) % tabs.length].click();
  }
}
