/** Makes elements of the page. Texts are texts, never markup. */

/** An element with attributes (`on...` are listeners) and children. What is undefined is left out. */
export function element(name, attributes = {}, ...children) {
  const made = document.createElement(name);
  for (const [key, value] of Object.entries(attributes)) {
    if (typeof value === "function") made.addEventListener(key.slice(2), value);
    else if (value !== undefined) made.setAttribute(key, value);
  }
  made.append(...children.filter((it) => it !== undefined));
  return made;
}

/** Gives an element a text, unless it has it already. (A screen reader says what changes.) */
export function showText(holder, text) {
  if (holder.textContent !== text) holder.textContent = text;
}

/** A count with a comma before each three digits. (`toLocaleString` takes many milliseconds at first.) */
export function withCommas(count) {
  return String(count).replace(/\B(?=(?:\d{3})+$)/g, ",");
}

/** A count with what is counted: `1 error`, `2 errors`. */
export function counted(count, noun) {
  return `${withCommas(count)} ${noun}${count === 1 ? "" : "s"}`;
}

// What the children show that `patch` made.
const shown = new WeakMap();

/**
 * Gives an element a child for each of these descriptions. A child stays where its description is that of before; else
 * `make` makes one of the description and its index.
 *
 * @template T
 * @param {Element} holder @param {readonly T[]} descriptions @param {(it: T, index: number) => Element} make
 */
export function patch(holder, descriptions, make) {
  while (holder.children.length > descriptions.length) holder.lastElementChild.remove();
  descriptions.forEach((it, index) => {
    const text = JSON.stringify(it), present = holder.children[index];
    if (present !== undefined && shown.get(present) === text) return;
    const made = make(it, index);
    shown.set(made, text);
    if (present === undefined) holder.append(made);
    else present.replaceWith(made);
  });
}
