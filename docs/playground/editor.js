/**
 * A text that can be edited, with stretches underlined.
 *
 * The text area has the text, its caret and its selection; its letters can't be seen. What is seen is drawn over it:
 * of the lines that fit, coloured tokens, underlines, and behind each line the message of its first underline.
 */
import { element, patch, showText } from "./elements.js";
import { indented } from "./indenting.js";

// As in style.css.
const LINE_HEIGHT = 20;

// Lines that are longer aren't coloured, and their messages stand at the beginning.
const LONGEST_COLOURED = 2000;

const TOKEN = /("(?:[^"\\]|\\.)*"?)(\s*:)?|(-?[0-9][0-9.eE+-]*)|(true|false|null)/g;

export class Editor {
  // The editors by their text areas, and what observes the sizes of these.
  static #editors = new WeakMap();
  static #observer;

  #area;
  // What is drawn: the lines that can be seen, and their numbers.
  #lines = element("div", {});
  #numbers = element("div", {});
  #caret;
  // The text as it was measured, and where its lines begin.
  #text = "";
  #starts = [0];
  #marks = [];
  #selected;
  // What can be seen, as it was at the last frame. (To ask for it after a change would have the text laid out at once.)
  #view = { top: 0, left: 0, width: 0, height: 0 };

  /**
   * `changed` is called for each change, `moved` with the offset of the caret when it has moved.
   *
   * @param {{ holder: Element, label: string, id: string, changed: Function, moved: (offset: number) => void }} how
   */
  constructor({ holder, label, id, changed, moved }) {
    const gutter = element("div", { class: "gutter", "aria-hidden": "true" }, this.#numbers);
    const drawing = element("div", { class: "drawing", "aria-hidden": "true" }, this.#lines);
    this.#area = element("textarea", {
      id, "aria-label": label, "aria-describedby": `${id}-caret`, spellcheck: "false", autocapitalize: "off",
      autocomplete: "off", wrap: "off",
    });
    this.#caret = element("p", { class: "caret", id: `${id}-caret` });
    const text = element("div", { class: "text" }, this.#area, drawing);
    const indent = element("button", {
      type: "button", title: `A line for each member and item of the ${label.toLowerCase()}`,
      onclick: () => this.#indent(),
    }, "Indent");
    holder.append(element("div", { class: "editor" }, gutter, text),
      element("div", { class: "foot" }, this.#caret, indent));
    this.#area.addEventListener("input", () => {
      changed();
      this.#marks = movedMarks(this.#marks, this.#text, this.#area.value);
      this.#selected = undefined;
      this.#measure();
      this.#draw();
    });
    this.#area.addEventListener("scroll", () => this.#redraw());
    document.addEventListener("selectionchange", () => {
      if (document.activeElement !== this.#area) return;
      this.#describeCaret();
      moved(this.#area.selectionStart);
    });
    Editor.#observe(this);
  }

  /** Draws an editor whenever its size changes. */
  static #observe(editor) {
    Editor.#editors.set(editor.#area, editor);
    Editor.#observer ??= new ResizeObserver((entries) => {
      const editors = entries.map(({ target }) => Editor.#editors.get(target));
      // (Were one drawn before the next one is looked at, the page would be laid out for that.)
      for (const it of editors) it.#look();
      for (const it of editors) {
        it.#draw();
        it.#describeCaret();
      }
    });
    Editor.#observer.observe(editor.#area);
  }

  get text() {
    return this.#area.value;
  }

  set text(text) {
    if (text !== this.#area.value) {
      this.#area.value = text;
      this.#area.setSelectionRange(0, 0);
      if (this.#view.top !== 0 || this.#view.left !== 0) this.#area.scrollTo(0, 0);
    }
    this.#measure();
    this.marks = [];
  }

  /** What is underlined: stretches with a message and an `error`. */
  set marks(marks) {
    this.#marks = [...marks].sort((one, other) => one.begin - other.begin);
    this.#area.setAttribute("aria-invalid", String(marks.length > 0));
    this.#selected = undefined;
    this.#draw();
    this.#describeCaret();
  }

  /** The mark at an offset, or undefined: the shortest one. */
  markAt(offset) {
    return this.#marks.filter((it) => it.begin <= offset && offset <= it.end)
      .sort((one, other) => one.end - one.begin - (other.end - other.begin))[0];
  }

  /** Shows a stretch, and emphasizes it. With `focus` the caret goes there. */
  reveal({ begin, end }, focus = false) {
    const line = this.#lineOf(begin);
    const column = begin - this.#starts[line];
    this.#selected = { begin, end };
    this.#area.setSelectionRange(begin, focus ? end : begin);
    if (focus) this.#area.focus({ preventScroll: true });
    this.#area.scrollTop = Math.max(0, line * LINE_HEIGHT - this.#area.clientHeight / 3);
    this.#area.scrollLeft = Math.max(0, (column - 20) * this.#columnWidth());
    if (focus) this.#area.scrollIntoView({ block: "nearest" });
    this.#redraw();
    this.#describeCaret();
  }

  /** The line and column of an offset, from 1. */
  positionOf(offset) {
    const line = this.#lineOf(offset);
    const before = this.#text.slice(this.#starts[line], offset);
    return { line: line + 1, column: [...before].length + 1 };
  }

  /** Indents a text that is JSON, in a way that can be undone. */
  #indent() {
    const text = `${indented(this.#area.value)}\n`;
    if (!isJson(this.#area.value) || text === this.#area.value) return;
    this.#area.focus();
    this.#area.select();
    document.execCommand("insertText", false, text);
    this.#area.setSelectionRange(0, 0);
    this.#area.scrollTo(0, 0);
  }

  /** Takes note of what can be seen. */
  #look() {
    const { scrollTop: top, scrollLeft: left, clientWidth: width, clientHeight: height } = this.#area;
    this.#view = { top, left, width, height };
  }

  /** Takes note of what can be seen, and draws it. */
  #redraw() {
    this.#look();
    this.#draw();
  }

  /** Draws the lines that can be seen. What a line shows stays where it is the same as before. */
  #draw() {
    const { top, left, width, height } = this.#view;
    // (Nothing can be seen before the first frame.)
    if (height === 0) return;
    const first = Math.floor(top / LINE_HEIGHT);
    const last = Math.min(this.#starts.length, Math.ceil((top + height) / LINE_HEIGHT) + 1);
    const seen = { from: left, to: left + width };
    const lines = Array.from({ length: Math.max(last - first, 0) }, (_, index) => this.#lineAt(first + index, seen));
    const numbers = lines.map(({ isMarked }, index) => ({ number: first + index + 1, isMarked }));
    const down = first * LINE_HEIGHT - top;
    patch(this.#lines, lines, lineElement);
    this.#lines.style.transform = `translate(${-left}px, ${down}px)`;
    patch(this.#numbers, numbers, numberElement);
    this.#numbers.style.transform = `translateY(${down}px)`;
  }

  #measure() {
    const text = this.#text = this.#area.value;
    this.#starts = [0];
    for (let at = text.indexOf("\n"); at >= 0; at = text.indexOf("\n", at + 1)) this.#starts.push(at + 1);
  }

  #lineOf(offset) {
    let low = 0, high = this.#starts.length;
    while (high - low > 1) {
      const middle = (low + high) >> 1;
      if (this.#starts[middle] <= offset) low = middle;
      else high = middle;
    }
    return low;
  }

  #lineText(line) {
    const end = this.#starts[line + 1] ?? this.#text.length + 1;
    return this.#text.slice(this.#starts[line], end - 1);
  }

  #marksIn(line) {
    const begin = this.#starts[line], end = this.#starts[line + 1] ?? Infinity;
    return this.#marks.filter((it) => it.begin < end && it.end > begin);
  }

  /** What a line shows: coloured and underlined pieces, then the message. */
  #lineAt(line, seen) {
    const text = this.#lineText(line), begin = this.#starts[line];
    const marks = this.#marksIn(line);
    const own = [...marks, ...this.#selected ? [{ ...this.#selected, isSelected: true }] : []];
    const messages = marks.filter((it) => it.begin >= begin).map((it) => it.message);
    const message = messages.length > 0 ? this.#messageAt(messages, text.length, seen) : undefined;
    return { pieces: piecesOf(text, begin, own), message, isMarked: marks.length > 0 };
  }

  /** The message behind a line; where there is no room for it, below the line. */
  #messageAt(messages, length, seen) {
    const text = messages[0] + (messages.length > 1 ? ` (and ${messages.length - 1} more)` : "");
    const isBehind = (length + text.length + 4) * this.#columnWidth() <= seen.to;
    return isBehind ? { text } : { text: `↑ ${text}`, right: -seen.from };
  }

  #columnWidth() {
    columnWidth ??= widthOfColumn(this.#area);
    return columnWidth;
  }

  #describeCaret() {
    if (this.#view.height === 0) return;
    const offset = this.#area.selectionStart;
    const { line, column } = this.positionOf(offset);
    const mark = this.markAt(offset);
    const said = mark === undefined ? "" : `: ${mark.message}`;
    showText(this.#caret, `Line ${line}, column ${column}${said}`);
    this.#caret.classList.toggle("fault", mark !== undefined);
  }
}

/** The element of a line. */
function lineElement({ pieces, message }) {
  const parts = pieces.map(({ piece, classes }) =>
    classes === "" ? document.createTextNode(piece) : element("span", { class: classes }, piece));
  const line = element("div", { class: "line" }, ...parts);
  if (message === undefined) return line;
  const isBelow = message.right !== undefined;
  const shown = element("span", { class: isBelow ? "message below" : "message" }, message.text);
  if (isBelow) shown.style.right = `${message.right}px`;
  line.append(shown);
  return line;
}

/** The element of a line's number. */
function numberElement({ number, isMarked }) {
  return element("div", isMarked ? { class: "marked" } : {}, String(number));
}

/** Marks after a change of the text: those behind it move along, until there are new ones. */
export function movedMarks(marks, before, after) {
  if (marks.length === 0) return marks;
  const shorter = Math.min(before.length, after.length);
  const same = greatest(shorter, (length) => after.startsWith(before.slice(0, length)));
  const sameEnd = greatest(shorter - same, (length) => after.endsWith(before.slice(before.length - length)));
  const changedTo = before.length - sameEnd, longer = after.length - before.length;
  const moved = (offset) => offset <= same ? offset : Math.max(same, offset >= changedTo ? offset + longer : same);
  return marks.map((it) => ({ ...it, begin: moved(it.begin), end: moved(it.end) })).filter((it) => it.begin < it.end);
}

/** The greatest number up to `most` for which this holds, as it does for each smaller one. */
function greatest(most, holds) {
  let low = 0, high = most;
  while (low < high) {
    const middle = Math.ceil((low + high) / 2);
    if (holds(middle)) low = middle;
    else high = middle - 1;
  }
  return low;
}

/** The pieces of a line, each with its classes. */
function piecesOf(text, begin, marks) {
  const cuts = new Set([0, text.length]);
  const within = (offset) => Math.min(Math.max(offset - begin, 0), text.length);
  for (const it of marks) cuts.add(within(it.begin)).add(within(it.end));
  const tokens = text.length > LONGEST_COLOURED ? [] : tokensOf(text);
  for (const it of tokens) cuts.add(it.begin).add(it.end);
  const ends = [...cuts].sort((one, other) => one - other);
  return ends.slice(0, -1).map((from, index) => {
    const classes = tokens.filter((it) => it.begin <= from && from < it.end).map((it) => it.kind);
    for (const it of marks) {
      if (it.begin - begin <= from && from < it.end - begin) classes.push(it.isSelected ? "selected" : "underlined");
    }
    return { piece: text.slice(from, ends[index + 1]), classes: [...new Set(classes)].join(" ") };
  });
}

function tokensOf(text) {
  return [...text.matchAll(TOKEN)].map((found) => {
    const [, string, colon, number] = found;
    const kind = string === undefined ? number === undefined ? "word" : "number" : colon ? "name" : "string";
    return { begin: found.index, end: found.index + (string ?? found[0]).length, kind };
  });
}

let columnWidth;

function widthOfColumn(area) {
  const context = document.createElement("canvas").getContext("2d");
  const { fontSize, fontFamily } = getComputedStyle(area);
  context.font = `${fontSize} ${fontFamily}`;
  return context.measureText("0").width;
}

function isJson(text) {
  try {
    JSON.parse(text);
    return true;
  } catch {
    return false;
  }
}
