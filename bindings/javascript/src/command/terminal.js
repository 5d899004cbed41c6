/** Colours and a progress bar, where there is a terminal. */
import { isatty } from "node:tty";
import { STDERR, writeError } from "./writing.js";

const CODES = { bold: 1, dim: 2, red: 31, yellow: 33, blue: 34 };
const WIDTH = 30;
// The bar is for more instances than this, and is drawn ten times a second.
const FEW = 20, PAUSE = 100;

/** Whether a descriptor is a terminal that understands control sequences. */
function isTerminal(descriptor) {
  return isatty(descriptor) && (process.env.TERM ?? "dumb") !== "dumb";
}

/** Whether to write colours to a descriptor: to a terminal, unless NO_COLOR is set (https://no-color.org). */
export function hasColours(descriptor) {
  return isTerminal(descriptor) && !process.env.NO_COLOR;
}

/** A text in a style, or as it is without colours. */
export function painted(text, style, colours) {
  return colours ? `\x1b[${CODES[style]}m${text}\x1b[0m` : text;
}

/** A bar on standard error; without a known total, a count. */
export class Progress {
  #total;
  #isShown;
  #isDrawn = false;
  #next = 0;

  constructor(total) {
    this.#total = total;
    this.#isShown = isTerminal(STDERR) && (total === undefined || total > FEW);
  }

  /** Draws how many are done. */
  show(done) {
    if (!this.#isShown || performance.now() < this.#next) return;
    this.#next = performance.now() + PAUSE;
    this.#isDrawn = true;
    writeError(`\r${this.#text(done)}\x1b[K`);
  }

  /** Makes room for a line of text. */
  clear() {
    if (!this.#isDrawn) return;
    this.#isDrawn = false;
    this.#next = 0;
    writeError("\r\x1b[K");
  }

  #text(done) {
    const count = done.toLocaleString("en-US");
    if (this.#total === undefined) return `${count} checked`;
    const filled = Math.floor(WIDTH * done / this.#total);
    return `[${"#".repeat(filled)}${".".repeat(WIDTH - filled)}] ${count} of ${this.#total.toLocaleString("en-US")}`;
  }
}
