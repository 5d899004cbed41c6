/** Lines and columns of the bytes of a text. */

const LINE_FEED = 10, BLOCK = 4096;

/** The lines of a text, found when they are first asked for. */
export class Lines {
  #data;
  #starts = [0];
  // How many characters begin before each block.
  #characters = [0];

  /** @param {Uint8Array} data */
  constructor(data) {
    this.#data = data;
    for (let at = data.indexOf(LINE_FEED); at >= 0; at = data.indexOf(LINE_FEED, at + 1)) this.#starts.push(at + 1);
    for (let at = 0; at < data.length; at += BLOCK) {
      this.#characters.push(this.#characters.at(-1) + this.#count(at, Math.min(at + BLOCK, data.length)));
    }
  }

  /** The line and the column of a byte. */
  at(offset) {
    let low = 0, high = this.#starts.length;
    while (high - low > 1) {
      const middle = (low + high) >> 1;
      if (this.#starts[middle] <= offset) low = middle;
      else high = middle;
    }
    return { offset, line: low + 1, column: this.#before(offset) - this.#before(this.#starts[low]) + 1 };
  }

  /** How many characters begin before a byte. */
  #before(offset) {
    const block = Math.floor(offset / BLOCK);
    return this.#characters[block] + this.#count(block * BLOCK, offset);
  }

  #count(begin, end) {
    let count = 0;
    for (let at = begin; at < end; at++) count += (this.#data[at] & 0xc0) === 0x80 ? 0 : 1;
    return count;
  }
}
