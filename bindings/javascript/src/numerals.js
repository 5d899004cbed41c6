/** Numbers as they are written, where a reader keeps that. */

/** A number that is read as its text. (No Number or bigint stands for it.) */
export class Numeral {
  /** @param {string} text */
  constructor(text) {
    this.text = text;
  }
}
