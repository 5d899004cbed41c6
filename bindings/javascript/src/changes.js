/** What keywords become in schemas that are rewritten. */

/** What a keyword of a schema, or a name in one, became. */
export class Change {
  /**
   * @param {readonly string[]} before its tokens before
   * @param {readonly string[]} now its tokens now
   * @param {string} [message] that of its errors, if it isn't the validator's
   */
  constructor(before, now, message = undefined) {
    this.before = before;
    this.now = now;
    this.message = message;
  }

  /** Whether the tokens are others now. */
  get isMoved() {
    return this.before.length !== this.now.length || this.before.some((it, index) => it !== this.now[index]);
  }
}
