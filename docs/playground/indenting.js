/** JSON texts with a line for each member and item. */

/** The text (or the beginning of one), of which only the space between tokens changes. */
export function indented(text) {
  let depth = 0;
  const tokens = text.matchAll(/"(?:[^"\\]|\\.)*"?|[[\]{},:]|[^\s"[\]{},:]+/g);
  const pieces = [];
  const feed = () => pieces.push("\n", "  ".repeat(depth));
  let before = "";
  for (const [token] of tokens) {
    const closes = token === "]" || token === "}";
    if (closes) depth -= 1;
    const isEmpty = closes && (before === "[" || before === "{");
    if (!isEmpty && (closes || before === "[" || before === "{" || before === ",")) feed();
    pieces.push(token === ":" ? ": " : token);
    if (token === "[" || token === "{") depth += 1;
    before = token;
  }
  return pieces.join("");
}
