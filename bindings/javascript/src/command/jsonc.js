/** JSON with comments, as editors' settings have it: `//` and a pair of signs, and a comma before a closing bracket. */

// What may have the signs of a comment in it, and comments. (A string without its end is left to the validator.)
const PART = /"[^"\\]*(?:\\.[^"\\]*)*"|\/\/[^\n\r]*|\/\*.*?\*\//gs;
const LAST_COMMA = /"[^"\\]*(?:\\.[^"\\]*)*"|,(?=[ \t\r\n]*[\]}])/gs;
const NOT_SPACE = /[^\n\r\t ]/g;
const SPACES = new Set(" \t\r\n"), BEFORE_A_VALUE = new Set("[{,:");
const MARK = "\xef\xbb\xbf";

/** The JSON text of a text with comments, as bytes: blanks stand for comments and last commas. */
export function readComments(data) {
  // (A character for each byte, so that each keeps its place.)
  const given = Buffer.from(data.buffer, data.byteOffset, data.length).toString("latin1");
  const text = given.startsWith(MARK) ? `   ${given.slice(3)}` : given;
  const plain = text.replace(PART, (part) => part.startsWith('"') ? part : part.replace(NOT_SPACE, " "));
  return Buffer.from(plain.replace(LAST_COMMA, withoutComma), "latin1");
}

/** A blank for a comma that follows a value; other commas are left to the validator. */
function withoutComma(part, start, text) {
  if (part.startsWith('"')) return part;
  let before = start - 1;
  while (before >= 0 && SPACES.has(text[before])) before -= 1;
  return before < 0 || BEFORE_A_VALUE.has(text[before]) ? "," : " ";
}
