/** What a refusal means, where the refused text or the limits tell more than the kind. */
import { beyond } from "./limits.js";
import { steps } from "./locations.js";

const MARK = "a byte order mark; a JSON text is UTF-8 without one";
const SCHEME = /^[A-Za-z][A-Za-z0-9+.-]*:/;

/**
 * Makes a refusal say more.
 *
 * @param {import("./errors.js").Refused} refused
 * @param {string | Uint8Array} text that of the document or the instance
 * @param {string} uri the document's, or the entry
 * @param {{ applications: number, nodes: number }} [limits] those of a check
 */
export function explain(refused, text, uri, limits = undefined) {
  if (refused.kind === "NotJson") {
    refused.meaning = encodingFault(text) ?? refused.meaning;
  } else if (refused.kind === "TooLarge" && limits !== undefined) {
    refused.meaning = beyond(limits);
  } else if (refused.kind === "Unresolved") {
    const wanted = refused.place === undefined ? uri : referenceAt(text, refused.place, uri);
    if (wanted !== undefined) refused.meaning = `no schema has the URI ${wanted}; give its document too`;
  } else if (refused.kind === "BadReference" && refused.place?.endsWith("/$recursiveRef")) {
    refused.meaning = "a $recursiveRef of 2019-09 is `#`";
  }
  return refused;
}

/** What is wrong with the encoding of a text, if that shows at its beginning. */
function encodingFault(text) {
  if (typeof text === "string") return text.startsWith("\ufeff") ? `begins with ${MARK}` : undefined;
  const [first, second, third] = text;
  if (first === 0xef && second === 0xbb && third === 0xbf) return `begins with ${MARK}`;
  // A JSON text begins with an ASCII character, so with UTF-16 and UTF-32 one of its first bytes is zero.
  const isWide = first === 0xff && second === 0xfe || first === 0xfe && second === 0xff || first === 0 || second === 0;
  return isWide ? "is UTF-16 or UTF-32; a JSON text is UTF-8" : undefined;
}

/** The URI that a reference in a document names, which is joined with each `$id` above it. */
function referenceAt(text, place, base) {
  try {
    let value = JSON.parse(typeof text === "string" ? text : new TextDecoder().decode(text));
    for (const token of steps(place)) {
      if (!Array.isArray(value) && typeof value.$id === "string") base = joined(base, value.$id);
      value = Object.hasOwn(value, token) ? value[token] : undefined;
    }
    return typeof value === "string" ? joined(base, value) : undefined;
  } catch {
    return undefined;
  }
}

function joined(base, reference) {
  if (reference === "" || reference.startsWith("#")) return base.split("#", 1)[0] + reference;
  return SCHEME.test(reference) ? reference : new URL(reference, base).href;
}
