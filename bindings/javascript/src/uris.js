/** URI references (RFC 3986), as the validator resolves and writes them. */
import { pointer } from "./locations.js";

// The scheme, the authority, the path, the query with its `?`, and the fragment with its `#`.
const PARTS = /^(?:([A-Za-z][A-Za-z0-9+.-]*):)?(?:\/\/([^/?#]*))?([^?#]*)(\?[^#]*)?(#.*)?$/s;
// What the URL standard doesn't leave as it is. (`%` it does: what is escaped stays so.)
const ESCAPED = /[^A-Za-z0-9!$&'()*+,;=:@[\]|/?%~\-._#^]/gu;
// What the validator escapes in a fragment.
const ESCAPED_IN_FRAGMENT = /[^A-Za-z0-9!$&'()*+,;=:@/?~\-._]/gu;
const WITH_HOST = new Set(["http", "https", "ws", "wss", "ftp"]);

const encoder = new TextEncoder();
const decoder = new TextDecoder("utf-8", { ignoreBOM: true });

/** A reference, resolved against a base URI. */
export function joined(base, reference) {
  const found = parts(reference);
  if (found.scheme !== undefined) return made({ ...found, path: withoutDots(found.path) });
  const above = parts(base);
  let { authority, path, query } = found;
  if (authority === undefined) {
    authority = above.authority;
    if (path === "") {
      path = above.path;
      query ??= above.query;
    } else if (!path.startsWith("/")) {
      const folder = above.path.slice(0, Math.max(above.path.lastIndexOf("/"), 0));
      const isBelow = folder !== "" || above.authority !== undefined || above.path.includes("/");
      path = isBelow ? `${folder}/${path}` : path;
    }
  }
  return made({ scheme: above.scheme, authority, path: withoutDots(path), query, fragment: found.fragment });
}

/** Whether a reference names a document by a path from where it stands. */
export function isRelative(reference) {
  const { scheme, authority, path } = parts(reference);
  return scheme === undefined && authority === undefined && path !== "" && !path.startsWith("/");
}

/** The path of a reference. */
export function pathOf(reference) {
  return parts(reference).path;
}

/** Whether two URIs have the same scheme and authority. */
export function haveOneHost(one, other) {
  const [first, second] = [parts(one), parts(other)];
  return first.scheme?.toLowerCase() === second.scheme?.toLowerCase() && first.authority === second.authority;
}

/** A URI without its fragment. */
export function withoutFragment(uri) {
  return uri.split("#", 1)[0];
}

/** The fragment of a URI, without the `#`. */
export function fragmentOf(uri) {
  return uri.slice(withoutFragment(uri).length + 1);
}

/** A URI without its fragment, in the form in which the validator writes it, so that two can be compared. */
export function documentOf(uri) {
  const { scheme, authority, path, query } = parts(withoutFragment(uri));
  const lower = scheme?.toLowerCase();
  const whole = quoted(WITH_HOST.has(lower) && path === "" ? "/" : path, ESCAPED);
  const rest = query && quoted(query, ESCAPED);
  return made({ scheme: lower, authority: authority?.toLowerCase(), path: whole, query: rest });
}

/** What a part of a URI escapes. What isn't UTF-8 then has signs for that. */
export function unquoted(text) {
  return text.replace(/(?:%[0-9A-Fa-f]{2})+/g, (run) =>
    decoder.decode(Uint8Array.from(run.slice(1).split("%"), (it) => parseInt(it, 16))));
}

/** A URI with the JSON Pointer of these tokens as its fragment, in the form in which the validator writes it. */
export function withPointer(uri, tokens) {
  return `${withoutFragment(uri)}#${quoted(pointer(tokens), ESCAPED_IN_FRAGMENT)}`;
}

function quoted(text, escaped) {
  const written = (byte) => `%${byte.toString(16).toUpperCase().padStart(2, "0")}`;
  return text.replace(escaped, (it) => Array.from(encoder.encode(it), written).join(""));
}

function parts(reference) {
  const [, scheme, authority, path, query, fragment] = PARTS.exec(reference);
  return { scheme, authority, path, query, fragment };
}

function made({ scheme, authority, path, query = "", fragment = "" }) {
  const begin = scheme === undefined ? "" : `${scheme}:`;
  const middle = authority === undefined ? "" : `//${authority}`;
  return `${begin}${middle}${path}${query}${fragment}`;
}

/** A path without `.` and `..`. */
function withoutDots(path) {
  if (!path.startsWith("/")) return path;
  const kept = [];
  const segments = path.split("/").slice(1);
  for (const segment of segments) {
    if (segment === "..") kept.pop();
    else if (segment !== ".") kept.push(segment);
  }
  if ([".", ".."].includes(segments.at(-1))) kept.push("");
  return `/${kept.join("/")}`;
}
