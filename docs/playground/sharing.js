/** The whole state as the fragment of a link, which browsers send to nobody. */

// What the fragment begins with: the version of what follows.
const BEGIN = "#1.";

/** The fragment that holds a state. */
export async function fragmentOf(state) {
  const bytes = new TextEncoder().encode(JSON.stringify(state));
  return BEGIN + base64Url(await through(bytes, new CompressionStream("deflate-raw")));
}

/** The state that a fragment holds; undefined where there is none. Throws for one that can't be read. */
export async function stateOf(fragment) {
  if (fragment === "" || fragment === "#") return undefined;
  if (!fragment.startsWith(BEGIN)) throw new Error("the link isn't one of this page");
  const bytes = await through(bytesOf(fragment.slice(BEGIN.length)), new DecompressionStream("deflate-raw"));
  return checked(JSON.parse(new TextDecoder().decode(bytes)));
}

/** The state, if it has the form of one. */
function checked({ documents, selected, entry, instance, panel, format, isMerging }) {
  const areTexts = [entry, instance, panel, format].every((it) => typeof it === "string");
  const areDocuments = Array.isArray(documents) && documents.length > 0
    && documents.every((it) => typeof it?.uri === "string" && typeof it.text === "string");
  if (!areTexts || !areDocuments || !(selected in documents)) throw new Error("the link isn't whole");
  const pairs = documents.map(({ uri, text }) => ({ uri, text }));
  const chosen = { selected: Number(selected), panel, format, isMerging: isMerging === true };
  return { documents: pairs, entry, instance, ...chosen };
}

async function through(bytes, stream) {
  return new Uint8Array(await new Response(new Blob([bytes]).stream().pipeThrough(stream)).arrayBuffer());
}

function base64Url(bytes) {
  const text = Array.from(bytes, (it) => String.fromCharCode(it)).join("");
  return btoa(text).replaceAll("+", "-").replaceAll("/", "_").replaceAll("=", "");
}

function bytesOf(text) {
  return Uint8Array.from(atob(text.replaceAll("-", "+").replaceAll("_", "/")), (it) => it.charCodeAt(0));
}
