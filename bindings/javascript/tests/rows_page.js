/** In a browser: every worked row that is a check, in every format, as rows.test.js has them. Posts what came of it. */
import { Refused, Schemas } from "/bindings/javascript/src/index.js";

const module = await WebAssembly.compileStreaming(fetch("/out/wasm/jschema.wasm"));

function bytesOf(text) {
  return Uint8Array.from(atob(text), (it) => it.charCodeAt(0));
}

/** The program's line for a refusal. */
function refusalLine({ subject, index, place, kind }) {
  const what = index === undefined ? subject : `${subject} ${index}`;
  return `refused: ${what}${place === undefined ? "" : ` at ${JSON.stringify(place)}`}: ${kind}\n`;
}

async function digest(text) {
  const bytes = new Uint8Array(await crypto.subtle.digest("SHA-256", new TextEncoder().encode(text)));
  return Array.from(bytes, (it) => it.toString(16).padStart(2, "0")).join("");
}

/** The status and the text of a check, or the line of a refusal. */
async function answer(schemas, { entry, instance }, format) {
  try {
    const { valid, output } = (await schemas).check(entry, bytesOf(instance), format);
    return [valid ? 0 : 1, output];
  } catch (error) {
    if (!(error instanceof Refused)) throw error;
    return [3, refusalLine(error)];
  }
}

const failed = [];
let passed = 0;
for (const line of (await (await fetch("/cases.json")).text()).split("\n").slice(0, -1)) {
  const asked = JSON.parse(line);
  const documents = asked.documents.map(([uri, text]) => [uri, bytesOf(text)]);
  const schemas = Schemas.create(documents, { module, upgrade: false });
  for (const [format, status, wanted] of asked.expected) {
    const [got, said] = await answer(schemas, asked, format);
    if (got === status && await digest(said) === wanted) passed += 1;
    else failed.push(`${asked.name}, ${format}: status ${got}: ${said.slice(0, 200)}`);
  }
  await schemas.then((it) => it.close(), () => undefined);
}
document.getElementById("said").textContent = `${passed} passed, ${failed.length} failed`;
await fetch("/result", { method: "POST", body: JSON.stringify({ passed, failed }) });
