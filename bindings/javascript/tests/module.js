/** The module under test, and what is made of it for tests. */
import { existsSync } from "node:fs";
import { fileURLToPath } from "node:url";

// Sections of a module, and the instruction that a constant begins with.
const MEMORY = 5, GLOBAL = 6, I32_CONST = 0x41, I64_CONST = 0x42;

/** Its path: as the package finds it. */
export function modulePath() {
  const paths = ["../jschema.wasm", "../../../out/wasm/jschema.wasm"];
  return paths.map((it) => fileURLToPath(new URL(it, import.meta.url))).find(existsSync);
}

/** The module with a memory of at most this many pages: its section has a minimum alone. */
export function withMaximum(bytes, pages) {
  const { begin, content, end } = sectionOf(bytes, MEMORY);
  const [count, afterCount] = number(bytes, content);
  const [least] = number(bytes, afterCount + 1);
  const section = [MEMORY, 0, count, 1, ...leb(least), ...leb(pages)];
  section[1] = section.length - 2;
  return Buffer.concat([bytes.subarray(0, begin), Buffer.from(section), bytes.subarray(end)]);
}

/** The module with a stack of its own of this many bytes: its first global is where the stack begins. */
export function withStack(bytes, size) {
  const changed = Buffer.from(bytes);
  const [, first] = number(bytes, sectionOf(bytes, GLOBAL).content);
  const at = first + 3;
  if (bytes[at - 1] !== I32_CONST && bytes[at - 1] !== I64_CONST) throw new Error("the first global isn't a constant");
  const [before, after] = number(bytes, at);
  if (before !== 1 << 20) throw new Error(`the first global is ${before}`);
  for (let byte = at; byte < after; byte++, size >>= 7) changed[byte] = size & 127 | (byte < after - 1 ? 128 : 0);
  return changed;
}

/** The flags of a module's memory: 1 with a maximum, 2 where threads share it, 4 with addresses of 64 bits. */
export function memoryFlags(bytes) {
  const [, afterCount] = number(bytes, sectionOf(bytes, MEMORY).content);
  return bytes[afterCount];
}

/** A section: where it begins, its content, and its end. */
function sectionOf(bytes, wanted) {
  for (let begin = 8; begin < bytes.length;) {
    const [length, content] = number(bytes, begin + 1);
    const end = content + length;
    if (bytes[begin] === wanted) return { begin, content, end };
    begin = end;
  }
  throw new Error(`no section ${wanted}`);
}

/** The number at an index (LEB128), and the index after it. */
function number(bytes, at) {
  let value = 0, shift = 0, byte;
  do {
    byte = bytes[at++];
    value += (byte & 127) * 2 ** shift;
    shift += 7;
  } while (byte & 128);
  return [value, at];
}

function leb(value) {
  return value < 128 ? [value] : [value & 127 | 128, ...leb(value >> 7)];
}
