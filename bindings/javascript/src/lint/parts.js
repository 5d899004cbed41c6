/** Where a part of a string stands in a text. */

// A unit of a string in JSON as it is written.
const UNIT = /\\u[0-9a-fA-F]{4}|\\.|[^\\]/gs;

const decoder = new TextDecoder("utf-8", { ignoreBOM: true }), encoder = new TextEncoder();

/**
 * Where the units from an index of a string to another stand. The string itself stands in a range.
 *
 * @param {import("../sources.js").Source} source @param {import("../sources.js").Positions} positions
 * @param {import("../sources.js").Range} whole @param {readonly [number, number]} part
 * @returns {import("../sources.js").Range}
 */
export function partOf(source, positions, whole, part) {
  const text = decoder.decode(source.data.subarray(whole.begin.offset, whole.end.offset));
  // (After the quote.)
  const starts = Array.from(text.slice(1).matchAll(UNIT), ({ index }) => index + 1);
  const [begin, end] = part.map((it) =>
    positions.at(whole.begin.offset + encoder.encode(text.slice(0, starts[it])).length));
  return { begin, end };
}
