/** The instances, read. Of each file no more is read than the validator takes, and one byte. */
import { LARGEST_TEXT } from "../limits.js";
import { Source } from "../sources.js";
import { STDIN } from "./files.js";
import { Reader, readWhole } from "./reader.js";
import { NotRead, sourceOf, suffixKind } from "./sources.js";

const LINE_FEED = 10, RETURN = 13, SPACES = new Set([32, 9, LINE_FEED, RETURN]);
const BLOCK = 1 << 16;

/**
 * The instances in files, read one after another: each with its file, the line at which it begins, and its source, or
 * with the `fault` that there is none. With `lines` each line is one; empty lines don't count. Without a kind, that of
 * each file is what its suffix says.
 */
export function* inputs(files, kind, lines) {
  for (const { name, fault } of files) {
    const file = name === STDIN ? "<stdin>" : name;
    const path = name === STDIN ? undefined : name;
    try {
      if (fault !== undefined) throw fault;
      if (lines) yield* linesOf(new Reader(path), file);
      else yield { file, line: 1, source: sourceOf(readWhole(path), kind ?? suffixKind(name) ?? "json") };
    } catch (error) {
      if (error !== fault && error.syscall === undefined && !(error instanceof NotRead)) throw error;
      yield { file, line: 1, source: new Source(new Uint8Array()), fault: error };
    }
  }
}

function* linesOf(reader, file) {
  try {
    let number = 0, next;
    while ((next = nextLine(reader)) !== undefined) {
      number += 1;
      if (!next.text.every((it) => SPACES.has(it))) {
        yield { file, line: number, source: new Source(next.text) };
      }
      // After a line that is too large nothing more is read of a device or a pipe: it may not end.
      if (!next.isWhole && !reader.isRegular) return;
      if (!next.isWhole) skipLine(reader);
    }
  } finally {
    reader.close();
  }
}

/** The next line without its end; of one that is too large, its beginning, which isn't whole. */
function nextLine(reader) {
  const line = reader.line(LARGEST_TEXT + 1);
  if (line.length === 0) return undefined;
  const last = line.at(-1);
  let isWhole = last === LINE_FEED || line.length <= LARGEST_TEXT;
  if (!isWhole && last === RETURN && reader.peek() === LINE_FEED) {
    reader.read(1);
    isWhole = true;
  }
  return { text: isWhole ? withoutEnd(line) : line, isWhole };
}

function withoutEnd(line) {
  let length = line.length;
  while (length > 0 && (line[length - 1] === LINE_FEED || line[length - 1] === RETURN)) length -= 1;
  return line.subarray(0, length);
}

/** Passes over the rest of a line. */
function skipLine(reader) {
  let rest;
  do {
    rest = reader.line(BLOCK);
  } while (rest.length > 0 && rest.at(-1) !== LINE_FEED);
}
