/** Standard output and standard error, written at once. */
import { writeSync } from "node:fs";
import { getSystemErrorMap } from "node:util";

/** The descriptors of the two. */
export const STDOUT = 1, STDERR = 2;

const encoder = new TextEncoder();

/** Writes a text to a descriptor, all of it. */
function write(descriptor, text) {
  const bytes = encoder.encode(text);
  for (let at = 0; at < bytes.length;) {
    try {
      at += writeSync(descriptor, bytes, at);
    } catch (error) {
      // A pipe that doesn't block, and is full: it is read in a moment.
      if (error.code !== "EAGAIN") throw error;
    }
  }
}

export function writeOutput(text) {
  write(STDOUT, text);
}

export function writeError(text) {
  write(STDERR, text);
}

// Where the words of Node aren't those of C.
const WORDS = {
  EBUSY: "Device or resource busy",
  EIO: "Input/output error",
  EISDIR: "Is a directory",
  ELOOP: "Too many levels of symbolic links",
  ENAMETOOLONG: "File name too long",
  ENFILE: "Too many open files in system",
  ENOMEM: "Cannot allocate memory",
};

/** What the system says of an error, as C does. */
export function reason(error) {
  const [name, said] = getSystemErrorMap().get(error.errno) ?? [];
  return WORDS[name] ?? (said ? said[0].toUpperCase() + said.slice(1) : error.message);
}
