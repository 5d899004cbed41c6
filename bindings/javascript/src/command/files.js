/** The files that the arguments name, and those in folders. */
import { readdirSync, statSync } from "node:fs";
import { extname, join, sep } from "node:path";
import { SUFFIXES } from "./sources.js";

export const STDIN = "-";

/** The arguments are wrong; the message says what to do. */
export class Misuse extends Error {}

/** A file of a folder is a pipe, a socket or a device. */
export class NotRegular extends Error {}

/** Whether there is a folder of this name. What can't be looked at is none. */
export function isFolder(path) {
  return statusOf(path)?.isDirectory() ?? false;
}

/** Whether there is a regular file of this name. */
export function isFile(path) {
  return statusOf(path)?.isFile() ?? false;
}

function statusOf(path) {
  try {
    return statSync(path);
  } catch {
    return undefined;
  }
}

/** The suffixes of the files that are taken of a folder. */
function suffixesOf(kind, lines) {
  if (lines) return [".jsonl", ".ndjson"];
  return kind === undefined ? Object.values(SUFFIXES).flat() : SUFFIXES[kind];
}

/**
 * The files that arguments name, with those of each folder that are of a kind, by name: each with its `name`, or with
 * the `fault` that there is none of this name.
 *
 * Throws `Misuse` for an empty name, for a folder without any, and for standard input that is named twice.
 *
 * @param {readonly string[]} names @param {string} [kind] @param {boolean} [lines]
 * @param {string} [what] what a name is of
 */
export function filesOf(names, kind = undefined, lines = false, what = "an INSTANCE") {
  if (names.includes("")) throw new Misuse(`${what} has an empty name: is a variable of the shell empty?`);
  const count = names.filter((it) => it === STDIN).length;
  if (count > 1) throw new Misuse(`${STDIN} is named ${count} times: standard input can be read once`);
  const suffixes = suffixesOf(kind, lines);
  return names.flatMap((name) => name !== STDIN && isFolder(name) ? filesIn(name, suffixes) : [{ name }]);
}

/** The files in a folder at any depth, and each folder that can't be read. Links to folders aren't followed. */
function filesIn(folder, suffixes) {
  const found = [];
  collect(folder, suffixes, found);
  if (found.length === 0) {
    const before = suffixes.slice(0, -1).join(", ");
    const listed = `${before === "" ? "" : `${before} or `}${suffixes.at(-1)}`;
    throw new Misuse(`${folder} has no file ${listed}: name its files one by one`);
  }
  return found.map((file) => ({ file, parts: file.name.split(sep) }))
    .sort((a, b) => compareParts(a.parts, b.parts))
    .map(({ file }) => file);
}

function collect(folder, suffixes, found) {
  let entries;
  try {
    entries = readdirSync(folder, { withFileTypes: true });
  } catch (fault) {
    found.push({ name: folder, fault });
    return;
  }
  for (const entry of entries) {
    const name = join(folder, entry.name);
    if (entry.isDirectory()) {
      collect(name, suffixes, found);
    } else if (suffixes.includes(extname(entry.name).toLowerCase()) && !isFolder(name)) {
      found.push(inFolder(name));
    }
  }
}

function inFolder(name) {
  try {
    return statSync(name).isFile() ? { name } : { name, fault: new NotRegular("not a regular file") };
  } catch (fault) {
    return { name, fault };
  }
}

/** The order of paths, folder by folder. (That of UTF-8 is that of the characters.) */
export function compareParts(a, b) {
  const at = a.findIndex((part, index) => part !== b[index]);
  if (at < 0 || b[at] === undefined) return a.length - b.length;
  return Buffer.compare(Buffer.from(a[at]), Buffer.from(b[at]));
}
