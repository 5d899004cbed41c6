/**
 * Schema documents that others refer to, found on this disk: in folders, and beside the document that names them.
 *
 * Nothing is fetched from a network.
 */
import { readdirSync, realpathSync } from "node:fs";
import { dirname, join, posix, resolve, sep } from "node:path";
import { pathToFileURL } from "node:url";
import { LATEST } from "../dialects.js";
import { LARGEST_TEXT } from "../limits.js";
import { Document } from "../resources.js";
import { documentOf, haveOneHost, isRelative, joined, pathOf, unquoted } from "../uris.js";
import { compareParts, isFile } from "./files.js";
import { readWhole } from "./reader.js";
import { NotRead, sourceOf, suffixKind } from "./sources.js";

// (A zero byte or a lone surrogate is left to the validator.)
const ABSOLUTE = /^[A-Za-z][A-Za-z0-9+.-]*:[^#\0\ud800-\udfff]*#?$/u;
// What Node escapes in a path, and the URL standard doesn't: [ ] ^ | ~ (`^` is left to the validator).
const ESCAPED = /%(?:5B|5D|5E|7C|7E)/gi;

/** A schema document of a file, and the absolute URI to register it under. */
export class SchemaFile {
  #document;
  #isWalked = false;

  /**
   * @param {string} path
   * @param {string} uri empty for that of its identifier, or else of the file
   * @param {import("../sources.js").Source} source
   * @param {number} assumed the dialect that is assumed if it names none
   * @param {string} [name] the file's name, where `path` is what it is shown as
   */
  constructor(path, uri, source, assumed, name = path) {
    this.path = path;
    this.source = source;
    this.assumed = assumed;
    this.uri = uri || fileUrl(name);
    const own = uri ? undefined : this.document?.id;
    if (own === undefined || !ABSOLUTE.test(own)) return;
    this.uri = own;
    this.#isWalked = false;
  }

  /** The schemas of the file; undefined if it isn't JSON, which the validator will say. */
  get document() {
    if (!this.#isWalked) {
      this.#isWalked = true;
      this.#document = walked(this);
    }
    return this.#document;
  }
}

function walked({ uri, source, assumed }) {
  if (source.json.length > LARGEST_TEXT) return undefined;
  try {
    return new Document(uri, source.value, assumed);
  } catch (error) {
    // (The last is for schemas that nest too deep: the stack is exceeded.)
    if ([SyntaxError, TypeError, RangeError].some((it) => error instanceof it)) return undefined;
    throw error;
  }
}

/** The URL of a file, as the URL standard writes it, so that others can refer to it by its name. */
export function fileUrl(path) {
  return pathToFileURL(resolve(path)).href.replace(ESCAPED, decodeURIComponent);
}

/**
 * The document of a file, and the dialect that is assumed if it names none. Without a URI its identifier counts, else
 * the file's URL. Throws what reading does, and `NotRead`.
 */
export function schemaFile(path, { uri, kind = suffixKind(path) ?? "json", assumed = LATEST }) {
  return new SchemaFile(path, uri, sourceOf(readWhole(path), kind), assumed);
}

/** Where documents are looked for: in folders, and beside those that refer to them. */
export class Lookup {
  #folders;
  #isBeside;
  #assumed;
  #byUri;

  /** @param {readonly string[]} folders @param {boolean} isBeside @param {number} assumed */
  constructor(folders, isBeside, assumed) {
    this.#folders = folders;
    this.#isBeside = isBeside;
    this.#assumed = assumed;
  }

  /** The files that these refer to, and those in turn, as far as they are found: each with what refers to it. */
  taken(files) {
    const found = [];
    const paths = new Set(files.map((it) => realPath(it.path)));
    const waiting = files.filter((it) => it.document !== undefined);
    const known = new Set(waiting.flatMap((it) => [...it.document.targets.keys()]));
    // (The list grows on the way.)
    for (const file of waiting) {
      for (const { base, reference } of referencesOf(file.document)) {
        const wanted = documentOf(joined(base, reference));
        const it = known.has(wanted) ? undefined : this.#find(file, base, reference, wanted);
        if (it === undefined || paths.has(realPath(it.path))) continue;
        paths.add(realPath(it.path));
        found.push({ file: it, referring: file.path });
        if (it.document === undefined) continue;
        for (const uri of [wanted, ...it.document.targets.keys()]) known.add(uri);
        waiting.push(it);
      }
    }
    return found;
  }

  #find(file, base, reference, wanted) {
    this.#byUri ??= filesByUri(this.#folders, this.#assumed);
    const inFolder = this.#byUri.get(wanted);
    if (inFolder !== undefined || !this.#isBeside || !isRelative(reference)) return inFolder;
    const path = pathsBeside(file, base, reference).find(isFile);
    return path === undefined ? undefined : schemaFile(path, { uri: wanted, assumed: this.#assumed });
  }
}

/** The references from the schemas of a document to others, each with the base of its schema. */
function referencesOf(document) {
  return document.schemas.flatMap(({ base, references }) =>
    references.filter(([, it]) => !it.startsWith("#")).map(([, reference]) => ({ base, reference })));
}

/** The files of folders by the URIs of the resources in them. What can't be read isn't one that is meant. */
function filesByUri(folders, assumed) {
  const found = new Map();
  for (const path of folders.flatMap(schemasIn)) {
    for (const [uri, file] of resourcesOf(path, assumed)) {
      if (!found.has(uri)) found.set(uri, file);
    }
  }
  return found;
}

function resourcesOf(path, assumed) {
  try {
    const file = schemaFile(path, { assumed });
    return [...file.document?.targets.keys() ?? []].filter((it) => !it.includes("#")).map((uri) => [uri, file]);
  } catch (error) {
    if (error instanceof NotRead || error.syscall !== undefined) return [];
    throw error;
  }
}

/** The files of a folder that may be schemas, at any depth, by their names. Links to folders aren't followed. */
function schemasIn(folder) {
  const found = [];
  const waiting = [folder];
  for (const within of waiting) {
    for (const entry of readdirSync(within, { withFileTypes: true })) {
      const name = join(within, entry.name);
      if (entry.isDirectory()) waiting.push(name);
      else if (suffixKind(name) !== undefined && isFile(name)) found.push(name);
    }
  }
  return found.sort((one, other) => compareParts(one.split(sep), other.split(sep)));
}

/**
 * Where the file of a relative reference may be: from the file, as the reference leads from the document; for a schema
 * with a base of its own also as it leads from there.
 */
function pathsBeside(file, base, reference) {
  const folder = dirname(file.path);
  const below = unquoted(pathOf(reference));
  if (below.includes("\0")) return [];
  const root = file.document.schemas[0].base;
  const paths = [join(folder, below)];
  if (base !== root && haveOneHost(base, root)) {
    const away = posix.relative(posix.dirname(pathOf(root)), posix.dirname(pathOf(base)));
    paths.unshift(join(folder, unquoted(away), below));
  }
  return paths.map((it) => it.replace(/(.)\/$/, "$1"));
}

function realPath(path) {
  try {
    return realpathSync(path);
  } catch {
    return resolve(path);
  }
}
