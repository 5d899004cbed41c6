/** The WebAssembly module: what is compiled once, and its instances with their memory. */
import { OutOfMemory, Refused, Stopped } from "./errors.js";
import { DONE, FAILED, FORMATS, INVALID, KINDS, REFUSED, SUBJECTS } from "./interface.js";

export { FORMATS };

// A handle, and behind it the number that jschema_entry writes.
const HANDLE = 16, NUMBER = 8;
// What jschema_refusal writes: the kind and the subject in 4 bytes each, the document and the length of the place in 8.
const REFUSAL = 24;
// What jschema_positions reads and writes: the end of a pointer, and a position with seven fields of 8 bytes.
const END = 8, POSITION = 56;
// The lower half of JSCHEMA_NOWHERE: no offset in the memory is so large.
const NOWHERE = 0xffffffff;

// How much of an output is copied without asking for its length first, and how much is kept between calls.
const ROOM = 4096, KEPT_ROOM = 1 << 20;

const NUMBERS = new Map(FORMATS.map((format, number) => [format, number]));

const encoder = new TextEncoder();
const decoder = new TextDecoder("utf-8", { fatal: true, ignoreBOM: true });

/** @param {string} text @returns {Uint8Array} */
export function encoded(text) {
  return encoder.encode(text);
}

/** A compiled module with the instance that is in use. A new one takes the place of one that has stopped. */
export class Engine {
  #module;
  #instance;

  /** @param {WebAssembly.Module} module */
  constructor(module) {
    this.#module = module;
  }

  /** What another thread needs to make an engine of its own. */
  get module() {
    return this.#module;
  }

  /** The instance in use. */
  get instance() {
    if (this.#instance === undefined || this.#instance.hasStopped) this.#instance = new Instance(this.#module);
    return this.#instance;
  }

  /** As `Instance.positions`. */
  positions(text, pointers) {
    return this.instance.positions(text, pointers);
  }
}

/** A place in bytes: from 0 the `offset` of one; from 1 its `line`, and its `column` in characters. */
/** @typedef {{ offset: number, line: number, column: number }} BytePosition */
/** A value of a JSON text: where it begins, the byte after it, and where the name of the member that it is begins. */
/** @typedef {{ value: BytePosition, end: number, name: BytePosition | undefined }} Located */

/** An instance of the module. After a trap, or at the end of its stack, it has stopped: data may be half written. */
export class Instance {
  #calls;
  // Where inputs and outputs are put, for one call at a time; and its bytes, which are none once the memory has grown.
  #at = 0;
  #room = 0;
  #roomBytes = new Uint8Array();
  hasStopped = false;

  /** @param {WebAssembly.Module} module */
  constructor(module) {
    this.#calls = new WebAssembly.Instance(module, {}).exports;
  }

  /** How many bytes the memory has. It never shrinks. */
  get memoryBytes() {
    return this.#calls.memory.buffer.byteLength;
  }

  /** The version of the library that the module is made of. */
  get version() {
    const number = this.#call("jschema_version");
    return [number / 10_000, number / 100 % 100, number % 100].map(Math.floor).join(".");
  }

  /** Makes a handle, and begins the documents of it. */
  newHandle() {
    const handle = this.#allocated(HANDLE + NUMBER);
    this.#bytes(handle, HANDLE + NUMBER).fill(0);
    if (this.#call("jschema_new", handle) !== DONE) {
      this.#call("release", handle);
      throw new OutOfMemory();
    }
    return handle;
  }

  /** Frees a handle. On an instance that has stopped this does nothing: its memory goes as a whole. */
  free(handle) {
    if (this.hasStopped) return;
    this.#call("jschema_free", handle);
    this.#call("release", handle);
  }

  /** Sets the limits on the result of each check. */
  limit(handle, { applications, nodes }) {
    this.#expectDone(handle, this.#call("jschema_limit", handle, applications, nodes));
  }

  /** @param {number} handle @param {string} uri @param {Uint8Array} document */
  add(handle, uri, document) {
    const name = encoded(uri);
    const at = this.#reserved(name.length + document.length);
    this.#bytes(at, name.length).set(name);
    this.#bytes(at + name.length, document.length).set(document);
    this.#expectDone(handle, this.#call("jschema_add", handle, at, name.length, at + name.length, document.length));
  }

  /** Upgrades the documents from older drafts. One that names no dialect is of that with this URI. */
  upgrade(handle, dialect) {
    const length = this.#put(dialect);
    this.#expectDone(handle, this.#call("jschema_upgrade", handle, this.#at, length));
  }

  /** The text of a document as it is now, by its number. */
  document(handle, number) {
    this.#expectDone(handle, this.#call("jschema_document", handle, number));
    return this.#text(handle);
  }

  finish(handle) {
    this.#expectDone(handle, this.#call("jschema_finish", handle));
  }

  /** The absolute location of each schema. */
  places(handle) {
    this.#expectDone(handle, this.#call("jschema_places", handle));
    return this.#text(handle).split("\n").slice(0, -1);
  }

  /** The number of the schema that a URI names. */
  entry(handle, uri) {
    const name = encoded(uri);
    const at = this.#reserved(name.length);
    this.#bytes(at, name.length).set(name);
    this.#expectDone(handle, this.#call("jschema_entry", handle, at, name.length, handle + HANDLE));
    return new DataView(this.#calls.memory.buffer).getUint32(handle + HANDLE, true);
  }

  /** Whether an instance is valid. The output is the text of this call. */
  verdict(handle, entry, instance, format) {
    const length = this.#put(instance);
    const status = this.#call("jschema_check", handle, entry, this.#at, length, NUMBERS.get(format));
    if (status > INVALID) this.#expectDone(handle, status);
    return status === DONE;
  }

  /** The verdict, and the output in a format. */
  check(handle, entry, instance, format) {
    const valid = this.verdict(handle, entry, instance, format);
    return { valid, output: this.#text(handle) };
  }

  /**
   * Where the values at JSON Pointers stand in a text, which is read once for all of them; undefined for one that isn't
   * there, and in place of the list if the text isn't JSON.
   *
   * @param {Uint8Array} text @param {readonly string[]} pointers @returns {(Located | undefined)[] | undefined}
   */
  positions(text, pointers) {
    const count = pointers.length, names = pointers.map(encoded);
    const length = names.reduce((sum, it) => sum + it.length, 0);
    const at = this.#reserved(count * (POSITION + END) + length + text.length);
    const ends = at + count * POSITION, joined = ends + count * END, begin = joined + length;
    const words = new DataView(this.#calls.memory.buffer);
    let end = 0;
    for (const [index, name] of names.entries()) {
      this.#bytes(joined + end, name.length).set(name);
      end += name.length;
      words.setBigUint64(ends + index * END, BigInt(end), true);
    }
    this.#bytes(begin, text.length).set(text);
    const status = this.#call("jschema_positions", begin, text.length, joined, length, ends, count, at, count);
    if (status === REFUSED) return undefined;
    this.#expectDone(undefined, status);
    const found = new DataView(this.#calls.memory.buffer);
    return pointers.map((_, index) => locatedAt(found, at + index * POSITION));
  }

  /** A call of the module. Whatever it throws, the instance has stopped then. */
  #call(name, ...words) {
    if (this.hasStopped) throw new Stopped("the instance of the module has stopped");
    try {
      return this.#calls[name](...words) >>> 0;
    } catch (error) {
      this.hasStopped = true;
      throw new Stopped(`the module stopped in ${name}: ${error.message}`, { cause: error });
    }
  }

  /** The bytes at a place, until the memory grows: it gets another buffer then. */
  #bytes(at, length) {
    return new Uint8Array(this.#calls.memory.buffer, at, length);
  }

  #allocated(length) {
    const at = this.#call("allocate", length);
    if (at === 0) throw new OutOfMemory();
    return at;
  }

  /** Room for inputs and outputs. What was there is lost. */
  #reserved(length) {
    if (this.#room < length || this.#room > KEPT_ROOM && length <= KEPT_ROOM) {
      if (this.#room > 0) this.#call("release", this.#at);
      this.#room = 0;
      this.#roomBytes = new Uint8Array();
      const room = Math.max(length, ROOM);
      this.#at = this.#allocated(room);
      this.#room = room;
    }
    return this.#at;
  }

  /** Puts an instance into the room, and returns its length in bytes. */
  #put(instance) {
    if (typeof instance === "string" && instance.length <= KEPT_ROOM) {
      this.#reserved(instance.length * 3);
      if (this.#roomBytes.length < this.#room) this.#roomBytes = this.#bytes(this.#at, this.#room);
      return encoder.encodeInto(instance, this.#roomBytes).written;
    }
    const bytes = typeof instance === "string" ? encoded(instance) : instance;
    this.#bytes(this.#reserved(bytes.length), bytes.length).set(bytes);
    return bytes.length;
  }

  /** The text of the last call. */
  #text(handle) {
    if (this.#room === 0) this.#reserved(ROOM);
    const length = this.#call("jschema_text", handle, this.#at, this.#room);
    if (length > this.#room) {
      this.#reserved(length);
      this.#call("jschema_text", handle, this.#at, length);
    }
    return decoder.decode(this.#bytes(this.#at, length));
  }

  /** Throws what a status other than DONE says. */
  #expectDone(handle, status) {
    if (status === DONE) return;
    if (status === FAILED) throw new OutOfMemory();
    if (status === REFUSED) throw this.#refusal(handle);
    throw new TypeError("the call has no meaning here");
  }

  /** What the last call refused. */
  #refusal(handle) {
    for (let needed = ROOM - REFUSAL; ;) {
      const at = this.#reserved(REFUSAL + needed), room = this.#room - REFUSAL;
      const status = this.#call("jschema_refusal", handle, at, at + 4, at + 8, at + REFUSAL, room, at + 16);
      if (status !== DONE) throw new Error(`the module doesn't say what it refused: status ${status}`);
      const numbers = new DataView(this.#calls.memory.buffer, at, REFUSAL);
      const [kind, subject, index, length] = [0, 4, 8, 16].map((it) => numbers.getUint32(it, true));
      if (length > room) {
        needed = length;
        continue;
      }
      const { name, isPlaced } = SUBJECTS[subject];
      const place = isPlaced ? decoder.decode(this.#bytes(at + REFUSAL, length)) : undefined;
      return new Refused(name, KINDS[kind], place, name === "document" ? index : undefined);
    }
  }
}

/** A position that the module wrote; undefined where there is none. */
function locatedAt(words, at) {
  const [offset, line, column, end, ...name] = [0, 1, 2, 3, 4, 5, 6].map((it) => words.getUint32(at + it * 8, true));
  if (offset === NOWHERE) return undefined;
  const [nameOffset, nameLine, nameColumn] = name;
  return { value: { offset, line, column }, end,
    name: nameOffset === NOWHERE ? undefined : { offset: nameOffset, line: nameLine, column: nameColumn } };
}

/** @type {Promise<Engine> | undefined} */
let shared;

/** The engine that is used where none is given: loaded once. */
export function sharedEngine() {
  shared ??= load().catch((error) => {
    shared = undefined;
    throw error;
  });
  return shared;
}

/** An engine of a module: its bytes, a response, or what is compiled or loaded already; by default the package's. */
export async function load(source = undefined) {
  const given = await (source ?? packaged());
  if (given instanceof Engine) return given;
  if (given instanceof WebAssembly.Module) return new Engine(given);
  const bytes = typeof Response !== "undefined" && given instanceof Response ? await given.arrayBuffer() : given;
  return new Engine(await WebAssembly.compile(bytes));
}

/** The module of the package; in the repository, the one that was built there. */
async function packaged() {
  const url = new URL("../jschema.wasm", import.meta.url);
  if (url.protocol !== "file:") {
    const response = await fetch(url);
    if (!response.ok) throw new Error(`${url}: ${response.status} ${response.statusText}`);
    return response;
  }
  const { readFile } = await import("node:fs/promises");
  try {
    return await readFile(url);
  } catch (error) {
    if (error.code !== "ENOENT") throw error;
    return readFile(new URL("../../../out/wasm/jschema.wasm", import.meta.url));
  }
}
