/** Checks off the main thread, with a time limit. */
import { Documents } from "./documents.js";
import { sharedEngine, load } from "./engine.js";
import { OutOfMemory, Refused, Stopped } from "./errors.js";
import { limitsOf } from "./limits.js";
import { explain } from "./meanings.js";
import { parse } from "./outputs.js";
import { Text } from "./positions.js";
import { textOf } from "./values.js";

const SECONDS = 10;

/** Schemas in a worker. Each call waits for those before it; at its time limit the worker is ended and begun anew. */
export class WorkerSchemas {
  /** @type {Documents | undefined} */
  #documents;
  // Compiles nothing anew, and finds positions here, where they are asked for.
  #engine;
  #limits;
  #milliseconds;
  #worker;
  #last = Promise.resolve();

  /** Use `WorkerSchemas.create`. */
  constructor(documents, engine, limits, seconds) {
    this.#documents = documents;
    this.#engine = engine;
    this.#limits = limits;
    this.#milliseconds = seconds * 1000;
  }

  /** As `Schemas.create`. `seconds` limits each later call. */
  static async create(documents, { seconds = SECONDS, module, ...options } = {}) {
    const limits = limitsOf(options);
    const engine = await (module === undefined ? sharedEngine() : load(module));
    const made = new WorkerSchemas(await Documents.create(documents, options), engine, limits, seconds);
    await made.#inTurn(() => made.#begin());
    return made;
  }

  /** The absolute location of every schema. */
  async places() {
    const documents = this.#opened, found = await this.#ask({ call: "places" });
    return found.map((it) => documents.writtenSchema(it)).filter((it) => it !== undefined);
  }

  async isValid(entry, instance) {
    return (await this.#check(entry, this.#textOf(instance), "flag")).valid;
  }

  async errors(entry, instance) {
    const text = this.#textOf(instance), documents = this.#opened;
    const { valid, output } = await this.#check(entry, text, "basic");
    return valid ? [] : documents.errors(output, new Text(text, this.#engine));
  }

  async output(entry, instance, format = "basic") {
    return parse(await this.outputText(entry, instance, format));
  }

  async outputText(entry, instance, format = "basic") {
    return (await this.#check(entry, this.#textOf(instance), format)).output;
  }

  async check(entry, instance, format = "basic") {
    return this.#check(entry, this.#textOf(instance), format);
  }

  async positions(instance) {
    return new Text(this.#textOf(instance), this.#engine);
  }

  async originalLocation(absoluteKeywordLocation) {
    return this.#opened.location(absoluteKeywordLocation);
  }

  async writtenSchema(absoluteKeywordLocation) {
    return this.#opened.writtenSchema(absoluteKeywordLocation);
  }

  /** Ends the worker. What is waiting is answered with `Stopped`. */
  close() {
    this.#documents = undefined;
    this.#worker?.end();
    this.#worker = undefined;
  }

  async #check(entry, text, format) {
    try {
      return await this.#judged(entry, text, format);
    } catch (error) {
      if (!(error instanceof Refused)) throw error;
      const about = error.subject === "entry" ? error : error.of(text, undefined, this.#engine);
      throw explain(about, text, entry, this.#limits);
    }
  }

  /** The answer; of an instance that is refused, with its numbers rewritten. */
  async #judged(entry, text, format) {
    const documents = this.#opened;
    const message = { call: "check", entry: documents.entry(entry), text, format };
    try {
      return await this.#ask(message);
    } catch (error) {
      const rewritten = error instanceof Refused ? documents.instance(text) : text;
      if (rewritten === text) throw error;
      return this.#ask({ ...message, text: rewritten });
    }
  }

  #textOf(instance) {
    return textOf(instance, this.#documents?.hasExactNumbers);
  }

  /** The documents, until they are closed. */
  get #opened() {
    if (this.#documents === undefined) throw new TypeError("these schemas are closed");
    return this.#documents;
  }

  #ask(message) {
    return this.#inTurn(async () => {
      if (this.#opened && this.#worker === undefined) await this.#begin();
      return this.#limited(message);
    });
  }

  /** After what was asked before. */
  #inTurn(action) {
    const result = this.#last.then(action);
    this.#last = result.catch(() => undefined);
    return result;
  }

  /** Starts a worker, and gives it the documents. */
  async #begin() {
    const worker = this.#worker = await Conversation.begin();
    try {
      const { given, assumed } = this.#documents;
      await worker.ask({ call: "create", module: this.#engine.module, given, limits: this.#limits, assumed });
    } catch (error) {
      worker.end();
      this.#worker = undefined;
      throw error instanceof Refused && this.#documents ? this.#documents.refusal(error, this.#engine) : error;
    }
  }

  async #limited(message) {
    const worker = this.#worker;
    const timer = setTimeout(() => worker.end(`no answer after ${this.#milliseconds / 1000} s`), this.#milliseconds);
    try {
      return await worker.ask(message);
    } finally {
      clearTimeout(timer);
      if (worker.hasEnded && this.#worker === worker) this.#worker = undefined;
    }
  }
}

/** A worker, which is asked one thing at a time. */
class Conversation {
  #worker;
  #waiting;
  hasEnded = false;

  constructor(worker) {
    this.#worker = worker;
    const listen = (type, listener) => worker.on ? worker.on(type, listener) : worker.addEventListener(type, listener);
    listen("message", (it) => this.#answered(worker.on ? it : it.data));
    listen("error", (it) => this.end(it.message));
    worker.unref?.();
  }

  static async begin() {
    if (typeof Worker !== "undefined") {
      return new Conversation(new Worker(new URL("./worker_main.js", import.meta.url), { type: "module" }));
    }
    const { Worker: Thread } = await import("node:worker_threads");
    return new Conversation(new Thread(new URL("./worker_main.js", import.meta.url)));
  }

  ask(message) {
    this.#worker.ref?.();
    return new Promise((resolve, reject) => {
      this.#waiting = { resolve, reject };
      this.#worker.postMessage(message);
    });
  }

  /** Ends the worker, and says why to who is waiting. */
  end(why = "the worker was ended") {
    this.hasEnded = true;
    this.#worker.terminate();
    this.#waiting?.reject(new Stopped(why));
    this.#waiting = undefined;
  }

  #answered({ answer, fault }) {
    this.#worker.unref?.();
    const waiting = this.#waiting;
    this.#waiting = undefined;
    if (fault === undefined) waiting?.resolve(answer);
    else waiting?.reject(thrown(fault));
  }
}

const THROWN = { OutOfMemory, RangeError, Stopped, TypeError };

/** The error that a worker describes. */
function thrown({ name, message, subject, kind, place, index, isUpgraded }) {
  if (name === "Refused") return new Refused(subject, kind, place, index, isUpgraded);
  return new (THROWN[name] ?? Error)(message);
}
