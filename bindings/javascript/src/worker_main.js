/** What runs in a worker: schemas that are asked by messages. */
import { Documents } from "./documents.js";
import { Engine } from "./engine.js";
import { Refused } from "./errors.js";
import { Schemas } from "./schemas.js";

/** @type {Schemas | undefined} */
let schemas;

const CALLS = {
  create({ module, given, limits, assumed }) {
    schemas = new Schemas(new Engine(module), new Documents(given, assumed), limits);
  },
  places() {
    return schemas.places();
  },
  check({ entry, text, format }) {
    return schemas.check(entry, text, format);
  },
};

/** The answer to a message. */
function answerTo(message) {
  try {
    return { answer: CALLS[message.call](message) };
  } catch (error) {
    const { name, message: said } = error;
    if (!(error instanceof Refused)) return { fault: { name, message: said } };
    const { subject, kind, place, index, isUpgraded } = error;
    return { fault: { name, message: said, subject, kind, place, index, isUpgraded } };
  }
}

if (typeof globalThis.postMessage === "function") {
  globalThis.addEventListener("message", ({ data }) => globalThis.postMessage(answerTo(data)));
} else {
  const { parentPort } = await import("node:worker_threads");
  parentPort.on("message", (message) => parentPort.postMessage(answerTo(message)));
}
