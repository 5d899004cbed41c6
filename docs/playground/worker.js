/** The worker: the first message that it gets has the module, each later one a request. It says when it is ready. */
import { Engine } from "../../bindings/javascript/src/engine.js";
import { Checks } from "./checking.js";

/** @type {Checks} */
let checks;

globalThis.addEventListener("message", async ({ data }) => {
  if (data.module !== undefined) checks = new Checks(new Engine(data.module));
  else globalThis.postMessage({ number: data.number, answer: await checks.answer(data.request) });
});

globalThis.postMessage({ isReady: true });
