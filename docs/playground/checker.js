/** Requests to the worker: one at a time, and of those that wait only the newest. */

// After this time without an answer the worker is ended, and another one started. It begins once the worker has loaded.
const MOST_MILLISECONDS = 5000;

export class Checker {
  #start;
  #module;
  #tell;
  #milliseconds;
  #worker;
  #isReady = false;
  #timer;
  #number = 0;
  #running;
  #waiting;

  /**
   * `start` starts a worker, which says when it is ready, and gets the module; `tell` is given each answer with its
   * request.
   *
   * @param {{ start: () => Worker, module: WebAssembly.Module, tell: Function, milliseconds?: number }} how
   */
  constructor({ start, module, tell, milliseconds = MOST_MILLISECONDS }) {
    this.#start = start;
    this.#module = module;
    this.#tell = tell;
    this.#milliseconds = milliseconds;
    this.#begin();
  }

  /** Asks. The answer comes unless there is a newer request before this one was begun. */
  ask(request) {
    this.#waiting = request;
    if (this.#running === undefined) this.#next();
  }

  #begin() {
    this.#isReady = false;
    this.#worker = this.#start();
    this.#worker.addEventListener("message", ({ data }) => {
      if (data.isReady) this.#ready();
      else this.#answered(data);
    });
    this.#worker.postMessage({ module: this.#module });
  }

  #ready() {
    this.#isReady = true;
    this.#limit();
  }

  /** Begins the time for the answer that is waited for. */
  #limit() {
    clearTimeout(this.#timer);
    if (this.#isReady && this.#running !== undefined) {
      this.#timer = setTimeout(() => this.#stop(), this.#milliseconds);
    }
  }

  #next() {
    this.#running = this.#waiting;
    this.#waiting = undefined;
    this.#limit();
    if (this.#running === undefined) return;
    this.#number += 1;
    this.#worker.postMessage({ number: this.#number, request: this.#running });
  }

  #answered({ number, answer }) {
    if (number !== this.#number || this.#running === undefined) return;
    const request = this.#running;
    this.#next();
    this.#tell(answer, request);
  }

  #stop() {
    this.#worker.terminate();
    this.#begin();
    const message = `no answer after ${this.#milliseconds / 1000} s`;
    this.#answered({ number: this.#number, answer: { verdict: "none", fault: { name: "Stopped", message } } });
  }
}
