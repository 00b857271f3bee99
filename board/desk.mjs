// The page's end of the worker: questions with their answers, progress, and stopping.

import { startWorker } from './assets.mjs';

/** The work was stopped by the person who asked for it. */
export class Stopped extends Error {}

export class Desk {
  constructor(module) {
    this.module = module;
    this.waiting = new Map();
    this.last = 0;
    this.start();
  }

  start() {
    this.worker = startWorker();
    this.worker.postMessage({ module: this.module });
    this.worker.onmessage = ({ data }) => this.hear(data);
    this.worker.onerror = (event) => this.endAll(new Error(event.message || 'the worker cannot start'));
  }

  hear({ id, progress, result, wrong }) {
    const asked = this.waiting.get(id);
    if (!asked) return;
    if (progress) return asked.tell(progress);
    this.waiting.delete(id);
    if (wrong === undefined) asked.resolve(result);
    else asked.reject(new Error(wrong));
  }

  /** Asks the worker; tell hears of its steps. */
  ask(question, tell = () => {}) {
    const id = ++this.last;
    return new Promise((resolve, reject) => {
      this.waiting.set(id, { resolve, reject, tell });
      this.worker.postMessage({ id, ...question });
    });
  }

  endAll(error) {
    for (const { reject } of this.waiting.values()) reject(error);
    this.waiting.clear();
  }

  /** Ends whatever is being worked out. */
  stop() {
    this.worker.terminate();
    this.start();
    this.endAll(new Stopped('stopped'));
  }
}
