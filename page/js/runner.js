// Jobs for the proved program, one at a time, and the worker that does them.

import { MOST_INPUT } from "./limits.js";
import { server } from "./worker.js";

export const STOPPED = "stopped";

export class Runner {
  // `source` is the text of this script, which the worker runs too.
  constructor(module, source) {
    Object.assign(this, { module, source, jobs: new Map(), last: 0, turn: 0 });
    this.start();
  }

  // Starts a worker; one that is busy is ended, and its jobs with it.
  start() {
    if (this.worker) {
      // One that is ended may still tell of an error.
      this.worker.onerror = null;
      this.worker.onmessage = null;
      this.worker.terminate();
    }
    this.fail(STOPPED);
    this.isReady?.(); // what waits for it finds that it is stopped
    this.turn += 1;
    this.ready = new Promise((resolve) => {
      this.isReady = resolve;
    });
    this.isStarted = false;
    const { turn } = this;
    const hear = (message) => {
      if (turn === this.turn) this.hear(message);
    };
    try {
      this.url ??= URL.createObjectURL(new Blob([this.source], { type: "text/javascript" }));
      this.worker = new Worker(this.url);
      this.worker.onmessage = ({ data }) => hear(data);
      this.worker.onerror = (event) => (this.isStarted ? this.fail(event.message) : this.startHere(hear));
      this.worker.postMessage({ module: this.module });
    } catch {
      this.startHere(hear);
    }
  }

  // Where the browser starts no worker, the page itself does its work.
  startHere(hear) {
    const answer = server(hear);
    this.worker = { postMessage: (message) => setTimeout(() => answer(message)), terminate() {} };
    this.worker.postMessage({ module: this.module });
  }

  fail(words) {
    for (const { reject } of this.jobs.values()) reject(new Error(words));
    this.jobs.clear();
  }

  hear({ ready, job, told, error, outcome }) {
    if (ready) {
      this.isStarted = true;
      this.isReady();
      return;
    }
    const waiting = this.jobs.get(job);
    if (error !== undefined) {
      if (job === undefined) this.fail(error);
      else {
        this.jobs.delete(job);
        waiting?.reject(new Error(error));
      }
    } else if (told !== undefined) waiting?.told(told);
    else {
      this.jobs.delete(job);
      waiting?.resolve(outcome);
    }
  }

  // Opens a file: a name, a Blob, and the command that it is for, if that is known.
  open(file) {
    return this.send({ file }, () => {}, []);
  }

  // Calls the program; `told` hears its answer, and how far the text has been read. Of what is given the worker has a
  // copy, of no more than what is enough for the program to refuse it.
  call({ command, words, trace, judged }, told) {
    const [own, other] = [trace, judged].map(({ bytes }) => bytes.slice(0, MOST_INPUT + 1));
    const task = { command, words, trace: own, judged: other, count: trace.count };
    return this.send({ task }, told, [own.buffer, other.buffer]);
  }

  async send(message, told, buffers) {
    const { turn } = this;
    await this.ready;
    if (turn !== this.turn) throw new Error(STOPPED);
    this.last += 1;
    const job = this.last;
    return new Promise((resolve, reject) => {
      this.jobs.set(job, { resolve, reject, told });
      this.worker.postMessage({ job, ...message }, buffers);
    });
  }
}
