// The desk's events for a page: by the worker that all tabs share, or where the browser has none, by a stream of its own.

import { follow } from "./stream.js";

const RETRY = 2000;

// `take` is told each event's kind and value, `lost` the status with which the stream was refused, undefined without one.
export class Events {
  constructor(take, lost) {
    Object.assign(this, { take, lost, turn: 0, port: null });
    if (!window.SharedWorker) return;
    const worker = new SharedWorker("shared.js", { type: "module", name: "desk" });
    this.port = worker.port;
    this.port.onmessage = ({ data }) => data.lost ? lost(data.status) : take(data.kind, data.value);
    worker.onerror = () => this.alone();
    window.addEventListener("pagehide", () => this.port && this.port.postMessage({ leave: true }));
    window.addEventListener("pageshow", event => event.persisted && this.begin(this.token));
  }

  // Begins with a token, or goes on with another.
  begin(token) {
    this.token = token;
    if (this.port) this.port.postMessage({ token });
    else this.run(++this.turn);
  }

  // Where the worker can't be had.
  alone() {
    if (!this.port) return;
    this.port = null;
    if (this.token !== undefined) this.begin(this.token);
  }

  async run(turn) {
    try {
      await follow(this.token, (kind, value) => turn === this.turn && this.take(kind, value));
    } catch (fault) {
      if (turn !== this.turn) return;
      this.lost(fault.status);
      setTimeout(() => turn === this.turn && this.run(turn), RETRY);
    }
  }
}
