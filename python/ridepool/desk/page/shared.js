// A worker that all tabs of the desk share, so that they need one stream of events together: a browser opens six
// connections to a place at most. Each new tab begins the stream anew, since that begins with the whole state.

import { follow } from "./stream.js";

const RETRY = 2000;
const streams = new Map();  // by token

class Shared {
  constructor(token) {
    this.token = token;
    this.ports = new Set();
    this.turn = 0;
  }

  tell(message) {
    for (const port of this.ports) port.postMessage(message);
  }

  begin() {
    if (this.stop) this.stop.abort();
    this.stop = new AbortController();
    this.run(++this.turn, this.stop.signal);
  }

  async run(turn, stopped) {
    try {
      await follow(this.token, (kind, value) => turn === this.turn && this.tell({ kind, value }), stopped);
    } catch (fault) {
      if (turn !== this.turn || !this.ports.size) return;
      this.tell({ lost: true, status: fault.status });
      setTimeout(() => turn === this.turn && this.ports.size && this.run(turn, stopped), RETRY);
    }
  }

  leave(port) {
    this.ports.delete(port);
    if (!this.ports.size && this.stop) this.stop.abort();
  }
}

self.onconnect = event => {
  const [port] = event.ports;
  let stream = null;
  port.onmessage = ({ data }) => {
    if (stream) stream.leave(port);
    stream = null;
    if (data.leave) return;
    if (!streams.has(data.token)) streams.set(data.token, new Shared(data.token));
    stream = streams.get(data.token);
    stream.ports.add(port);
    stream.begin();
  };
};
