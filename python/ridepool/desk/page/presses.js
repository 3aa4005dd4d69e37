// What was pressed, kept until the desk has answered it. On a bad line each press is sent again, in order, under the same
// key, so that the desk does it once.

const RETRY = 3000, LATER = [408, 429, 500, 502, 503, 504];

export class Presses {
  // `send(press)` gives {status, answer}; `told(press, status, answer)` hears each answer, `changed()` each change.
  constructor(name, send, told, changed) {
    Object.assign(this, { name, send, told, changed, sending: false, timer: null });
    this.kept = read(name);
    window.addEventListener("online", () => this.flush());
  }

  add(press) {
    const bytes = crypto.getRandomValues(new Uint8Array(16));
    const key = [...bytes].map(it => it.toString(16).padStart(2, "0")).join("");
    this.kept.push({ ...press, key });
    this.keep();
    this.flush();
  }

  keep() {
    localStorage.setItem(this.name, JSON.stringify(this.kept));
    this.changed();
  }

  // Whether a press about this waits for its answer.
  waits(about) {
    return this.kept.some(it => it.about === about);
  }

  async flush() {
    if (this.sending) return;
    this.sending = true;
    clearTimeout(this.timer);
    while (this.kept.length && await this.sendFirst());
    this.sending = false;
    if (this.kept.length) this.timer = setTimeout(() => this.flush(), RETRY);
  }

  // Sends the first. Gives whether it was answered for good.
  async sendFirst() {
    const [press] = this.kept;
    let status, answer;
    try {
      ({ status, answer } = await this.send(press));
    } catch {
      return false;
    }
    if (LATER.includes(status) || status === 401) return false;
    this.kept.shift();
    this.told(press, status, answer);
    this.keep();
    return true;
  }
}

function read(name) {
  try {
    return JSON.parse(localStorage.getItem(name)) || [];
  } catch {
    return [];
  }
}
