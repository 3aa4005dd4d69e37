// Shortest ways over the streets that the desk has computed. Those that came are kept.

const MOST_KEPT = 20000, MOST_ASKED = 100, PAUSE = 20, AGAIN = 2000;

export class KnownWays {
  // `ask(path)` gives the desk's answer, or null; `came()` is told when new ways are there.
  constructor(ask, came) {
    Object.assign(this, { ask, came, kept: new Map(), wanted: new Set(), timer: null });
  }

  // The nodes of a shortest way, both ends included; just the ends where there is none; null where it hasn't come yet.
  way(from, to) {
    if (from === to) return [from];
    const pair = `${from}-${to}`, found = this.kept.get(pair);
    if (found) return found.way.slice(found.at);
    this.wanted.add(pair);
    if (!this.timer) this.timer = setTimeout(() => this.fetch(), PAUSE);
    return null;
  }

  // Asks for what is wanted; what is left of it is wanted again by whoever still draws it.
  async fetch() {
    const pairs = [...this.wanted].slice(0, MOST_ASKED);
    this.wanted.clear();
    const found = await this.ask(`ways?pairs=${pairs.join(",")}`);
    if (!found) {
      this.timer = setTimeout(() => { this.timer = null; }, AGAIN);
      return;
    }
    found.ways.forEach((way, i) => this.keep(way || pairs[i].split("-").map(Number)));
    this.timer = null;
    this.came();
  }

  // What is left of a shortest way from each node on it is a shortest way, too.
  keep(way) {
    if (this.kept.size > MOST_KEPT) this.kept.clear();
    const goal = way[way.length - 1];
    way.slice(0, -1).forEach((node, at) => this.kept.set(`${node}-${goal}`, { way, at }));
  }
}
