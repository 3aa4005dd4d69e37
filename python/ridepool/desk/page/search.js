// The search over rides, vehicles and places.

import { byId, make } from "./make.js";

const PAUSE = 250;

export class Search {
  // `ask(path)` gives the desk's answer, or null; `open(kind, number)` shows what was found; `state(ride)` is what a found
  // ride's state is called.
  constructor(ask, open, state) {
    Object.assign(this, { ask, open, state, timer: null, turn: 0 });
    byId("search").addEventListener("input", () => {
      clearTimeout(this.timer);
      this.timer = setTimeout(() => this.run(), PAUSE);
    });
    byId("search").addEventListener("keydown", event => this.key(event));
    byId("found").addEventListener("click", event => this.take(event.target.closest("li")));
    byId("found").addEventListener("keydown", event => event.key === "Enter" && this.take(document.activeElement));
  }

  key(event) {
    if (event.key === "Enter") {
      event.preventDefault();
      this.take(byId("found").firstElementChild);
    }
    if (event.key === "Escape") this.clear();
  }

  clear() {
    byId("search").value = "";
    byId("found").replaceChildren();
  }

  async run() {
    const turn = ++this.turn, text = byId("search").value.trim();
    const found = text ? await this.ask(`search?q=${encodeURIComponent(text)}`) : { rides: [], vehicles: [], places: [] };
    if (turn !== this.turn || !found) return;
    const rows = [
      ...found.rides.map(it => ["ride", it.ride, `Rider ${it.ride}${it.who ? `, ${it.who}` : ""}: ${this.state(it)}`]),
      ...found.vehicles.map(it => ["vehicle", it, `Vehicle ${it}`]),
      ...found.places.map(it => ["place", it.node, it.name === `node ${it.node}` ? it.name : `${it.name}, node ${it.node}`]),
    ];
    byId("found").replaceChildren(...(rows.length || !text ? rows.map(row => this.row(...row)) : [make("p", "Nothing was found.")]));
  }

  row(kind, number, text) {
    const element = make("li", text);
    Object.assign(element.dataset, { kind, number });
    element.tabIndex = 0;
    return element;
  }

  take(row) {
    if (!row || !row.dataset.kind) return;
    const { kind, number } = row.dataset;
    this.clear();
    this.open(kind, Number(number));
  }
}
