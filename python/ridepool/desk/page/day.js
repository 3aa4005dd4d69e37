// The day's totals, a chart of the waits plan by plan, and tables to take away.

import { button, byId, make } from "./make.js";
import { span } from "./words.js";

const SVG = "http://www.w3.org/2000/svg", WIDE = 340, HIGH = 120, MOST = 200;
const TABLES = { rides: "Save all rides (CSV)", batches: "Save all plans (CSV)" };
const LINES = { mean_wait: "mean wait", worst_wait: "worst wait" };

export class DayPanel {
  // `ask(path)` gives the desk's answer, or null; `save(path, name)` saves a table.
  constructor(ask, save) {
    Object.assign(this, { ask });
    byId("day-tables").append(...Object.entries(TABLES).map(([it, text]) => button(text, () => save(`${it}.csv`, `${it}.csv`))));
  }

  async show() {
    const [totals, batches] = await Promise.all([this.ask("totals"), this.ask(`batches?limit=${MOST}`)]);
    if (totals) {
      byId("day-totals").replaceChildren(...totalRows(totals));
      byId("day-waits").replaceChildren(make("h3", "Waits of those delivered"), waitTable(totals));
    }
    const drawn = (batches || []).filter(it => !it.overflow && it.mean_wait !== null).reverse();
    if (batches) byId("day-chart").replaceChildren(make("h3", "Waits plan by plan"), ...chart(drawn));
  }
}

function totalRows(totals) {
  const rows = {
    "Delivered": totals.delivered, "of these, shared a vehicle": totals.shared, "Expired": totals.expired, "Cancelled": totals.cancelled,
    "Promises lapsed": totals.lapsed, "Plans": totals.plans, "Vehicles used": totals.vehicles_used,
    "Driven with riders": span(totals.seconds_with_riders), "Between first and last stop without riders": span(totals.seconds_without_riders),
  };
  return Object.entries(rows).map(([name, value]) => make("tr", "", make("th", name), make("td", String(value))));
}

// Half of them waited so long at most, 90 % so long, and so on.
function waitTable(totals) {
  const names = { 50: "half", 90: "90 %", 95: "95 %", 99: "99 %", 100: "longest" }, shares = Object.keys(names).filter(it => it in totals.waits);
  const said = it => totals.waits[it] === null ? "–" : span(totals.waits[it]);
  return make("table", "", make("tr", "", ...shares.map(it => make("th", names[it]))), make("tr", "", ...shares.map(it => make("td", said(it)))));
}

function draw(tag, attributes, text = "") {
  const element = document.createElementNS(SVG, tag);
  for (const [name, value] of Object.entries(attributes)) element.setAttribute(name, value);
  element.textContent = text;
  return element;
}

// Two lines over the plans, the newest at the right, and what each of them is.
function chart(batches) {
  if (batches.length < 2) return [make("p", "Two plans with riders are needed for a picture.")];
  const most = Math.max(60, ...batches.map(it => it.worst_wait)), high = it => HIGH - HIGH * it / most, step = WIDE / (batches.length - 1);
  const line = name => batches.map((it, i) => `${(i * step).toFixed(1)},${high(it[name]).toFixed(1)}`).join(" ");
  const picture = draw("svg", { viewBox: `-44 -10 ${WIDE + 52} ${HIGH + 30}`, role: "img", "aria-label": "Mean and worst wait of each plan" });
  for (const it of [0, most / 2, most]) {
    picture.append(draw("line", { x1: 0, x2: WIDE, y1: high(it), y2: high(it), class: "grid" }));
    picture.append(draw("text", { x: -6, y: high(it) + 4, class: "scale", "text-anchor": "end" }, span(Math.round(it))));
  }
  picture.append(draw("text", { x: 0, y: HIGH + 16, class: "scale" }, `plan ${batches[0].batch}`));
  picture.append(draw("text", { x: WIDE, y: HIGH + 16, class: "scale", "text-anchor": "end" }, `plan ${batches[batches.length - 1].batch}`));
  for (const name of Object.keys(LINES)) picture.append(draw("polyline", { points: line(name), class: name }));
  const key = make("p", "", ...Object.entries(LINES).map(([name, text]) => Object.assign(make("span", text), { className: name })));
  key.className = "key";
  return [picture, key];
}
