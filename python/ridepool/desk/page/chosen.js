// The box of the rider or the vehicle that is chosen. It is built anew only where something else stands in it than before,
// and never while it is pressed; the times in it go on without that.

import { button, make } from "./make.js";
import { clockTime, due, isAhead, isBooked, isOpen, persons, stateWord } from "./words.js";

export class ChosenBox {
  // `desk` has now(), select(kind, number), send(method, path, body, done) and contact(ride); `drives` is whether drivers
  // are the desk's own.
  constructor(element, desk, drives) {
    Object.assign(this, { element, desk, drives, key: "", texts: [], pressed: false });
    element.addEventListener("pointerdown", () => { this.pressed = true; });
    for (const kind of ["pointerup", "pointercancel", "pointerleave"]) element.addEventListener(kind, () => { this.pressed = false; });
  }

  show(kind, item) {
    this.element.hidden = !item;
    if (!item) return;
    const now = this.desk.now(), key = JSON.stringify([kind, { ...item, place: null, late: null }, isOverdue(item, now), isBooked(item, now)]);
    if (this.key !== key && !this.pressed) this.build(key, kind, item);
    for (const [element, text] of this.texts) {
      const said = text();
      if (element.textContent !== said) element.textContent = said;
    }
  }

  build(key, kind, item) {
    const { element } = this, had = element.contains(document.activeElement) && document.activeElement.textContent;
    this.key = key;
    this.texts = [];
    element.replaceChildren(...(kind === "ride" ? this.rideParts(item) : this.vehicleParts(item)));
    if (had) [...element.querySelectorAll("button")].find(it => it.textContent === had)?.focus();
  }

  // A paragraph, or another element, whose text goes on with the time.
  live(tag, text) {
    const element = make(tag, text());
    this.texts.push([element, text]);
    return element;
  }

  heading(text) {
    return make("header", "", make("h2", text), button("Close", () => this.desk.select(null, null)));
  }

  rideParts(ride) {
    const { now, select, send, contact } = this.desk, who = ride.who ? `, ${ride.who}` : "";
    const state = stateWord(ride, now()), parts = [this.heading(`Rider ${ride.ride}${who}: ${state}${state === "left out" ? " of the last plan" : ""}`)];
    parts.push(make("p", `${persons(ride.persons)}, ${ride.from} → ${ride.to}, not before ${clockTime(ride.time)}.`));
    if (state === "booked") parts.push(this.live("p", () => `That is ${due(ride.time, now())}.`));
    if (ride.state === "promised") {
      const comes = () => `${ride.pickup_second < now() ? "is" : "comes"} ${due(ride.pickup_second, now())}`;
      parts.push(this.live("p", () => `Vehicle ${ride.vehicle} ${comes()}.`));
    }
    if (ride.state === "aboard") parts.push(make("p", `Aboard vehicle ${ride.vehicle} since ${clockTime(ride.pickup_second)}.`));
    if (isOpen(ride) && ride.drop_off_second !== null) parts.push(this.live("p", () => `Planned arrival ${due(ride.drop_off_second, now())}.`));
    const buttons = make("div");
    buttons.className = "buttons";
    if (isOpen(ride) && ride.vehicle !== null) buttons.append(button(`Show vehicle ${ride.vehicle}`, () => select("vehicle", ride.vehicle)));
    buttons.append(button("Telephone and note", () => contact(ride.ride)));
    if (isAhead(ride)) buttons.append(this.cancel(ride));
    return [...parts, buttons];
  }

  // The first press asks, the second cancels. A double click is one press.
  cancel(ride) {
    const element = button("Cancel this ride", event => {
      if (event.detail > 1) return null;
      if (element.dataset.asked) return this.desk.send("DELETE", `rides/${ride.ride}`, null, () => `Ride ${ride.ride} is cancelled.`);
      element.dataset.asked = "yes";
      element.textContent = "Really cancel it";
      element.className = "sure";
      return null;
    });
    return element;
  }

  vehicleParts(vehicle) {
    const { now } = this.desk, parts = [this.heading(`Vehicle ${vehicle.vehicle}: ${vehicle.persons} of ${vehicle.max_capacity} seats taken`)];
    parts.push(make("p", vehicle.out ? "Out of service: no plan uses it." : `At node ${vehicle.node} at ${clockTime(vehicle.second)}, as was last entered.`));
    const list = make("ol");
    for (const stop of vehicle.stops) {
      const text = `${stop.kind === "pick" ? "▲ pick up" : "▼ drop off"} rider ${stop.ride} at node ${stop.node}, `;
      list.append(this.live("li", () => text + (stop.second === null ? "no plan has the second" : due(stop.second, now()))));
    }
    if (vehicle.stops.length) parts.push(list);
    else if (!vehicle.out) parts.push(make("p", vehicle.move === null ? "No stops ahead." : `Drives toward node ${vehicle.move}, where a rider was left out.`));
    if (!this.drives) parts.push(this.vehicleButtons(vehicle));
    return parts;
  }

  // What can be entered of a vehicle: its next stop, that its last entry was a mistake, and a break.
  vehicleButtons(vehicle) {
    const { send } = this.desk, [next] = vehicle.stops, buttons = make("div"), path = `vehicles/${vehicle.vehicle}`;
    const back = it => `Vehicle ${vehicle.vehicle} is back at node ${it.node}.`;
    const inService = it => `Vehicle ${vehicle.vehicle} is in service from ${clockTime(it.from)} on.`;
    const moved = it => it.moved.length ? ` The next plan moves riders ${it.moved.join(", ")}.` : "";
    const out = it => `Vehicle ${vehicle.vehicle} is out of service.${moved(it)}`;
    buttons.className = "buttons";
    if (next) {
      const call = next.kind === "pick" ? "pickup" : "dropoff", done = next.kind === "pick" ? "got in" : "got out";
      buttons.append(button(`Rider ${next.ride} ${done}`, () => send("POST", `${path}/${call}`, { ride: next.ride }, () => `Rider ${next.ride} ${done}.`)));
    }
    buttons.append(button("The last entry was a mistake", () => send("POST", `${path}/mistake`, null, back)));
    if (vehicle.out) buttons.append(button("Into service again", () => send("DELETE", `${path}/break`, null, inService)));
    else buttons.append(button("Out of service", () => send("POST", `${path}/break`, null, out)));
    return buttons;
  }
}

// Whether what is next is overdue: its sentence is another one then.
function isOverdue(item, now) {
  const second = item.stops ? item.stops.length ? item.stops[0].second : null : item.pickup_second;
  return second !== null && second < now;
}
