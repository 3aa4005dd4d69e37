// The desk's page: follows the stream of events, shows map and lists, sends commands.

import { DeskMap } from "./map.js";
import { KeyedList, makeTabs } from "./lists.js";
import { Alarm } from "./alarm.js";
import { ChosenBox } from "./chosen.js";
import { DayPanel } from "./day.js";
import { Events } from "./events.js";
import { byId, make, write } from "./make.js";
import { KnownWays } from "./known_ways.js";
import { planRow } from "./plans.js";
import { Search } from "./search.js";
import { clockTime, clockTitle, due, isAhead, isBooked, isOpen, lateness, rideWords, setDay, stateWord, troubleKey, troubleWords, vehicleWords,
  waitWords, wantedSecond } from "./words.js";

const LOST_AFTER = 8000, SHOWN_BATCHES = 20, SHOWN_OVER = 100, KEPT_OVER = 200;
const rides = new Map(), vehicles = new Map();
let batches = [], network = null, map = null, chosen = null, panel = "rides", dirty = false;
let clock = { second: 0, speed: 0, at: 0 }, health = { status: "connecting", why: "" }, heard = 0, solvingSince = null;
let delivered = 0, over = [], troubles = { count: 0, late: 0, expired: 0, lapsed: 0, trouble: [] };
let stream = null, refused = false, beginning = null, box = null, day = null;
const alarm = new Alarm(), title = document.title;

// Seconds of the book now.
function now() {
  return clock.second + (performance.now() - clock.at) / 1000 * clock.speed;
}

// --- events ---------------------------------------------------------------------------------------------------

function takeHealth(value) {
  health = value;
  clock = { second: value.second, speed: value.status === "ended" ? 0 : value.speed, at: performance.now() };
  takeOpen(value.open_batch, value.solving_seconds || 0);
}

function takeOpen(batch, seconds = 0) {
  if (batch !== null && solvingSince === null) solvingSince = performance.now() - seconds * 1000;
  if (batch === null) solvingSince = null;
  health.open_batch = batch;
}

function takeRide(ride) {
  const before = rides.get(ride.ride);
  if (ride.state === "delivered" && (!before || before.state !== "delivered")) delivered++;
  rides.set(ride.ride, ride);
  if (isOpen(ride) || (before && !isOpen(before))) return;
  over.push(ride.ride);
  if (over.length > KEPT_OVER) rides.delete(over.shift());
}

function takeVehicle(vehicle) {
  vehicles.set(vehicle.vehicle, vehicle);
  map.placeVehicle(vehicle);
}

// Takes the list of trouble. What wasn't there before is heard, where the sound is on; what was there at first isn't.
function takeTroubles(value, first) {
  const before = new Set(troubles.trouble.map(troubleKey));
  troubles = value;
  if (!first && value.trouble.some(it => !before.has(troubleKey(it)))) alarm.ring();
}

const events = {
  state(value) {
    rides.clear();
    vehicles.clear();
    over = [];
    takeHealth(value);
    value.rides.forEach(takeRide);
    delivered = value.delivered;
    takeTroubles(value.troubles, true);
    value.vehicles.forEach(takeVehicle);
    batches = value.last_batches.slice().reverse();
    drawBatches();
  },
  reply(value) {
    value.rides.forEach(takeRide);
    value.vehicles.forEach(takeVehicle);
    takeOpen(value.open_batch);
  },
  plan(value) {
    value.rides.forEach(takeRide);
    value.vehicles.forEach(takeVehicle);
    batches = [value.batch, ...batches].slice(0, SHOWN_BATCHES);
    takeOpen(null);
    drawBatches();
  },
  trouble(value) {
    takeTroubles(value, false);
  },
  places(value) {
    for (const [number, ...place] of value) {
      const vehicle = vehicles.get(number);
      if (!vehicle) continue;
      vehicle.place = place;
      map.placeVehicle(vehicle);
    }
  },
  ride: takeRide,
  vehicle: takeVehicle,
  status: takeHealth,
  clock: takeHealth,
};

function listen() {
  const take = (kind, value) => {
    heard = performance.now();
    refused = false;
    if (events[kind]) events[kind](value);
    change();
  };
  const lost = status => {
    heard = -Infinity;
    refused = status === 401 || status === 403;
    drawBar();
  };
  stream = new Events(take, lost);
  stream.begin(token());
}

// --- drawing --------------------------------------------------------------------------------------------------

function change() {
  if (dirty) return;
  dirty = true;
  setTimeout(() => {
    dirty = false;
    draw();
  }, 200);
}

function draw() {
  drawBar();
  drawList();
  drawChosen();
  map.change();
}

function barState() {
  if (refused) return ["lost", "A token is needed: write it into the field below"];
  const ended = health.status === "ended" ? `The dispatcher has ended: ${health.why}` : "";
  if (performance.now() - heard > LOST_AFTER) return ["lost", ended ? `${ended}. Connection lost` : "Connection lost. Trying again"];
  if (ended) return ["ended", ended];
  if (health.status === "hangs") return ["hangs", `Hangs: ${health.why}`];
  if (health.status === "starting") return ["starting", "The dispatcher is starting again"];
  if (health.open_batch !== null) {
    return ["solving", `Solving plan ${health.open_batch}`, `${((performance.now() - solvingSince) / 1000).toFixed(1)} s`];
  }
  const last = batches[0];
  return ["ready", last ? `Ready, plan ${last.batch}` : "Ready"];
}

function drawBar() {
  const [state, text, seconds = ""] = barState(), bar = byId("bar");
  if (bar.className !== state) bar.className = state;
  write("status-text", text);
  write("status-seconds", seconds);
  write("clock", clockTime(now()) + (clock.speed > 1 ? ` ×${clock.speed}` : ""));
  const counts = { booked: 0, waiting: 0, promised: 0, aboard: 0 };
  let out = 0;
  for (const ride of rides.values()) {
    if (isBooked(ride, now())) counts.booked++;
    else if (ride.state in counts) counts[ride.state]++;
    if (ride.left_out && isAhead(ride)) out++;
  }
  for (const [name, count] of Object.entries(counts)) write("count-" + name, count);
  write("count-delivered", delivered);
  write("count-left-out", out);
  for (const name of ["late", "expired", "lapsed"]) {
    write("count-" + name, troubles[name]);
    byId("count-" + name).parentElement.classList.toggle("some", troubles[name] > 0);
  }
  drawTitle(state === "lost" ? 1 : troubles.count);
  byId("seal").disabled = byId("ask-button").disabled = state === "lost" || state === "ended" || state === "starting";
}

// The browser's title and the list's title say how much trouble there is.
function drawTitle(count) {
  const named = count ? `(${count}) ${title}` : title;
  if (document.title !== named) document.title = named;
  write("trouble-title", count ? `Trouble: ${count}` : "No trouble");
  byId("trouble").classList.toggle("some", count > 0);
}

// Trouble leads to its rider or its vehicle on the map; that of a plan to the list of plans.
function openTrouble(key) {
  const it = troubles.trouble.find(it => troubleKey(it) === key);
  lists.trouble.choose(key);
  if (!it) return;
  if (it.ride !== null && rides.has(it.ride)) openThing("ride", it.ride);
  else if (it.vehicle !== null) openThing("vehicle", it.vehicle);
  else if (it.batch !== null) showPanel("batches");
}

function openThing(kind, number) {
  select(kind, number);
  const thing = (kind === "ride" ? rides : vehicles).get(number);
  if (!thing) return say(`Rider ${number} isn't among those on this page.`, true);
  map.follow(kind === "ride" ? map.at.get(thing.from) : thing.place ? thing.place.slice(0, 2) : map.at.get(thing.node));
  byId("map-area").scrollIntoView({ block: "nearest" });
  return null;
}

const RANKS = { waiting: 1, promised: 2, aboard: 3, delivered: 4, cancelled: 4, expired: 4 };

const lists = {
  trouble: new KeyedList(document.querySelector("#trouble .list"), "trouble", it => troubleWords(it, now()), (_, key) => openTrouble(key)),
  rides: new KeyedList(document.querySelector("#rides .list"), "ride", ride => rideWords(ride, now()), select),
  vehicles: new KeyedList(document.querySelector("#vehicles .list"), "vehicle", vehicle => vehicleWords(vehicle, now()), select),
};

// What the lists' filters let through.
const RIDES = {
  all: () => true, waiting: it => it.state === "waiting" && !isBooked(it, now()), booked: it => isBooked(it, now()),
  promised: it => it.state === "promised", aboard: it => it.state === "aboard", out: it => it.left_out && isAhead(it), over: it => !isOpen(it),
};
const VEHICLES = {
  all: () => true, late: it => lateness(it, now()) > 0, free: it => !it.stops.length && !it.out, riders: it => it.persons > 0, out: it => it.out,
};

// Whether the filters let a ride or a vehicle onto the map. Booked rides are there where they are asked for.
function lets(kind, item) {
  if (kind === "vehicle") return VEHICLES[byId("filter-vehicles").value](item);
  const value = byId("filter-rides").value;
  return value === "all" ? !isBooked(item, now()) : RIDES[value](item);
}

// Draws lists and map by the filters, and says on the map that it doesn't show all.
function filter() {
  const chosen = ["rides", "vehicles"].map(it => byId(`filter-${it}`)).filter(it => it.value !== "all");
  byId("map-filter").hidden = !chosen.length;
  write("map-filter", `Shown alone: ${chosen.map(it => it.dataset.words + it.selectedOptions[0].textContent).join("; ")}`);
  drawList();
  map.change();
}

// The order of rides that aren't over: booked ones last, who was left out first, then by state and time.
function byUrgency(a, b) {
  const out = it => it.left_out && isAhead(it);
  return isBooked(a, now()) - isBooked(b, now()) || out(b) - out(a) || RANKS[a.state] - RANKS[b.state] || a.time - b.time || a.ride - b.ride;
}

// What stands in place of an empty list of riders.
function nobody() {
  return byId("filter-rides").value === "all" ? "Nobody has asked yet." : "No ride is of this kind now.";
}

function drawList() {
  lists.trouble.show(troubles.trouble.map(it => [troubleKey(it), it]));
  if (panel === "rides") {
    const all = [...rides.values()], over = all.filter(it => !isOpen(it)).sort((a, b) => b.ride - a.ride);
    const open = all.filter(isOpen).sort(byUrgency);
    document.querySelector("#rides .empty").textContent = nobody();
    lists.rides.show([...open, ...over.slice(0, SHOWN_OVER)].filter(RIDES[byId("filter-rides").value]).map(it => [it.ride, it]));
  } else if (panel === "vehicles") {
    const shown = [...vehicles.values()].filter(VEHICLES[byId("filter-vehicles").value]).sort((a, b) => a.vehicle - b.vehicle);
    lists.vehicles.show(shown.map(it => [it.vehicle, it]));
  }
}

function drawBatches() {
  const table = document.querySelector("#batches table");
  table.classList.toggle("some", batches.length > 0);
  table.tBodies[0].replaceChildren(...batches.map(planRow));
}

// --- what is chosen -------------------------------------------------------------------------------------------

function select(kind, number) {
  chosen = kind ? { kind, number } : null;
  map.choose(kind, number);
  lists.rides.choose(kind === "ride" ? number : null);
  lists.vehicles.choose(kind === "vehicle" ? number : null);
  const ride = kind === "ride" && rides.get(number), vehicle = kind === "vehicle" && vehicles.get(number);
  drawChosen();
  if (ride && isOpen(ride)) map.follow(map.at.get(ride.from));
  if (vehicle) map.follow(vehicle.place ? vehicle.place.slice(0, 2) : map.at.get(vehicle.node));
}

// How much of the map's lower edge the box of what is chosen covers, in pixels.
function covered() {
  if (byId("chosen").hidden) return 0;
  return Math.max(0, byId("map").getBoundingClientRect().bottom - byId("chosen").getBoundingClientRect().top);
}

function drawChosen() {
  const item = chosen && (chosen.kind === "ride" ? rides : vehicles).get(chosen.number);
  if (box) box.show(chosen && chosen.kind, item);
}

// What is known of a rider, in a question that can be changed.
async function contact(number) {
  const known = await ask(`rides/${number}/contact`);
  if (!known) return say("What is known of the rider couldn't be had.", true);
  for (const name of ["who", "phone", "note"]) byId(`contact-${name}`).value = known[name] || "";
  byId("contact").dataset.ride = number;
  byId("contact-title").textContent = `Who is rider ${number}?`;
  return byId("contact").showModal();
}

function keepContact(event) {
  const number = byId("contact").dataset.ride, body = {};
  if (event.submitter.value === "close") return;
  for (const name of ["who", "phone", "note"]) body[name] = byId(`contact-${name}`).value.trim() || null;
  if (event.submitter.value === "delete") send("DELETE", `rides/${number}/contact`, null, () => `What was known of rider ${number} is deleted.`);
  else send("POST", `rides/${number}/contact`, body, () => `Kept for rider ${number}.`);
}

// --- commands -------------------------------------------------------------------------------------------------

function say(text, bad = false) {
  byId("message").textContent = text;
  byId("message").classList.toggle("bad", bad);
}

function token() {
  return byId("token").value.trim();
}

function bearer() {
  return token() ? { authorization: "Bearer " + token() } : {};
}

async function send(method, path, body, done) {
  const headers = bearer();
  if (body) headers["content-type"] = "application/json";
  try {
    const response = await fetch(path, { method, headers, body: body ? JSON.stringify(body) : undefined });
    const answer = await response.json();
    if (response.ok) say(done(answer));
    else say(response.status === 401 ? "The token is missing or wrong." : `Not taken: ${answer.text}.`, true);
    return response.ok ? answer : null;
  } catch {
    say("The desk can't be reached. Nothing is known of the command.", true);
    return null;
  }
}

// What the desk answers to a GET; null where it can't.
async function ask(path) {
  try {
    const response = await fetch(path, { headers: bearer() });
    return response.ok ? await response.json() : null;
  } catch {
    return null;
  }
}

// Saves a table; a link alone would bring no token.
async function save(path, name) {
  const response = await fetch(path, { headers: bearer() }).catch(() => null);
  if (!response || !response.ok) return say("The table couldn't be had.", true);
  const link = make("a"), address = URL.createObjectURL(await response.blob());
  Object.assign(link, { href: address, download: name });
  link.click();
  setTimeout(() => URL.revokeObjectURL(address), 10000);
  return null;
}

async function askRide(event) {
  event.preventDefault();
  const from = Number(byId("from").value), to = Number(byId("to").value);
  const unknown = [from, to].find(node => !map.at.has(node));
  if (unknown !== undefined) return say(`There is no node ${unknown} on the map.`, true);
  if (from === to) return say("The ride begins and ends at the same node.", true);
  const body = { from, to, persons: Number(byId("persons").value) }, wanted = wantedSecond(byId("when").value.trim(), now());
  if (wanted !== null) body.time = wanted;
  if (byId("who").value.trim()) body.who = byId("who").value.trim();
  const said = it => wanted !== null ? `Rider ${it.ride} is booked for ${clockTime(body.time)}, ${due(body.time, now())}.` : `Rider ${it.ride} waits for the next plan.`;
  const answer = await send("POST", "rides", body, said);
  if (!answer) return;
  for (const name of ["from", "to", "when", "who"]) byId(name).value = "";
  showEnds();
  pick(false);
  showPanel("rides");
  select("ride", answer.ride);
}

function pick(on) {
  byId("pick").setAttribute("aria-pressed", String(on));
  map.pick(on);
  byId("aim").hidden = !on;
  byId("map-hint").hidden = !on;
  if (on) hint();
}

function hint() {
  const what = byId("from").value ? "Where to?" : "Where from?";
  byId("map-hint").textContent = `${what} Click a corner, or arrow keys and Enter`;
}

function picked(node) {
  const from = byId("from"), to = byId("to");
  if (!from.value || to.value) {
    from.value = node;
    to.value = "";
    hint();
  } else {
    to.value = node;
    pick(false);
    byId("ask-button").focus({ preventScroll: true });
  }
  showEnds();
}

function showEnds() {
  map.showEnds(Number(byId("from").value), Number(byId("to").value));
}

function startPicking() {
  if (byId("from").value && byId("to").value) byId("from").value = byId("to").value = "";
  const on = byId("pick").getAttribute("aria-pressed") !== "true";
  pick(on);
  showEnds();
  if (on) byId("map").focus({ preventScroll: true });
}

function key(event) {
  if (event.key === "Escape") {
    pick(false);
    select(null, null);
  }
  if (event.target.matches("input, select, textarea") || event.ctrlKey || event.metaKey || event.altKey) return;
  const name = { 1: "rides", 2: "vehicles", 3: "batches", 4: "day" }[event.key];
  if (name) showPanel(name);
  if (event.key === "/") {
    event.preventDefault();
    byId("search").focus();
  }
  if (event.key === "m") startPicking();
  if (event.key === "t") document.querySelector("#trouble .list").focus();
}

const showPanel = makeTabs(document.querySelector("[role=tablist]"), name => {
  panel = name;
  if (map) drawList();
  if (name === "day" && day) day.show();
});

// Shows what the search has found; a place becomes an end of the ride that is asked for.
function openFound(kind, number) {
  if (kind !== "place") return openThing(kind, number);
  map.follow(map.at.get(number));
  return picked(number);
}

// Fetches the network; where a token is needed for that, the page asks for one. A desk that starts says how far it is. Gives
// whether the network is there.
async function fetchNetwork() {
  let starting = "";
  try {
    const response = await fetch("network", { headers: bearer() });
    refused = response.status === 401 || response.status === 403;
    if (response.ok) network = await response.json();
    if (response.status === 503) starting = (await response.json()).text;
  } catch {
    refused = false;
  }
  if (network) return true;
  byId("bar").className = starting ? "starting" : "lost";
  byId("token-field").hidden = !refused;
  write("status-text", refused ? barState()[1] : starting || "Connection lost. Trying again");
  return false;
}

function takeToken() {
  sessionStorage.setItem("token", token());
  if (stream) stream.begin(token());
  else begin();
}

async function begin() {
  clearTimeout(beginning);
  if (network || !await fetchNetwork()) {
    if (!network && !refused) beginning = setTimeout(begin, 2000);
    return;
  }
  setDay(network);
  for (const it of document.querySelectorAll(".wait-words")) it.textContent = waitWords(Number(it.dataset.step));
  byId("clock").title = clockTitle();
  map = new DeskMap(network, { onNode: picked, onSelect: select, covered }, new KnownWays(ask, () => map.change()));
  Object.assign(map, { vehicles, rides, now, lets });
  box = new ChosenBox(byId("chosen"), { now, select, send, contact }, network.drivers);
  day = new DayPanel(ask, save);
  new Search(ask, openFound, it => stateWord(rides.get(it.ride) || it, now()));
  for (const name of ["rides", "vehicles"]) byId(`filter-${name}`).addEventListener("change", filter);
  byId("contact").querySelector("form").addEventListener("submit", keepContact);
  byId("token-field").hidden = !network.needs_token;
  byId("ask").addEventListener("submit", askRide);
  byId("pick").addEventListener("click", startPicking);
  byId("from").addEventListener("input", showEnds);
  byId("to").addEventListener("input", showEnds);
  byId("seal").addEventListener("click", () => send("POST", "seal", null, it => `Plan ${it.batch} is being made.`));
  document.addEventListener("keydown", key);
  byId("sound").addEventListener("change", event => alarm.turn(event.target.checked));
  heard = performance.now();
  listen();
  setInterval(draw, 1000);
  setInterval(drawBar, 200);
  setInterval(() => panel === "day" && day.show(), 10000);
}

byId("token").value = sessionStorage.getItem("token") || "";
byId("token").addEventListener("change", takeToken);
begin();
