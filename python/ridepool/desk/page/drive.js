// The driver's page: the next stops of a vehicle, what is pressed at them, and where the vehicle is.

import { persons } from "./words.js";
import { BookClock, Token, button, byId, call, dueWords, make } from "./phone.js";
import { Presses } from "./presses.js";

const POLL = 3000, POSITION_EVERY = 15000;
const token = new Token("driver-token"), clock = new BookClock();
const made = new Set();  // what was answered since the trip was asked for
let vehicle = null, trip = null, online = false, watching = null, placed = 0, shown = "";
let asked = 0, taken = 0;  // trips that were asked for, and the last of them that came

const presses = new Presses("driver-presses", press => call(token, "POST", press.path, press.body, { "idempotency-key": press.key }), told, draw);

function say(text, bad = false) {
  byId("message").textContent = text;
  byId("message").className = bad ? "bad" : "";
}

// What the desk answered to a press. One that was made before the line was lost may be refused as made already.
function told(press, status, answer) {
  const known = ["is-aboard", "not-aboard", "ended"].includes(answer.word);
  if (status < 300 || known) made.add(press.about);
  if (status < 300) say(press.done);
  else if (known) say(`${press.done} The desk knew it already.`);
  else say(`Not taken: ${press.what}. ${answer.text}.`, true);
  load();
}

// --- the desk ---------------------------------------------------------------------------------------------------

async function load() {
  if (vehicle === null) return;
  const before = [...made], turn = ++asked;
  try {
    const { status, answer } = await call(token, "GET", `vehicles/${vehicle}/trip`);
    online = status < 500;
    if (status === 401 || status === 403 || status === 404) return login(answer.text);
    if (status === 200 && turn > taken) {
      taken = turn;
      trip = answer;
      for (const about of before) made.delete(about);
      clock.set(answer.at, answer.speed);
      presses.flush();
    }
  } catch {
    online = false;
  }
  draw();
}

async function begin() {
  let status, answer;
  try {
    ({ status, answer } = await call(token, "GET", "me"));
  } catch {
    draw();
    setTimeout(begin, POLL);
    return;
  }
  online = true;
  if (status !== 200) return login(token.text ? "The token is wrong or was withdrawn." : "");
  const asked = new URLSearchParams(location.search).get("vehicle") || localStorage.getItem("driver-vehicle");
  vehicle = answer.vehicle === null && asked ? Number(asked) : answer.vehicle;
  if (vehicle === null) return login("", true);
  byId("login").hidden = true;
  byId("logout").hidden = false;
  load();
}

// Asks for a token; where the desk takes calls without one, for the vehicle.
function login(text, free = false) {
  vehicle = trip = null;
  say(text, Boolean(text));
  byId("login").hidden = false;
  byId("vehicle-field").hidden = !free;
  byId("token").parentElement.hidden = free;
  byId("token").required = !free;
  byId(free ? "vehicle" : "token").focus();
  draw();
}

byId("login").addEventListener("submit", event => {
  event.preventDefault();
  if (!byId("token").parentElement.hidden) token.text = byId("token").value.trim();
  if (byId("vehicle").value) localStorage.setItem("driver-vehicle", byId("vehicle").value);
  byId("token").value = "";
  say("");
  begin();
});

byId("logout").addEventListener("click", () => {
  token.text = "";
  localStorage.removeItem("driver-vehicle");
  stopWatching();
  login("");
});

// --- presses ----------------------------------------------------------------------------------------------------

// The second of a press: now, but not before the vehicle was last seen.
function second() {
  return Math.max(Math.floor(clock.now()), trip.free_from);
}

function press(stop, word, what, done) {
  const body = word === "noshow" ? { ride: stop.ride } : { ride: stop.ride, second: second() };
  presses.add({ path: `vehicles/${vehicle}/${word}`, body, what, done, about: `${stop.kind} ${stop.ride}` });
}

function noShow(stop) {
  if (confirm(`Rider ${stop.ride} isn't there? This cancels the ride.`)) {
    press(stop, "noshow", `rider ${stop.ride} isn't there`, `Rider ${stop.ride} wasn't there; the ride is cancelled.`);
  }
}

function arrive(stop) {
  const body = { node: stop.node, second: second() };
  presses.add({ path: `vehicles/${vehicle}/position`, body, what: `at ${stop.name}`, done: `You are at ${stop.name}.`, about: `at ${stop.node}` });
}

// A position by the browser's geolocation is of no use later, so that it isn't kept.
async function place({ coords }) {
  if (Date.now() - placed < POSITION_EVERY || vehicle === null) return;
  placed = Date.now();
  try {
    const { status, answer } = await call(token, "POST", `vehicles/${vehicle}/position`, { lat: coords.latitude, lon: coords.longitude });
    if (status !== 200) say(`The position wasn't taken: ${answer.text}.`, true);
  } catch {
    online = false;
  }
  load();
}

function watch() {
  if (watching !== null) return stopWatching();
  placed = 0;
  watching = navigator.geolocation.watchPosition(place, fault => {
    stopWatching();
    say(`The phone doesn't say where it is: ${fault.message}`, true);
  }, { enableHighAccuracy: true, maximumAge: 10000 });
  draw();
}

function stopWatching() {
  if (watching !== null) navigator.geolocation.clearWatch(watching);
  watching = null;
  draw();
}

// --- drawing ----------------------------------------------------------------------------------------------------

function stopsAhead() {
  const isMade = about => made.has(about) || presses.waits(about);
  return trip.stops.filter(it => !isMade(`${it.kind} ${it.ride}`));
}

function stopWords(stop) {
  const what = stop.kind === "pick" ? "Pick up" : "Drop off";
  return [`${what} rider ${stop.ride}${stop.who ? `, ${stop.who}` : ""}`, `${persons(stop.persons)}, at ${stop.name}`];
}

function stopParts(stop) {
  const [title, place] = stopWords(stop), buttons = make("div");
  buttons.className = "buttons";
  if (stop.kind === "pick") {
    buttons.append(button("Picked up", () => press(stop, "pickup", `rider ${stop.ride} got in`, `Rider ${stop.ride} is aboard.`), "main"));
    buttons.append(button("No-show", () => noShow(stop)));
  } else {
    buttons.append(button("Dropped off", () => press(stop, "dropoff", `rider ${stop.ride} got out`, `Rider ${stop.ride} has arrived.`), "main"));
  }
  const when = make("p", "");
  when.className = "due";
  const parts = [make("h3", title), make("p", place), when];
  if (stop.phone) parts.push(phoneLink(stop.phone));
  if (stop.note) parts.push(make("p", stop.note));
  return [...parts, buttons];
}

function phoneLink(number) {
  const link = make("a", `Call ${number}`);
  link.href = "tel:" + number.replace(/[^0-9+]/g, "");
  return make("p", "", link);
}

// The parts are made anew where something else is shown than before, so that no button goes away under a finger.
function drawStops() {
  const ahead = stopsAhead(), [next] = ahead;
  const key = JSON.stringify([ahead.map(it => [it.kind, it.ride, it.who, it.note, it.phone]), watching !== null, Boolean(trip.degrees)]);
  if (key !== shown) {
    shown = key;
    byId("next-stop").replaceChildren(...(next ? stopParts(next) : [make("p", "No stops ahead.")]));
    byId("later-stops").replaceChildren(...ahead.slice(1).map(it => make("li", stopWords(it).join(", "), make("span", ""))));
    const buttons = next ? [button(`I am at ${next.name}`, () => arrive(next))] : [];
    if (navigator.geolocation && trip.degrees) buttons.push(button(watching === null ? "Send my position" : "Stop sending my position", watch));
    byId("where-buttons").replaceChildren(...buttons);
  }
  const due = byId("next-stop").querySelector(".due"), spans = byId("later-stops").querySelectorAll("span");
  if (due) {
    due.textContent = dueWords(next.second, clock.now());
    due.classList.toggle("late", next.second !== null && next.second < clock.now() - 1);
  }
  ahead.slice(1).forEach((it, i) => { spans[i].textContent = " " + dueWords(it.second, clock.now()); });
  byId("later").hidden = ahead.length < 2;
}

function draw() {
  const waiting = presses ? presses.kept.length : 0;
  byId("bar").className = online && !waiting ? "on" : "off";
  const words = waiting === 1 ? "1 press waits" : `${waiting} presses wait`;
  byId("line").textContent = !online ? "No line" + (waiting ? `. ${words} to be sent` : "") : waiting ? `Sending, ${words}` : "Connected";
  byId("title").textContent = vehicle === null ? "Driver" : `Vehicle ${vehicle}`;
  for (const name of ["next", "where"]) byId(name).hidden = !trip;
  if (!trip) {
    byId("later").hidden = true;
    return;
  }
  byId("place").textContent = `${trip.persons} of ${trip.max_capacity} seats taken, last seen at ${trip.name}.`;
  drawStops();
}

begin();
setInterval(load, POLL);
setInterval(draw, 1000);
window.addEventListener("online", load);
window.addEventListener("offline", () => {
  online = false;
  draw();
});
