// The rider's page: the state of a ride, where its vehicle is and when it comes, and cancelling.

import { persons } from "./words.js";
import { BookClock, Token, byId, call, distance, dueWords } from "./phone.js";

const POLL = 3000;
const number = location.pathname.split("/").pop();
const token = new Token("ride-token-" + number), clock = new BookClock();
let ride = null, online = false;

const STATES = {
  waiting: "We look for a vehicle", promised: "A vehicle comes to you", aboard: "You are on your way",
  delivered: "You have arrived", cancelled: "The ride is cancelled", expired: "No vehicle could come in time",
};

function say(text, bad = false) {
  byId("message").textContent = text;
  byId("message").className = bad ? "bad" : "";
}

async function load() {
  try {
    const { status, answer } = await call(token, "GET", `../rides/${number}/trip`);
    online = status < 500;
    if (status === 200) {
      ride = answer;
      clock.set(answer.at, answer.speed);
    } else if (online) {
      ride = null;
      say(status === 404 ? "There is no such ride." : token.text ? "The token is wrong or was withdrawn." : "", true);
    }
    byId("login").hidden = status !== 401 && status !== 403;
  } catch {
    online = false;
  }
  draw();
}

// The first press asks, the second cancels.
async function cancel() {
  if (!confirm("Cancel this ride?")) return;
  try {
    const { status, answer } = await call(token, "DELETE", `../rides/${number}`);
    if (status === 200) say("The ride is cancelled.");
    else say(`Not cancelled: ${answer.text}.`, true);
  } catch {
    say("No line. Try again.", true);
  }
  load();
}

function draw() {
  byId("bar").className = online ? "on" : "off";
  byId("line").textContent = online ? "Connected" : "No line. Trying again";
  byId("title").textContent = `Ride ${number}`;
  byId("ride").hidden = !ride;
  if (!ride) return;
  const write = (id, text) => { if (byId(id).textContent !== text) byId(id).textContent = text; };
  const comes = ride.state === "promised" ? ride.pickup_second : ride.state === "aboard" ? ride.drop_off_second : null;
  write("state", STATES[ride.state]);
  write("when", comes === null ? "" : `${ride.state === "aboard" ? "Arrival " : ""}${dueWords(comes, clock.now())}`);
  byId("when").classList.toggle("late", comes !== null && comes < clock.now() - 1);
  const away = ride.metres === null ? "" : `, ${distance(ride.metres)} away`;
  write("vehicle", ride.vehicle === null || comes === null ? "" : `Vehicle ${ride.vehicle} is near ${ride.vehicle_at}${ride.state === "promised" ? away : ""}.`);
  write("way", `${persons(ride.persons)}, from ${ride.from_name} to ${ride.to_name}.`);
  byId("cancel").hidden = !["waiting", "promised"].includes(ride.state);
}

byId("login").addEventListener("submit", event => {
  event.preventDefault();
  token.text = byId("token").value.trim();
  byId("token").value = "";
  say("");
  load();
});
byId("cancel").addEventListener("click", cancel);
load();
setInterval(load, POLL);
setInterval(draw, 1000);
