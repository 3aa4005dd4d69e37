// What the page says of rides and vehicles: states, times and the rows of lists.

const MARKS = { waiting: "◆", promised: "◆", aboard: "●", delivered: "✓", cancelled: "–", expired: "✕" };

// Whether a rider still waits for the vehicle.
export function isAhead(ride) {
  return ride.state === "waiting" || ride.state === "promised";
}

// Whether a ride isn't over.
export function isOpen(ride) {
  return isAhead(ride) || ride.state === "aboard";
}

// What the page knows of its day: the longest wait, the moment of second 0, and the desk's zone.
const DAY = 86400;
let longest = 420, began = null, zone = "UTC";

export function setDay(network) {
  longest = network.wait;
  began = network.speed === 1 ? network.began : null;
  try {
    zone = new Intl.DateTimeFormat("en-GB", { timeZone: network.zone }).resolvedOptions().timeZone;
  } catch {
    zone = "UTC";  // a zone that the browser doesn't know
  }
}

// The shares of the longest wait from which a rider's colour is another.
export const STEPS = [1 / 7, 3 / 7, 5 / 7];

// The step of a wait's colour.
export function waitStep(seconds) {
  return STEPS.filter(it => seconds >= it * longest).length;
}

// What a step means.
export function waitWords(step) {
  const at = it => span(Math.round(STEPS[it] * longest));
  return step === 0 ? `waits less than ${at(0)}` : step === STEPS.length ? `${at(step - 1)} or more` : `${at(step - 1)} to ${at(step)}`;
}

// Whether a ride was asked for ahead of its time, which hasn't come yet.
export function isBooked(ride, now) {
  return ride.state === "waiting" && ride.time > now;
}

// A second of the book as the time of day in the desk's zone; on a day that runs faster, as the time of the book.
export function clockTime(second) {
  if (began === null) return moment(second);
  return new Date((began + second) * 1000).toLocaleTimeString("en-GB", { timeZone: zone });
}

// Which time that is.
export function clockTitle() {
  return began === null ? "Time of the day's book, which runs at another speed" : `Time of day in ${zone}`;
}

// The second of the book for which a ride is asked: at the next time such as 15:30, or in minutes such as +20; null where
// the text is empty.
export function wantedSecond(text, now) {
  if (!text) return null;
  const start = Math.floor(now);
  if (text.startsWith("+")) return start + 60 * Number(text.slice(1));
  const [hours, minutes] = text.split(":").map(Number), [h, m, s] = clockTime(start).split(":").map(Number);
  return start + (((hours - h) * 3600 + (minutes - m) * 60 - s) % DAY + DAY) % DAY;
}

// How long something takes, as minutes:seconds or hours:minutes:seconds.
export function span(seconds) {
  return seconds < 3600 ? moment(seconds).slice(2).replace(/^0(?=.:)/, "") : moment(seconds);
}

// A second of the book as hours:minutes:seconds.
export function moment(second) {
  const whole = Math.max(0, Math.floor(second)), two = it => String(it % 60).padStart(2, "0");
  return `${Math.floor(whole / 3600)}:${two(Math.floor(whole / 60))}:${two(whole)}`;
}

export function persons(count) {
  return count === 1 ? "1 person" : `${count} persons`;
}

// How long from now something is due, or by how much it is late. Within a second it is due now.
export function due(second, now) {
  if (Math.abs(second - now) < 1) return "now";
  return second < now ? `${span(now - second)} late` : `in ${span(second - now)}`;
}

// The seconds by which a vehicle's next stop is overdue; 0 where it isn't.
export function lateness(vehicle, now) {
  const next = vehicle.stops[0];
  return next && next.second !== null ? Math.max(0, Math.floor(now - next.second)) : 0;
}

// The row of a trouble in its list, at a second of the book.
export function troubleWords(it, now) {
  const past = span(Math.max(0, now - it.second));
  const when = { "late-vehicle": `${past} late`, "broken-promise": `${past} late`, "expires-soon": due(it.second, now) }[it.kind]
    || (it.kind === "hangs" || it.kind === "slow-plan" ? `for ${past}` : `${past} ago`);
  return { over: false, mark: "!", markClass: "bad", number: "", what: it.text, when };
}

// What a trouble is about, as the same thing whenever it is told again.
export function troubleKey(it) {
  return [it.kind, it.ride, it.vehicle, it.batch].join(" ");
}

// What a ride's state is called.
export function stateWord(ride, now) {
  return isBooked(ride, now) ? "booked" : isAhead(ride) && ride.left_out ? "left out" : ride.state;
}

// The row of a ride in its list, at a second of the book.
export function rideWords(ride, now) {
  const waits = isAhead(ride), booked = isBooked(ride, now), place = `${ride.from} → ${ride.to}${ride.who ? `, ${ride.who}` : ""}`;
  const state = stateWord(ride, now);
  const when = booked ? clockTime(ride.time) : ride.state === "promised" ? due(ride.pickup_second, now)
    : ride.state === "waiting" ? `waits ${span(now - ride.time)}`
    : ride.state === "aboard" && ride.drop_off_second !== null ? `out ${due(ride.drop_off_second, now)}` : "";
  const who = ride.vehicle === null || !isOpen(ride) ? "" : (waits ? " to " : " ") + ride.vehicle;
  return {
    over: !isOpen(ride), mark: booked ? "◇" : waits && ride.left_out ? "✕" : MARKS[ride.state], number: String(ride.ride),
    markClass: waits ? "w" + waitStep(now - ride.time) : ride.state, what: `${state}${who}, ${place}`, when,
  };
}

// The row of a vehicle in its list, at a second of the book.
export function vehicleWords(vehicle, now) {
  const next = vehicle.stops[0];
  const what = vehicle.out ? "out of service" : next ? `${next.kind === "pick" ? "picks up" : "drops off"} ${next.ride} at ${next.node}`
    : vehicle.move !== null ? `drives toward ${vehicle.move}` : `stands at ${vehicle.node}`;
  return {
    over: !next || vehicle.out, mark: vehicle.persons ? "●" : "○", markClass: "car-mark", number: String(vehicle.vehicle),
    what: `${vehicle.persons} of ${vehicle.max_capacity}, ${what}`,
    when: !next || next.second === null ? "" : due(next.second, now),
  };
}
