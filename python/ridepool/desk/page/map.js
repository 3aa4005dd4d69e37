// The map: streets by Leaflet, and over them a canvas with ways, stops, riders and vehicles.

import { BLUE, DARK, INK, RED, drawBar, drawCircle, drawCross, drawLevel, drawStop, drawText } from "./shapes.js";
import { isAhead, isOpen, lateness, span, waitStep } from "./words.js";

const STREET = "#b4c0c9", OUT = "#c9d1d8";
const WAITS = ["#ffe9a8", "#f6b04c", "#d95f0e", "#7f2704"];
const TWEEN = 500, REACH = 18, EDGE = 40, MOST_WAYS = 40, MANY = 60, MANYS_PAUSE = 100, CLUSTERED = 200, CELL = 48;

export class DeskMap {
  // `told` has onNode(node) for a node that was chosen, onSelect(kind, number) for what was clicked, and covered() for how
  // much of the map's lower edge is covered. `ways` has way(from, to).
  constructor(network, told, ways) {
    this.told = told;
    this.at = new Map(network.nodes.map(([node, a, b]) => [node, [a, b]]));
    this.ways = ways;
    this.vehicles = new Map();
    this.rides = new Map();
    this.shown = new Map();
    this.chosen = null;
    this.ends = {};
    this.picking = false;
    this.now = () => 0;
    this.lets = () => true;  // whether the lists' filters let a ride or a vehicle onto the map
    this.make(network);
  }

  make(network) {
    const degrees = network.degrees;
    this.map = L.map("map", {
      crs: degrees ? L.CRS.EPSG3857 : L.CRS.Simple, zoomAnimation: false, fadeAnimation: false,
      minZoom: degrees ? 3 : -8, maxZoom: 19, attributionControl: Boolean(network.tiles), zoomSnap: 0.25,
    });
    if (network.tiles && degrees) L.tileLayer(network.tiles, { maxZoom: 19 }).addTo(this.map);
    const lines = new Map();
    for (const [from, to] of network.streets) lines.set(from < to ? from + " " + to : to + " " + from, [from, to]);
    const streets = [...lines.values()].map(([from, to]) => [this.at.get(from), this.at.get(to)]);
    this.bounds = L.latLngBounds([...this.at.values()]);
    this.map.fitBounds(this.bounds, { padding: [24, 24] });
    L.polyline(streets, { renderer: L.canvas({ padding: 0.3 }), color: STREET, weight: 3, interactive: false }).addTo(this.map);
    this.canvas = document.createElement("canvas");
    this.canvas.className = "overlay";
    this.canvas.style.cssText = "position:absolute;left:0;top:0;z-index:450;pointer-events:none";
    this.map.getContainer().append(this.canvas);
    this.map.on("move zoom viewreset", () => this.change());
    this.map.on("resize", () => this.resize());
    this.map.on("click", event => this.clicked(event.containerPoint));
    this.map.getContainer().addEventListener("keydown", event => this.key(event));
    this.resize();
  }

  resize() {
    const size = this.map.getSize(), ratio = window.devicePixelRatio || 1;
    this.canvas.width = size.x * ratio;
    this.canvas.height = size.y * ratio;
    this.canvas.style.width = size.x + "px";
    this.canvas.style.height = size.y + "px";
    this.change();
  }

  // Where a click may lead to: with the Enter key, the middle of the map.
  key(event) {
    if (event.key === "Enter" && this.picking) {
      event.preventDefault();
      this.clicked(this.map.getSize().divideBy(2));
    }
  }

  clicked(point) {
    if (this.picking) {
      this.told.onNode(this.nearestNode(point));
      return;
    }
    const found = this.nearestThing(point);
    this.told.onSelect(...(found || [null, null]));
  }

  nearestNode(point) {
    let best = Infinity, found = null;
    for (const [node, place] of this.at) {
      const distance = this.point(place).distanceTo(point);
      if (distance < best) [best, found] = [distance, node];
    }
    return found;
  }

  // The vehicle or the waiting rider next to a point of the map, if one is within reach.
  nearestThing(point) {
    let best = REACH, found = null;
    for (const [number, spot] of this.shown) {
      if (!this.isShown(this.vehicles.get(number))) continue;
      const distance = this.point(spot.place).distanceTo(point);
      if (distance < best) [best, found] = [distance, ["vehicle", number]];
    }
    for (const ride of this.rides.values()) {
      if (!isAhead(ride) || !this.lets("ride", ride)) continue;
      const distance = this.point(this.at.get(ride.from)).distanceTo(point);
      if (distance < best - 2) [best, found] = [distance, ["ride", ride.ride]];
    }
    return found;
  }

  point(place) {
    return this.map.latLngToContainerPoint(place);
  }

  // Takes the vehicle's place as the one to which its picture moves, over the nodes that it has passed meanwhile.
  placeVehicle(vehicle) {
    const goal = (vehicle.place || this.at.get(vehicle.node)).slice(0, 2), node = nextNode(vehicle);
    const spot = this.shown.get(vehicle.vehicle), time = performance.now();
    if (!spot) {
      this.shown.set(vehicle.vehicle, { place: goal, path: [], goal, node, time, until: time, way: [] });
    } else if (spot.goal[0] !== goal[0] || spot.goal[1] !== goal[1]) {
      const path = [...spot.path, ...this.passed(spot, node), goal];
      Object.assign(spot, { path, goal, node, time, until: time + TWEEN });
    }
    this.animate();
  }

  // The places of the nodes from the one that was to come next up to the one that does now, on the way that was drawn last.
  passed({ way, node: before }, node) {
    const from = way.indexOf(before), to = from < 0 ? -1 : way.indexOf(node, from);
    return to < 0 ? [] : way.slice(from, to).map(it => this.at.get(it));
  }

  choose(kind, number) {
    this.chosen = kind ? { kind, number } : null;
    this.change();
  }

  showEnds(from, to) {
    this.ends = { from: this.at.has(from) ? from : null, to: this.at.has(to) ? to : null };
    this.change();
  }

  pick(on) {
    this.picking = on;
    this.map.getContainer().classList.toggle("picking", on);
  }

  // Brings a place into view, by as little as can be, if it isn't.
  follow(place) {
    const corners = { paddingTopLeft: [EDGE, EDGE], paddingBottomRight: [EDGE, EDGE + this.told.covered()] };
    this.map.panInside(place, { ...corners, animate: false });
  }

  change() {
    if (!this.frame) this.frame = requestAnimationFrame(() => this.draw());
  }

  // Draws moving vehicles anew: at the next frame, or of many ten times a second.
  animate() {
    if (this.vehicles.size <= MANY) {
      this.change();
    } else if (!this.pause) {
      this.pause = setTimeout(() => {
        this.pause = null;
        this.change();
      }, MANYS_PAUSE);
    }
  }

  draw() {
    this.frame = null;
    const moving = this.advance(performance.now()), chosen = this.chosenVehicle();
    const pen = this.canvas.getContext("2d"), ratio = window.devicePixelRatio || 1;
    pen.setTransform(ratio, 0, 0, ratio, 0, 0);
    pen.clearRect(0, 0, this.canvas.width, this.canvas.height);
    this.drawWays(pen);
    this.drawRiders(pen);
    for (const vehicle of this.vehicles.values()) if (vehicle !== chosen && this.isShown(vehicle)) this.drawVehicle(pen, vehicle);
    this.drawChosenRide(pen);
    if (chosen) this.drawStops(pen, chosen);
    if (chosen) this.drawVehicle(pen, chosen);
    this.drawEnds(pen);
    if (moving) this.animate();
  }

  // Moves the pictures of vehicles on. Gives whether one isn't at its place yet.
  advance(time) {
    let moving = false;
    for (const spot of this.shown.values()) {
      if (!spot.path.length) continue;
      if (time < spot.until) walk(spot, (time - spot.time) / (spot.until - spot.time));
      else Object.assign(spot, { place: spot.goal, path: [] });
      spot.time = time;
      moving = moving || spot.path.length > 0;
    }
    return moving;
  }

  // Whether a vehicle is drawn: the chosen one always is.
  isShown(vehicle) {
    return vehicle !== undefined && (this.lets("vehicle", vehicle) || vehicle === this.chosenVehicle());
  }

  chosenVehicle() {
    if (!this.chosen) return null;
    if (this.chosen.kind === "vehicle") return this.vehicles.get(this.chosen.number);
    const ride = this.rides.get(this.chosen.number);
    return ride && ride.vehicle !== null && isOpen(ride) ? this.vehicles.get(ride.vehicle) : null;
  }

  drawWays(pen) {
    const chosen = this.chosenVehicle();
    if (this.vehicles.size <= MOST_WAYS) {
      for (const vehicle of this.vehicles.values()) if (vehicle !== chosen && this.isShown(vehicle)) this.drawWay(pen, vehicle, false);
    }
    if (chosen) this.drawWay(pen, chosen, true);
  }

  // A vehicle's way over its next stops in order, once it is known; dashed where it is only sent toward a rider who was left
  // out.
  drawWay(pen, vehicle, strong) {
    const goals = vehicle.stops.length ? vehicle.stops.map(stop => stop.node) : vehicle.move === null ? [] : [vehicle.move];
    if (!goals.length) return;
    const spot = this.shown.get(vehicle.vehicle), starts = [nextNode(vehicle), ...goals];
    const parts = goals.map((goal, i) => this.ways.way(starts[i], goal));
    if (parts.includes(null)) return;
    spot.way = parts.flat();
    const places = [spot.place, ...spot.path, ...spot.way.map(it => this.at.get(it))];
    pen.beginPath();
    places.forEach((place, i) => {
      const { x, y } = this.point(place);
      if (i) pen.lineTo(x, y); else pen.moveTo(x, y);
    });
    pen.setLineDash(vehicle.stops.length ? [] : [6, 6]);
    pen.lineJoin = "round";
    pen.lineWidth = strong ? 5 : 2;
    pen.strokeStyle = strong ? BLUE : "rgba(0, 114, 178, 0.4)";
    pen.stroke();
    pen.setLineDash([]);
  }

  // Numbered triangles: up for pickups, down for drop-offs. Stops at one node stand side by side.
  drawStops(pen, vehicle) {
    const seen = new Map();
    vehicle.stops.forEach((stop, i) => {
      const count = seen.get(stop.node) || 0, { x, y } = this.point(this.at.get(stop.node));
      seen.set(stop.node, count + 1);
      drawStop(pen, x + 18 * count, y, stop.kind, String(i + 1));
    });
  }

  // One mark for all who wait at a node, in the colour of the longest wait, with their number.
  drawRiders(pen) {
    const ahead = [...this.rides.values()].filter(it => isAhead(it) && this.lets("ride", it));
    const clustered = ahead.length > CLUSTERED, groups = new Map();
    for (const ride of ahead) {
      const point = this.point(this.at.get(ride.from));
      const key = clustered ? `${Math.floor(point.x / CELL)} ${Math.floor(point.y / CELL)}` : ride.from;
      if (!groups.has(key)) groups.set(key, { point, rides: [] });
      groups.get(key).rides.push(ride);
    }
    for (const { point, rides } of groups.values()) this.drawGroup(pen, point, rides, groups.size > MANY && !clustered);
  }

  drawGroup(pen, { x, y }, group, many) {
    const isChosen = group.some(it => this.chosenIs("ride", it.ride)), size = isChosen ? 10 : many ? 5 : 8;
    const step = waitStep(this.now() - Math.min(...group.map(it => it.time)));
    pen.beginPath();
    pen.moveTo(x, y - size);
    pen.lineTo(x + size, y);
    pen.lineTo(x, y + size);
    pen.lineTo(x - size, y);
    pen.closePath();
    pen.fillStyle = WAITS[step];
    pen.strokeStyle = INK;
    pen.lineWidth = isChosen ? 3 : many ? 1 : 1.3;
    pen.fill();
    pen.stroke();
    if (group.some(it => it.left_out)) drawCross(pen, x, y, size / 2 - 0.5, step < 2 ? INK : "#fff");
    if (group.length > 1 && !many) drawText(pen, String(group.length), x + size + 7, y + 7, 11, INK, true);
  }

  drawChosenRide(pen) {
    const ride = this.chosen && this.chosen.kind === "ride" && this.rides.get(this.chosen.number);
    if (!ride || !(isOpen(ride) || ride.state === "expired") || this.chosenVehicle()) return;
    this.drawTrip(pen, ride.from, ride.to);
  }

  drawEnds(pen) {
    const { from, to } = this.ends;
    if (from && to && from !== to) this.drawTrip(pen, from, to);
    else if (from) this.drawEnd(pen, from, "pick");
    else if (to) this.drawEnd(pen, to, "drop");
  }

  drawTrip(pen, from, to) {
    const a = this.point(this.at.get(from)), b = this.point(this.at.get(to));
    pen.beginPath();
    pen.moveTo(a.x, a.y);
    pen.lineTo(b.x, b.y);
    pen.setLineDash([3, 5]);
    pen.lineWidth = 2.5;
    pen.strokeStyle = INK;
    pen.stroke();
    pen.setLineDash([]);
    this.drawEnd(pen, from, "pick");
    this.drawEnd(pen, to, "drop");
  }

  drawEnd(pen, node, kind) {
    const { x, y } = this.point(this.at.get(node));
    drawStop(pen, x, y, kind, kind === "pick" ? "A" : "B");
  }

  drawVehicle(pen, vehicle) {
    const { x, y } = this.point(this.shown.get(vehicle.vehicle).place);
    const chosen = this.chosenVehicle() === vehicle, many = this.vehicles.size > MANY;
    const size = chosen ? 13 : many ? 6 : 10;
    if (chosen) drawCircle(pen, x, y, size + 5, "rgba(230, 159, 0, 0.9)", null);
    const late = lateness(vehicle, this.now());
    if (late > 0) drawCircle(pen, x, y, size + 3, RED, null);
    drawCircle(pen, x, y, size, vehicle.out ? OUT : "#fff", DARK);
    if (vehicle.out) drawBar(pen, x, y, size - 4);
    const part = Math.min(1, vehicle.persons / vehicle.max_capacity);
    if (part > 0) drawLevel(pen, x, y, size - 1, part);
    if (!many || chosen) drawText(pen, String(vehicle.vehicle), x, y - size - 8, 12, INK, true);
    if (late > 0 && (!many || chosen)) drawText(pen, `${span(late)} late`, x, y + size + 11, 12, RED, true);
  }

  chosenIs(kind, number) {
    return this.chosen !== null && this.chosen.kind === kind && this.chosen.number === number;
  }
}

// The node that a vehicle comes to next.
function nextNode(vehicle) {
  return vehicle.place ? vehicle.place[2] : vehicle.node;
}

// Moves a vehicle's picture along this part of its path.
function walk(spot, part) {
  const length = (a, b) => Math.hypot(a[0] - b[0], a[1] - b[1]);
  let left = part * spot.path.reduce((sum, it, i) => sum + length(it, i ? spot.path[i - 1] : spot.place), 0);
  while (spot.path.length) {
    const next = spot.path[0], step = length(next, spot.place);
    if (step > left) {
      spot.place = [0, 1].map(i => spot.place[i] + left / step * (next[i] - spot.place[i]));
      return;
    }
    left -= step;
    spot.place = spot.path.shift();
  }
}
