// What the pages for phones share: the token, calls, and the second of the book.

import { span } from "./words.js";

export const byId = id => document.getElementById(id);

// The token of a link, which stands behind # and so is sent to no server, or the one that was kept.
export class Token {
  constructor(name) {
    this.name = name;
    const given = new URLSearchParams(location.hash.slice(1)).get("token");
    if (given) {
      localStorage.setItem(name, given);
      history.replaceState(null, "", location.pathname + location.search);
    }
  }

  get text() {
    return localStorage.getItem(this.name) || "";
  }

  set text(given) {
    if (given) localStorage.setItem(this.name, given);
    else localStorage.removeItem(this.name);
  }

  get headers() {
    return this.text ? { authorization: "Bearer " + this.text } : {};
  }
}

// A call of the desk. Gives its status and answer; without a line it throws an error.
export async function call(token, method, path, body, more = {}) {
  const headers = { ...token.headers, ...more };
  if (body) headers["content-type"] = "application/json";
  const stop = AbortSignal.timeout ? AbortSignal.timeout(10000) : undefined;
  const response = await fetch(path, { method, headers, body: body ? JSON.stringify(body) : undefined, cache: "no-store", signal: stop });
  return { status: response.status, answer: await response.json() };
}

// The second of the book, told now and then, and going on meanwhile.
export class BookClock {
  constructor() {
    this.second = 0;
    this.speed = 0;
    this.at = 0;
  }

  set(second, speed) {
    Object.assign(this, { second, speed, at: performance.now() });
  }

  now() {
    return this.second + (performance.now() - this.at) / 1000 * this.speed;
  }
}

export function make(tag, text, ...children) {
  const element = document.createElement(tag);
  if (text) element.textContent = text;
  element.append(...children);
  return element;
}

export function button(text, action, name = "") {
  const element = make("button", text);
  element.type = "button";
  element.className = name;
  element.addEventListener("click", action);
  return element;
}

// How far away a place is.
export function distance(metres) {
  return metres < 1000 ? `${Math.round(metres / 10) * 10} m` : `${(metres / 1000).toFixed(1)} km`;
}

// When something is due, for a phone.
export function dueWords(second, now) {
  if (second === null) return "";
  const left = second - now;
  return Math.abs(left) < 1 ? "now" : left < 0 ? `${span(-left)} late` : `in ${span(left)}`;
}
