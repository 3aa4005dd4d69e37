// Lists whose rows stay the same elements while their words change, and that the arrow keys walk through.

export class KeyedList {
  // `words(item)` gives a row's classes and texts: {over, mark, markClass, number, what, when}.
  constructor(element, kind, words, onSelect) {
    Object.assign(this, { element, kind, words, onSelect, rows: new Map(), order: [], chosen: null });
    element.addEventListener("click", event => {
      const row = event.target.closest("li");
      if (row) onSelect(kind, keyOf(row.dataset.number));
    });
    element.addEventListener("keydown", event => this.key(event));
  }

  key(event) {
    const at = this.order.indexOf(this.chosen), last = this.order.length - 1;
    const goal = { ArrowDown: at + 1, ArrowUp: at < 0 ? last : at - 1, Home: 0, End: last }[event.key];
    if (goal === undefined) return;
    event.preventDefault();
    if (goal >= 0 && goal <= last) this.onSelect(this.kind, this.order[goal]);
  }

  // Shows these items, [number, item], in this order.
  show(items) {
    this.order = items.map(([number]) => number);
    const wanted = new Set(this.order);
    for (const [number, row] of this.rows) {
      if (!wanted.has(number)) {
        row.element.remove();
        this.rows.delete(number);
      }
    }
    let before = this.element.firstChild;
    for (const [number, item] of items) {
      const row = this.rows.get(number) || this.add(number);
      if (row.element === before) before = before.nextSibling;
      else this.element.insertBefore(row.element, before);
      this.write(row, this.words(item));
    }
  }

  add(number) {
    const element = document.createElement("li");
    element.id = `${this.kind}-${number}`.replaceAll(" ", "-");
    element.dataset.number = number;
    element.setAttribute("role", "option");
    element.setAttribute("aria-selected", String(number === this.chosen));
    const row = { element, texts: {}, cells: {} };
    for (const name of ["mark", "number", "what", "when"]) {
      row.cells[name] = document.createElement("span");
      row.cells[name].className = name;
      element.append(row.cells[name]);
    }
    row.cells.mark.setAttribute("aria-hidden", "true");
    this.rows.set(number, row);
    return row;
  }

  write(row, words) {
    for (const name of ["mark", "number", "what", "when"]) {
      if (row.texts[name] !== words[name]) row.cells[name].textContent = row.texts[name] = words[name];
    }
    if (row.texts.over !== words.over) row.element.classList.toggle("over", row.texts.over = words.over);
    if (row.texts.markClass !== words.markClass) row.cells.mark.className = "mark " + (row.texts.markClass = words.markClass);
  }

  choose(number) {
    const before = this.rows.get(this.chosen), after = this.rows.get(number);
    this.chosen = number;
    if (before) before.element.setAttribute("aria-selected", "false");
    if (after) {
      after.element.setAttribute("aria-selected", "true");
      this.element.setAttribute("aria-activedescendant", after.element.id);
      if (after.element.offsetParent) after.element.scrollIntoView({ block: "nearest" });
    } else {
      this.element.removeAttribute("aria-activedescendant");
    }
  }
}

// The key of a row: a number, or a text that isn't one.
function keyOf(text) {
  return /^[0-9]+$/.test(text) ? Number(text) : text;
}

// Tabs of which one is shown; the arrow keys go to the next.
export function makeTabs(list, onChange) {
  const tabs = [...list.querySelectorAll("[role=tab]")];
  const show = tab => {
    for (const it of tabs) {
      it.setAttribute("aria-selected", String(it === tab));
      it.tabIndex = it === tab ? 0 : -1;
      document.getElementById(it.getAttribute("aria-controls")).hidden = it !== tab;
    }
    onChange(tab.getAttribute("aria-controls"));
  };
  for (const [at, tab] of tabs.entries()) {
    tab.addEventListener("click", () => show(tab));
    tab.addEventListener("keydown", event => {
      const step = { ArrowRight: 1, ArrowLeft: -1 }[event.key];
      if (!step) return;
      const next = tabs[(at + step + tabs.length) % tabs.length];
      show(next);
      next.focus();
    });
  }
  return name => show(tabs.find(tab => tab.getAttribute("aria-controls") === name));
}
