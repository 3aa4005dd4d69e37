// A plan as a row of its table.

import { make } from "./make.js";
import { span } from "./words.js";

export function planRow(plan) {
  const row = make("tr", "", make("td", String(plan.batch)));
  if (plan.overflow) {
    const cell = make("td", `Nothing planned: too many pairs. ${plan.expired.length} expired.`);
    cell.className = "bad";
    cell.colSpan = 9;
    row.append(cell);
    return row;
  }
  const wait = it => it === null ? "–" : span(it);
  row.append(counted(plan.served), counted(plan.left_out.length));
  for (const it of [plan.expired, plan.lapsed, plan.late]) row.append(counted(it.length, "bad"));
  row.append(make("td", wait(plan.mean_wait)), make("td", wait(plan.worst_wait)), counted(plan.gap));
  row.append(make("td", plan.seconds === undefined ? "–" : `${plan.seconds.toFixed(2)} s`));
  row.cells[6].className = "more";
  return row;
}

// A number; nothing is written fainter, so that the others are seen.
function counted(count, name = "") {
  const cell = make("td", String(count));
  cell.className = count === 0 ? "zero" : name;
  return cell;
}
