// The table of all conferences: searched, sorted, and shown a frame at a time, so that hundreds stay fluent.

import { nameOf, titleOf } from "./operatornames.js";
import { $, clone } from "./operatorsay.js";
import { texts } from "./operatortexts.js";

/** What a conference is sorted by, by column. */
const KEYS = {
  title: (now) => (now.title || "").toLocaleLowerCase(),
  people: (now) => now.members.length,
  holders: (now) => countOf(now, "Granted"),
  hands: (now) => handsOf(now),
  events: (now) => now.events,
  phase: (now) => now.phase,
};

const rows = new Map();
const changed = new Set();
let order = { by: "title", isDown: false };
let pick;
let all;

const countOf = (now, status) => now.requests.filter((one) => one.status === status).length;
const handsOf = (now) => countOf(now, "Accepted") + countOf(now, "Pending");

/** Prepares the table of these conferences, by number; `choose` is called with the one that is pressed. */
export function prepareTable(conferences, choose) {
  all = conferences;
  pick = choose;
  const head = $("table").querySelector("thead tr");
  for (const [by, text] of Object.entries(texts.columns)) {
    const cell = document.createElement("th");
    cell.scope = "col";
    cell.className = by;
    const button = document.createElement("button");
    button.type = "button";
    button.textContent = text;
    button.addEventListener("click", () => sortBy(by));
    cell.append(button);
    head.append(cell);
  }
  $("search").querySelector("input").addEventListener("input", () => arrange());
  showOrder();
}

/** Names are read from A on, and of numbers the greatest are wanted first. */
function sortBy(by) {
  order = { by, isDown: order.by === by ? !order.isDown : by !== "title" && by !== "phase" };
  showOrder();
  arrange();
}

function showOrder() {
  for (const cell of $("table").querySelectorAll("thead th")) {
    if (cell.className === order.by) cell.ariaSort = order.isDown ? "descending" : "ascending";
    else cell.removeAttribute("aria-sort");
  }
}

/** Has a conference shown anew with the next frame. */
export function showRow(number) {
  if (changed.size === 0) requestAnimationFrame(showChanged);
  changed.add(number);
}

function showChanged() {
  for (const number of changed) {
    const now = all.get(number);
    if (now) fill(rowOf(number), now);
    else {
      rows.get(number)?.remove();
      rows.delete(number);
    }
  }
  arrange(changed);
  changed.clear();
}

function rowOf(number) {
  if (!rows.has(number)) {
    const row = clone("row");
    row.dataset.conference = number;
    row.querySelector("button").addEventListener("click", (event) => pick(number, event.currentTarget));
    rows.set(number, row);
  }
  return rows.get(number);
}

function fill(row, now) {
  const set = (part, text) => {
    const node = row.querySelector(part);
    if (node.textContent !== text) node.textContent = text;
  };
  const away = now.members.filter((one) => one.away).length;
  const holders = now.requests.filter((one) => one.status === "Granted").map((one) => nameOf(now, one.user));
  row.classList.toggle("over", now.phase !== "open");
  row.classList.toggle("asked", countOf(now, "Pending") > 0);
  set(".title", titleOf(now));
  set(".people", now.phase === "open" ? texts.awayBesides(now.members.length - away, away) : texts.nothing);
  set(".holders", holders.join(texts.and) || texts.nothing);
  set(".hands", String(handsOf(now) || texts.nothing));
  set(".events", String(now.events));
  set(".phase", texts.phases[now.phase] ?? now.phase);
}

/** Puts the rows that the search finds in order. Where those of some conferences have changed only these are moved. */
function arrange(only) {
  const wanted = $("search").querySelector("input").value.trim().toLocaleLowerCase();
  const isFound = (now) => !wanted || [titleOf(now), ...now.users.map((user) => user.name)].some((text) => text.toLocaleLowerCase().includes(wanted));
  const key = KEYS[order.by];
  const turn = order.isDown ? -1 : 1;
  const found = [...all.values()].filter(isFound).sort((a, b) => turn * compare(key(a), key(b)) || a.conference - b.conference);
  const body = $("table").querySelector("tbody");
  const shown = new Set(found.map((now) => rowOf(now.conference)));
  const here = document.activeElement;
  for (const row of [...body.children]) {
    const isElsewhere = only instanceof Set && only.has(Number(row.dataset.conference)) && !isBetween(row, found);
    if (!shown.has(row) || isElsewhere) row.remove();
  }
  // From the last on, each goes in front of the one behind it.
  let next = null;
  for (let place = found.length - 1; place >= 0; place--) {
    const row = rowOf(found[place].conference);
    if (row.parentNode !== body || row.nextSibling !== next) body.insertBefore(row, next);
    next = row;
  }
  if (here !== document.activeElement && here?.isConnected) here.focus();
  $("none").hidden = found.length > 0;
  $("none").textContent = all.size ? texts.nothingFound : texts.noConferences;
  $("table").hidden = found.length === 0;
}

/** Whether a row stands between those that it belongs between. */
function isBetween(row, found) {
  const place = found.findIndex((now) => rowOf(now.conference) === row);
  const at = (one) => (found[one] ? rowOf(found[one].conference) : null);
  return place >= 0 && row.previousElementSibling === at(place - 1) && row.nextElementSibling === at(place + 1);
}

const compare = (a, b) => (typeof a === "string" ? a.localeCompare(b, undefined, { numeric: true }) : a - b);

/** Marks the row of the conference whose detail is shown, if any. */
export function markRow(number) {
  for (const [one, row] of rows) row.classList.toggle("chosen", one === number);
}
