// The operator's page: all conferences as the control socket tells of them, and what the operator has done.

import { countEvents, showChart } from "./operatorchart.js";
import { choose, chosen, hide, showDetail } from "./operatordetail.js";
import { floorNameOf, nameOf, reasonOf, titleOf } from "./operatornames.js";
import { may } from "./operatororder.js";
import { $, prepareTexts, setState, stop, tell, warn } from "./operatorsay.js";
import { markRow, prepareTable, showRow } from "./operatortable.js";
import { texts, told } from "./operatortexts.js";

const FIRST_WAIT = 500;
const LONGEST_WAIT = 15_000;

/** The conferences as they were told of last, by number. */
const known = new Map();

let wait = FIRST_WAIT;
/** What isn't told again where a page comes back. */
let isFirst = true;

start();

function start() {
  prepareTexts();
  addEventListener("hashchange", () => location.reload());
  const token = location.hash.slice(1);
  setState(token ? "connecting" : "ended");
  if (!token) return stop("noLink");
  prepareTable(known, pick);
  showChart();
  setInterval(showChart, 5_000);
  follow(token);
}

/** Shows a conference in detail; its row has the focus again once that is hidden. */
function pick(number, button) {
  const now = known.get(number);
  if (!now) return;
  choose(now, () => {
    markRow(undefined);
    if (button.isConnected) button.focus();
  });
  markRow(number);
}

// What is told

/** Reads what is told, line by line, and comes again where that ends. */
async function follow(token) {
  setState("connecting");
  try {
    const answer = await fetch("/operator/live", { headers: { Authorization: `Bearer ${token}` } });
    if (answer.status === 404) return stop("noOperator");
    if (answer.ok) await read(answer.body.getReader());
  } catch {
    // The gateway can't be reached.
  }
  setState("waiting");
  setTimeout(() => follow(token), wait * (0.75 + Math.random() / 2));
  wait = Math.min(2 * wait, LONGEST_WAIT);
}

async function read(reader) {
  const decoder = new TextDecoder();
  let text = "";
  const heard = new Set();
  for (;;) {
    const { done, value } = await reader.read();
    if (done) return;
    text += decoder.decode(value, { stream: true });
    const lines = text.split("\n");
    text = lines.pop();
    for (const line of lines) if (line) hear(JSON.parse(line), heard);
    showCounts();
  }
}

function hear(line, heard) {
  if ("role" in line) {
    may.order = line.role !== "observe";
    return;
  }
  if ("followed" in line) {
    wait = FIRST_WAIT;
    setState(line.followed ? "open" : "stale");
    if (!line.followed) return warn(told.lost);
    // What wasn't told again isn't there any more.
    for (const number of known.keys()) if (!heard.has(number)) take({ conference: number, phase: "gone" });
    isFirst = false;
    return;
  }
  heard.add(line.conference);
  take(line);
}

/** Takes what a conference is now. */
function take(now) {
  const before = known.get(now.conference);
  showRow(now.conference);
  if (now.phase === "gone") {
    known.delete(now.conference);
    if (chosen === now.conference) hide();
    return;
  }
  if (before) countEvents(now.events - before.events);
  if (!isFirst) tellChanges(before, now);
  known.set(now.conference, now);
  if (chosen === now.conference) showDetail(now);
}

/** Tells what differs from what was told before. */
function tellChanges(before, now) {
  const title = titleOf(now);
  if (before?.phase !== now.phase) tell(({ open: told.opened, ended: told.ended, broken: told.broken })[now.phase](title));
  if (!before || now.phase !== "open") return;
  const here = (list, n) => list.some((one) => one.n === n);
  for (const one of now.members) if (!here(before.members, one.n)) tell(told.came(nameOf(now, one.user), title));
  for (const one of before.members) if (!here(now.members, one.n)) tell(told.went(nameOf(now, one.user), title));
  const same = (list, one) => list.find((other) => other.request === one.request && other.floor === one.floor);
  for (const one of now.requests) {
    if (same(before.requests, one)?.status === one.status) continue;
    const text = one.status === "Granted" ? told.has : told.asks;
    tell(text(nameOf(now, one.user), floorNameOf(now, one.floor), reasonOf(now, one.request)));
  }
  for (const one of before.requests) if (!same(now.requests, one)) tell(told.gone(nameOf(now, one.user), floorNameOf(now, one.floor)));
}

function showCounts() {
  const open = [...known.values()].filter((now) => now.phase === "open");
  const counts = texts.counts(open.length, open.reduce((sum, now) => sum + now.members.length, 0));
  $("me").textContent = may.order ? counts : `${counts}. ${texts.observes}`;
  $("none").hidden = known.size > 0;
  $("none").textContent = texts.noConferences;
}
