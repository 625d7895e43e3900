// The minutes of a meeting: who had which floor from when to when, with topics and reasons, and what its chair decided.

import { isolate } from "./bidi.js";
import { keep, recall } from "./kept.js";
import { nameOf, plainTitleOf, floorOf, room, requestsOf } from "./room.js";
import { tell, warn } from "./say.js";
import { texts, told } from "./texts.js";
import { clock, sinceOf } from "./times.js";

const $ = (selector) => document.querySelector(`#minutes ${selector}`);

const place = () => `minutes.${room.meeting.conference}`;
let records;

/** What was noted, in order; a page that is loaded anew still knows. `to` is `null` while somebody has the floor. */
function all() {
  records ??= recall(place(), []);
  return records;
}

export function prepareMinutes() {
  $(".copy").addEventListener("click", copy);
  $(".save").addEventListener("click", save);
  show();
}

/** Notes who has a floor now, and that those who had it have it no more. */
export function noteHolders(card) {
  const holders = requestsOf(card).filter((request) => request.status === "Granted");
  const floor = card.floor.id;
  let isChanged = false;
  for (const record of all()) {
    if (record.floor !== floor || record.to !== null || holders.some(({ id }) => id === record.request)) continue;
    record.to = Date.now();
    isChanged = true;
  }
  for (const { id, beneficiary, info } of holders) {
    if (all().some((record) => record.request === id && record.floor === floor && record.what === "had")) continue;
    all().push({ what: "had", floor, request: id, who: nameOfPerson(beneficiary), user: beneficiary?.id, topic: info, from: sinceOf(id), to: null, reason: "" });
    isChanged = true;
  }
  if (isChanged) changed();
}

/** Notes what the chair decides, with the reason. */
export function noteDecision(floor, request, act, reason) {
  const { beneficiary, info = "" } = [...room.session.floors.values()].flat().find(({ id }) => id === request) ?? {};
  const had = all().find((record) => record.request === request && record.floor === floor.id && record.to === null);
  if (act === "Revoked" && had) had.reason = reason;
  else all().push({ what: act, floor: floor.id, request, who: nameOfPerson(beneficiary), user: beneficiary?.id, topic: info, from: Date.now(), to: Date.now(), reason });
  changed();
}

const nameOfPerson = (person) => (person ? person.name || nameOf(person.id) : texts.somebody);

/** How often and for how many seconds a user has had a floor. */
export function spokenOf(user) {
  const had = all().filter((record) => record.what === "had" && record.user === user);
  const seconds = had.reduce((sum, { from, to }) => sum + (from === null ? 0 : ((to ?? Date.now()) - from) / 1000), 0);
  return { times: had.length, seconds };
}

function changed() {
  keep(place(), all());
  show();
}

function show() {
  $(".none").hidden = all().length > 0;
  for (const button of document.querySelectorAll("#minutes button")) button.disabled = all().length === 0;
  const list = $("ol");
  all().forEach((record, index) => {
    const item = list.children[index] ?? list.appendChild(document.createElement("li"));
    const text = line(record);
    if (item.textContent !== text) item.textContent = text;
  });
}

const time = (at) => (at === null ? "" : new Date(at).toLocaleTimeString([], { hour: "2-digit", minute: "2-digit", second: "2-digit" }));
const what = (record) => (record.what === "had" ? told.had : told.did[record.what]);
const row = (record, at = time) => [at(record.from), record.to === null ? "" : at(record.to), plainTitleOf(floorOf(record.floor)), record.who, what(record), record.topic, record.reason];

/** A time with its day, as programs that calculate read it: 2026-11-29 14:05:12. */
function stamp(at) {
  if (at === null) return "";
  const date = new Date(at);
  const two = (number) => String(number).padStart(2, "0");
  const day = `${date.getFullYear()}-${two(date.getMonth() + 1)}-${two(date.getDate())}`;
  return `${day} ${two(date.getHours())}:${two(date.getMinutes())}:${two(date.getSeconds())}`;
}

/** A record as a line of text, in which a name or a topic turns nothing beside it. */
function line(record) {
  const [from, to, floor, who, did, topic, reason] = row(record);
  const length = record.what === "had" && record.from !== null && record.to !== null ? ` (${clock((record.to - record.from) / 1000)})` : "";
  const span = record.what === "had" ? `${from}–${to}` : from;
  return `${span} ${isolate(floor)}: ${isolate(who)} ${did}${length}${topic ? `, ${isolate(topic)}` : ""}${reason ? `: ${isolate(reason)}` : ""}`;
}

async function copy() {
  try {
    await navigator.clipboard.writeText(`${all().map(line).join("\n")}\n`);
    tell(told.copied);
  } catch {
    warn(told.notCopied);
  }
}

/** A cell of a file of comma-separated values (RFC 4180). A program that calculates takes no text for a formula. */
const cell = (text) => `"${(/^[=+\-@\t\r]/.test(text) ? `'${text}` : text).replaceAll('"', '""')}"`;

export const csv = () => [told.columns, ...all().map((record) => row(record, stamp))].map((cells) => cells.map(cell).join(",")).join("\r\n") + "\r\n";

function save() {
  const link = document.createElement("a");
  // The mark in front has programs that calculate read it as UTF-8.
  link.href = URL.createObjectURL(new Blob(["\ufeff", csv()], { type: "text/csv" }));
  link.download = `${told.file}-${room.meeting.conference}.csv`;
  link.click();
  URL.revokeObjectURL(link.href);
}
