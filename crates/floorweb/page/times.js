// Since when each request stands as it does, and how long whoever has a floor may have it.

import { keep, recall } from "./kept.js";
import { isFollowed, order } from "./orders.js";
import { room, titleOf } from "./room.js";
import { texts, told } from "./texts.js";

/** So many seconds before a limit it is warned of. */
const SOON = 30;

const place = () => `since.${room.meeting.conference}`;
let known;

/** Each request's status, with when this page saw it come to that; a page that is loaded anew still knows. */
function all() {
  known ??= new Map(recall(place(), []));
  return known;
}

/** Notes how a request stands. What a page is told first may have stood so for long: `isFirst` says so. */
export function noteStanding({ id, status }, isFirst) {
  const before = all().get(id);
  if (before?.status === status) return;
  all().set(id, { status, at: isFirst ? null : Date.now() });
  keep(place(), [...all()]);
}

/** Forgets the requests that are ongoing no more. */
export function forgetOthers(ongoing) {
  const over = [...all().keys()].filter((id) => !ongoing.has(id));
  if (!over.length) return;
  for (const id of over) all().delete(id);
  keep(place(), [...all()]);
}

/** When a request came to stand as it does, in milliseconds; `null` where the page hasn't seen it. */
export const sinceOf = (id) => all().get(id)?.at ?? null;

/** 4:05, in minutes and seconds. */
export function clock(seconds) {
  const whole = Math.max(0, Math.floor(seconds));
  const two = (number) => String(number).padStart(2, "0");
  const hours = Math.floor(whole / 3600);
  return `${hours ? `${hours}:${two(Math.floor(whole / 60) % 60)}` : Math.floor(whole / 60)}:${two(whole % 60)}`;
}

const keptLimit = (floor) => `limit.${room.meeting.conference}.${floor.id}`;

/** For how many seconds one should have a floor, 0 for any time: as all pages are told; where they are told nothing while they are open, as its chair set it here. */
export function limitOf(floor) {
  if (isFollowed()) return floor.limit ?? 0;
  const own = floor.chair === room.meeting.user ? localStorage.getItem(keptLimit(floor)) : null;
  return own === null ? (floor.limit ?? 0) : Number(own);
}

export async function setLimit(floor, seconds) {
  if (!isFollowed()) return localStorage.setItem(keptLimit(floor), seconds);
  if (await order(`limit ${floor.id} ${seconds}`, told.limited(titleOf(floor), seconds ? texts.limits(seconds) : texts.noLimit))) floor.limit = seconds || null;
}

/** What an entry shows of its time: a text, and whether the limit is near or over. */
export function timeOf(floor, { id, status }) {
  const at = sinceOf(id);
  if (at === null) return { text: "", state: "" };
  const seconds = (Date.now() - at) / 1000;
  if (status !== "Granted") return { text: seconds < 60 ? texts.now : texts.minutesAgo(Math.floor(seconds / 60)), state: "" };
  const limit = limitOf(floor);
  if (!limit) return { text: clock(seconds), state: "" };
  if (seconds >= limit) return { text: texts.over(clock(seconds - limit)), state: "over" };
  return { text: texts.of(clock(seconds), clock(limit)), state: limit - seconds <= SOON ? "soon" : "" };
}

/** Fills the choice of limits, with one that stands besides. */
export function fillLimits(select, floor) {
  const limit = limitOf(floor);
  const choices = [...new Set([0, 60, 120, 180, 300, 600, limit])].sort((a, b) => a - b);
  select.replaceChildren(...choices.map((seconds) => new Option(seconds ? texts.limits(seconds) : texts.noLimit, seconds, false, seconds === limit)));
  select.setAttribute("aria-label", `${texts.limit}: ${titleOf(floor)}`);
}
