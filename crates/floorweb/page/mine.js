// One's own hand at a floor: raised and lowered by one button, kept over a connection that is lost.

import { floorRelease, floorRequest } from "./bfcp.js";
import { attempt } from "./chair.js";
import { hasRoom, isOpen, mineOf, room, textsOf } from "./room.js";
import { askForSignals } from "./settings.js";
import { asking, standing, texts } from "./texts.js";

/** After how many milliseconds without an answer the page says that it asks. */
const SLOW = 1_000;

/** The priority of a request that names none (RFC 8855, section 5.2.4). */
const NORMAL = 2;

/** Fills in what a hand may be raised with. Where all pages are told that priorities are the chair's, nobody else is offered one above normal. */
export function fillHand(card) {
  const { meeting } = room;
  const isHeld = meeting.priorities === "chair" && card.floor.chair !== null && card.floor.chair !== meeting.user;
  const offered = texts.priorities.slice(0, isHeld ? NORMAL + 1 : undefined);
  const select = card.part("[name=priority]");
  if (select.options.length !== offered.length) {
    select.replaceChildren(...offered.map((name, value) => new Option(name, value, value === NORMAL, value === NORMAL)));
  }
  card.part(".proxy").hidden = !meeting.proxy;
}

export async function raiseOrLower(card) {
  if (card.isAsking) return;
  card.isAsking = true;
  card.outcome = undefined;
  const slow = setTimeout(() => {
    card.isSlow = true;
    showMine(card);
  }, SLOW);
  card.part(".hand").ariaDisabled = "true";
  const mine = mineOf(card);
  await attempt(() => (mine ? room.session.ask(floorRelease(mine.id)) : raise(card)));
  clearTimeout(slow);
  card.isAsking = card.isSlow = false;
  card.part(".hand").ariaDisabled = "false";
  showMine(card);
}

async function raise(card) {
  const form = card.part("form").elements;
  const beneficiary = Number(form.beneficiary.value);
  await room.session.ask(
    floorRequest({
      floors: [card.floor.id],
      beneficiary: room.meeting.proxy && beneficiary !== room.meeting.user ? beneficiary : undefined,
      priority: Number(form.priority.value),
      info: form.info.value.trim(),
    }),
  );
  card.lost = undefined;
  card.part("form").reset();
  card.part(".more").open = false;
  askForSignals();
}

/** Says on the card what came of a request, until the next press or the next request. */
export function showOutcome(card, request, text, kind) {
  card.outcome = { request, text, kind };
  showMine(card);
}

/** Whether what the card says of one's own hand is in sight. */
export function isInSight(card) {
  const { top, bottom } = card.part(".standing").getBoundingClientRect();
  return top >= 0 && bottom <= innerHeight;
}

/** The connection is lost, and one's own hand is kept as long as the server keeps it. */
export function awaitHand(card) {
  card.away = card.mine;
  card.outcome = undefined;
}

/** The connection is there again: gives one's own hand that was kept, or that was lost. What a lost one said stays in the form, so that one press raises it again. */
export function settleHand(card) {
  const { away } = card;
  card.away = undefined;
  if (!away) return {};
  if (mineOf(card)?.id === away.id) return { kept: away };
  card.mine = undefined;
  card.lost = away;
  const form = card.part("form").elements;
  form.info.value = away.info;
  form.info.dispatchEvent(new Event("input"));
  form.priority.value = away.priority;
  return { lost: away };
}

export function showMine(card) {
  const mine = mineOf(card);
  if (isOpen()) card.mine = mine;
  if (mine) card.lost = undefined;
  if (mine && mine.id !== card.outcome?.request) card.outcome = undefined;
  const button = card.part(".hand");
  const isHolder = mine?.status === "Granted";
  card.node.classList.toggle("granted", isHolder);
  card.node.classList.toggle("raised", Boolean(mine) && !isHolder);
  button.disabled = !isOpen();
  button.textContent = card.isSlow ? asking : handText(card, mine);
  card.part(".more").hidden = Boolean(mine);
  const { text, kind } = standingOf(card, mine);
  const shows = card.part(".standing");
  shows.dataset.kind = kind;
  if (shows.textContent !== text) shows.textContent = text;
}

function handText(card, mine) {
  const hand = textsOf(card.floor);
  if (mine) return mine.status === "Granted" ? hand.giveBack : hand.lower;
  if (isOpen() && card.floor.chair === null && hasRoom(card)) return hand.take;
  return card.lost ? hand.raiseAgain : hand.raise;
}

function standingOf(card, mine) {
  if (card.isSlow) return { text: asking, kind: "" };
  if (mine?.status === "Granted") return { text: textsOf(card.floor).mine, kind: "" };
  if (mine) return { text: standing[mine.status]?.(mine.position) ?? "", kind: "" };
  if (card.away) {
    const text = card.away.status === "Granted" ? standing.awayFloor : standing.awayHand;
    return { text: text(room.graceLeft?.() ?? 0), kind: "bad" };
  }
  if (card.lost) return { text: card.lost.status === "Granted" ? standing.lostFloor() : standing.lostHand(), kind: "bad" };
  return card.outcome ?? { text: "", kind: "" };
}
