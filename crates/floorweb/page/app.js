// The page: the meeting of its link, the connection, and what came of one's own requests.

import { isolate } from "./bidi.js";
import { makeCard, showFloor, showRule } from "./card.js";
import { prepareChair, pressChairsKey } from "./chair.js";
import { showTimes } from "./entries.js";
import { askName } from "./guest.js";
import { prepareInvite, showInvite } from "./invite.js";
import { followMeeting } from "./live.js";
import { awaitHand, isInSight, settleHand, showMine, showOutcome } from "./mine.js";
import { noteHolders, prepareMinutes } from "./minutes.js";
import { preparePeople, showPeople } from "./people.js";
import { floorOf, isChair, mineOf, requestsOf, room, shown, titleOf } from "./room.js";
import { hideNotice, prepareTexts, setChip, showNotice, tell, warn } from "./say.js";
import { Session } from "./session.js";
import { alertTurn, isSet, prepareQuestion, prepareSettings } from "./settings.js";
import { texts, told } from "./texts.js";

const $ = (id) => document.getElementById(id);

/** One's own requests as they stood last, by number. */
const own = new Map();
/** Why somebody isn't let in. */
const ADMITTANCE = ["out", "locked"];
/** When the connection was lost, while it is. */
let lostAt;

start();

async function start() {
  prepareTexts();
  prepareSettings($("settings"), warn);
  prepareQuestion($("settings"));
  setChip("connecting");
  addEventListener("hashchange", () => location.reload());
  const token = location.hash.slice(1);
  if (!token) return stop("noLink");
  const meeting = await load(token);
  if (!meeting) return;
  if (meeting.guest) return askName(token, meeting);
  if (meeting.refused) return wait(token, meeting);
  room.meeting = meeting;
  prepareMeeting();
  prepareChair();
  prepareMinutes();
  preparePeople();
  prepareInvite();
  connect(token);
  followMeeting(token, takeMeeting);
}

/** What the token's user is told of the meeting. */
async function load(token) {
  try {
    const answer = await fetch("/meeting", { headers: { Authorization: `Bearer ${token}` } });
    if (answer.ok) return await answer.json();
    if (answer.status === 404) return stop("noMeeting");
  } catch {
    // The gateway can't be reached.
  }
  return stop("unreachable", () => location.reload());
}

/** Says why its user isn't let in, and goes on by itself once that is otherwise. */
function wait(token, { title, conference, refused }) {
  $("title").textContent = title ? isolate(title) : texts.conference(conference);
  stop(refused);
  followMeeting(token, (meeting) => meeting.refused || meeting.ended || location.reload());
}

function stop(kind, again) {
  setChip(kind);
  showNotice(kind, again);
}

function prepareMeeting() {
  const { cards } = room;
  showMeeting();
  addEventListener("keydown", pressKey);
  // A browser complains of a page that asks before anybody has touched it.
  addEventListener("beforeunload", (event) => held().length > 0 && navigator.userActivation?.hasBeenActive && event.preventDefault());
  $("leave").addEventListener("click", leave);
  setInterval(showSeconds, 1_000);
}

/** Shows what changes by itself with each second. */
function showSeconds() {
  room.cards.forEach(showTimes);
  if (lostAt !== undefined) room.cards.forEach(showMine);
}

/** For how many seconds the server still keeps one's place; 0 where that isn't known. */
room.graceLeft = () => Math.max(0, Math.ceil((room.meeting.grace ?? 0) - (Date.now() - (lostAt ?? Date.now())) / 1_000));

/** Shows what the meeting is: users, floors and chairs may have come since it was shown. */
function showMeeting() {
  const { meeting, cards } = room;
  $("title").textContent = meeting.title ? isolate(meeting.title) : texts.conference(meeting.conference);
  $("me").textContent = texts.youAre(isolate(meeting.name || texts.user(meeting.user)), isChair());
  $("keys").textContent = isChair() ? texts.chairsKeys : "";
  for (const floor of meeting.floors) {
    const card = cards.get(floor.id);
    if (card) {
      showRule(card, floor);
    } else {
      cards.set(floor.id, makeCard(floor));
      $("floors").append(cards.get(floor.id).node);
    }
  }
  showPeople();
  showInvite();
}

/** Takes what is told of the meeting when it has changed. */
function takeMeeting(meeting) {
  if (meeting.ended) return room.session.finish("meeting");
  if (meeting.refused) return room.session.finish(meeting.refused);
  const before = room.meeting.floors.length;
  room.meeting = meeting;
  showMeeting();
  if (meeting.floors.length !== before) room.session.watch(meeting);
  room.cards.forEach(showFloor);
  showTitle();
  if (ADMITTANCE.includes(room.session.cause) && room.session.state === "ended") room.session.again();
}

function connect(token) {
  const session = new Session(token, room.meeting);
  room.session = session;
  session.addEventListener("state", showState);
  session.addEventListener("floor", (event) => hearFloor(event.detail));
  session.addEventListener("own", (event) => hearOwn(event.detail));
  addEventListener("online", () => session.state === "waiting" && session.connect());
  session.connect();
}

/** R raises and lowers the hand of the card that has the focus, or of the first; further keys are its chair's. */
function pressKey(event) {
  const isTyping = event.target.closest?.("input:not([type=checkbox]), select, dialog");
  if (event.ctrlKey || event.altKey || event.metaKey || event.repeat || isTyping || !isSet("key") || room.session.state !== "open") return;
  const key = event.key.toLowerCase();
  const cards = [...room.cards.values()];
  const here = document.activeElement;
  const near = cards.find((one) => one.node === here?.closest(".floor"));
  const card = near ?? cards.find((one) => one.isMine) ?? cards[0];
  if (!card) return;
  if (key === "r") (near ?? cards[0]).part(".hand").click();
  else if (!pressChairsKey(card, key, here)) return;
  // The key isn't typed into what it opens.
  event.preventDefault();
}

function hearFloor(id) {
  const card = room.cards.get(id);
  if (!card) return;
  showFloor(card);
  if (room.session.state === "open") noteHolders(card);
  showPeople();
  showTitle();
}

const namesOf = (floors) => floors.map(({ id }) => titleOf(floorOf(id))).join(texts.and);

/** Tells what came of a request of one's own. */
function hearOwn(request) {
  const floors = namesOf(request.floors);
  const { status } = request;
  const reason = request.reason && isolate(request.reason);
  const before = own.get(request.id)?.status;
  own.set(request.id, request);
  if (status === before) return;
  switch (status) {
    case "Granted":
      tell(told.granted(floors), "good");
      return alertTurn(told.turn(floors));
    case "Accepted":
      return before === "Pending" ? tell(told.queued(floors)) : undefined;
    case "Denied":
    case "Revoked":
      tell(told.ended(floors, status, before === "Granted", reason), "bad");
      return showEnd({ ...request, reason }, floors, before === "Granted");
    case "Cancelled":
    case "Released":
      return tell(told.ended(floors, status, before === "Granted", reason));
  }
}

/** Says on the cards of a request that others ended how it ended; where none is in sight also below. */
function showEnd({ id: request, floors, beneficiary, status, reason }, names, had) {
  if (beneficiary && beneficiary.id !== room.meeting.user) return;
  const cards = floors.map(({ id }) => room.cards.get(id)).filter(Boolean);
  for (const card of cards) showOutcome(card, request, told.onCard(status, had, reason), "bad");
  if (!cards.some(isInSight)) warn(told.ended(names, status, had, reason));
}

/** The floors that one has. */
const held = () => (room.session?.state === "open" ? [...room.cards.values()].filter((card) => mineOf(card)?.status === "Granted") : []);

/** Leaves the meeting; whoever has a floor is asked first. */
async function leave() {
  const floors = held().map((card) => titleOf(card.floor));
  const dialog = $("leaving");
  if (floors.length) {
    dialog.querySelector("p").textContent = told.leaving(floors.join(texts.and));
    dialog.returnValue = "";
    dialog.showModal();
    await new Promise((resolve) => dialog.addEventListener("close", resolve, { once: true }));
    if (dialog.returnValue !== "do") return;
  }
  room.session.leave();
}

function showState() {
  const { state, cause, seconds } = room.session;
  setChip(state === "ended" && ["left", ...ADMITTANCE].includes(cause) ? cause : state, seconds);
  const wasOpen = document.body.classList.contains("open");
  document.body.classList.toggle("open", state === "open");
  $("leave").hidden = state === "ended";
  if (wasOpen && state === "waiting") lose();
  if (state === "ended") {
    forget();
    showNotice(cause, ["left", "meeting", "full"].includes(cause) ? () => room.session.again() : undefined);
  } else if (state === "open") {
    hideNotice();
    settle();
  }
  room.cards.forEach(showFloor);
  if (state === "open") room.cards.forEach(noteHolders);
  showPeople();
  showTitle();
}

/** The connection is lost; what one had is kept as long as the server keeps it. */
function lose() {
  lostAt = Date.now();
  room.cards.forEach(awaitHand);
  if ([...room.cards.values()].some((card) => card.away)) tell(told.away, "bad");
}

/** The connection is there: says what was kept of what one had, also by a page that was loaded anew, and what wasn't. */
function settle() {
  const isReturn = lostAt !== undefined;
  lostAt = undefined;
  const cards = [...room.cards.values()];
  const settled = cards.map((card) => ({ card, ...settleHand(card) }));
  const names = (ones) => ones.map(({ card }) => titleOf(card.floor)).join(texts.and);
  const kept = isReturn ? settled.filter((one) => one.kept) : cards.filter((card) => mineOf(card)).map((card) => ({ card }));
  const lost = settled.filter((one) => one.lost);
  if (kept.length) tell(told.back(names(kept)), "good");
  if (lost.length) tell(told.lost(names(lost)), "bad");
  own.clear();
  for (const card of cards) if (mineOf(card)) own.set(mineOf(card).id, mineOf(card));
}

/** It has ended: nothing that one had is kept. */
function forget() {
  lostAt = undefined;
  own.clear();
  for (const card of room.cards.values()) card.away = card.lost = card.mine = undefined;
}

/** Who has to do something sees it in the tab. */
function showTitle() {
  const cards = [...room.cards.values()];
  const hands = cards.filter((card) => card.isMine).flatMap(requestsOf).filter((request) => request.status === "Pending").length;
  document.title = told.title(hands, held().map((card) => titleOf(card.floor)).join(", "), $("title").textContent);
}
