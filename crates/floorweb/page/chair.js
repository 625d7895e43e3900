// What a chair decides: on one request, on who is next, or on all hands at once, and why.

import { MAX_REASON_LENGTH, chairAction, hello } from "./bfcp.js";
import { noteDecision } from "./minutes.js";
import { hasRoom, holdersOf, isOpen, queueOf, room, shown, titleOf } from "./room.js";
import { countBytes, tell, warn } from "./say.js";
import { Lost } from "./session.js";
import { acts, refusal, told } from "./texts.js";
import { sinceOf } from "./times.js";

const dialog = document.getElementById("why");

/** The acts that ask for a reason. */
const ASKS = new Set(["Denied", "Removed", "Revoked"]);

/** Has the dialog count what is typed. */
export function prepareChair() {
  countBytes(dialog.querySelector("input"), MAX_REASON_LENGTH);
  dialog.querySelector(".back").addEventListener("click", () => dialog.close());
}

/** What a chair may decide on a request, what is done most first. Whoever is in the queue has the floor by itself, once there is room. */
export function chairsActs(card, { id, status }) {
  const isFirst = queueOf(card)[0]?.id === id;
  switch (status) {
    case "Pending":
      return hasRoom(card) ? ["Granted", "Denied"] : ["Accepted", "Now", "Denied"];
    case "Accepted":
      return isFirst ? ["Now", "Removed"] : ["Now", "Front", "Removed"];
    case "Granted":
      return ["Revoked"];
    default:
      return [];
  }
}

/** Does what may be refused, and says the refusal. Tells whether it was done. */
export async function attempt(act) {
  warn("");
  try {
    await act();
    return true;
  } catch (error) {
    const text = error instanceof Lost ? told.lostAnswer : refusal(error.code);
    warn(text);
    tell(text, "bad");
    return false;
  }
}

/** The button of a decision. `leave` is called before it is sent, and `stay` where it is refused. */
export function actButton(card, request, act, who, { leave, stay }) {
  const { label, of } = acts[act];
  const button = document.createElement("button");
  button.type = "button";
  button.textContent = label;
  button.dataset.act = act;
  button.setAttribute("aria-label", of(shown(who)));
  button.className = ASKS.has(act) ? "danger" : "good";
  button.addEventListener("click", async () => {
    if (button.ariaDisabled === "true") return;
    const reason = ASKS.has(act) ? await askWhy(acts.ask(of(shown(who))), label) : "";
    if (reason === null) return;
    // Disabled outright it would lose the focus.
    button.ariaDisabled = "true";
    leave();
    if (!(await decide(card, request, act, reason))) stay();
    button.ariaDisabled = "false";
  });
  return button;
}

/** Does an act upon a request, and tells whether it was done. */
async function decide(card, request, act, reason = "") {
  if (act === "Now") return giveNow(card, request);
  if (act === "Front") return moveToFront(card, request);
  if (ASKS.has(act)) noteDecision(card.floor, request, act, reason);
  return say(card, request, act === "Removed" ? "Denied" : act, reason);
}

/** Says a chair's word, and waits until the page was told what came of it: that comes before the next answer. */
function say(card, request, status, reason = "") {
  return attempt(async () => {
    await room.session.ask(chairAction({ request, floor: card.floor.id, status, reason }));
    await room.session.ask(hello());
  });
}

/**
 * Puts a request in front of all that wait. A chair's word Granted puts it in front of those of whom the last word
 * isn't that; so whoever was put in front before is accepted anew, which takes that word back.
 */
async function moveToFront(card, request) {
  if (!(await say(card, request, "Granted"))) return false;
  for (;;) {
    const [first] = queueOf(card);
    if (!first || first.id === request || first.status !== "Accepted" || !stillWaits(card, request)) return true;
    if (!(await say(card, first.id, "Accepted"))) return false;
    // It stays in front where a joint request's other floors keep it there.
    if (queueOf(card)[0]?.id === first.id) return true;
  }
}

const stillWaits = (card, request) => queueOf(card).some(({ id }) => id === request);

/** Gives the floor to this request, and takes it from whoever has had it longest where there is no room. */
async function giveNow(card, request) {
  if (!(await moveToFront(card, request))) return false;
  return stillWaits(card, request) ? takeFromOne(card) : true;
}

async function takeFromOne(card) {
  const [longest] = holdersOf(card).sort((a, b) => (sinceOf(a.id) ?? 0) - (sinceOf(b.id) ?? 0) || a.id - b.id);
  return longest ? say(card, longest.id, "Revoked") : true;
}

/** Gives the floor to the first of those who want it. */
export async function next(card) {
  const [first] = queueOf(card);
  if (!first || card.isMoving) return;
  card.isMoving = true;
  if (first.status === "Accepted") await takeFromOne(card);
  else await giveNow(card, first.id);
  card.isMoving = false;
}

/** Denies whoever has a hand up or waits, with one reason. */
export async function lowerAll(card) {
  const reason = await askWhy(acts.ask(acts.all.of(titleOf(card.floor))), acts.all.label);
  if (reason === null) return;
  for (const { id } of queueOf(card).reverse()) {
    if (!isOpen()) return;
    noteDecision(card.floor, id, "Denied", reason);
    await say(card, id, "Denied", reason);
  }
}

/** Which button of an entry a key presses, and which of a card. */
const KEYS = { g: ["Now", "Granted"], q: ["Accepted"], f: ["Front"], d: ["Denied", "Removed"] };

/** Does what a key of a chair's does, and tells whether it does anything; `near` is what has the focus. */
export function pressChairsKey(card, key, near) {
  if (!card.isMine) return false;
  const entry = near?.closest(".queue .entry") ?? card.part(".queue .entry");
  const buttons = { n: card.part(".next"), l: card.part(".lower") };
  const button = buttons[key] ?? KEYS[key]?.map((act) => entry?.querySelector(`[data-act=${act}]`)).find(Boolean);
  if (!button || button.hidden || button.disabled) return false;
  // What has been decided on leaves its row, and the focus goes on from there.
  if (!buttons[key]) button.focus();
  button.click();
  return true;
}

/** Asks for a reason; `null` where the chair goes back. */
function askWhy(title, label) {
  dialog.querySelector("h2").textContent = title;
  dialog.querySelector(".danger").textContent = label;
  dialog.querySelector("form").reset();
  dialog.returnValue = "";
  dialog.showModal();
  return new Promise((resolve) => {
    dialog.addEventListener(
      "close",
      () => resolve(dialog.returnValue === "do" ? dialog.querySelector("input").value.trim() : null),
      { once: true },
    );
  });
}
