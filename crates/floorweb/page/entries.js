// The entries of a floor's card: who has it, and who wants it, in the order in which they have it.

import { isolate } from "./bidi.js";
import { actButton, chairsActs } from "./chair.js";
import { holdersOf, isOpen, queueOf, requestsOf, room, shown, standsAt, titleOf } from "./room.js";
import { tell } from "./say.js";
import { texts, told } from "./texts.js";
import { forgetOthers, noteStanding, timeOf } from "./times.js";

export const clone = (id) => document.getElementById(id).content.firstElementChild.cloneNode(true);

/** The requests that a chair was told of. */
const greeted = new Set();

/** Shows the entries of a card as its floor's requests stand now. */
export function showEntries(card) {
  const requests = requestsOf(card);
  note(card, requests);
  const ongoing = new Set(requests.map((request) => request.id));
  for (const [request, entry] of card.entries) {
    if (ongoing.has(request)) continue;
    if (entry.contains(document.activeElement)) leave(card, request);
    entry.remove();
    card.entries.delete(request);
  }
  place(card, ".holders", holdersOf(card));
  place(card, ".queue", queueOf(card));
  moveFocus(card);
}

/** Notes since when requests stand as they do, and tells a chair of each hand. */
function note(card, requests) {
  if (!isOpen()) return;
  const isFirst = card.heard !== room.session.count;
  card.heard = room.session.count;
  for (const request of requests) {
    noteStanding(request, isFirst);
    if (greeted.has(request.id)) continue;
    greeted.add(request.id);
    if (request.status === "Pending" && card.isMine) tell(told.raises(titleOf(card.floor), shown(request.beneficiary)));
  }
  forgetOthers(new Set([...room.session.floors.values()].flat().map(({ id }) => id)));
}

/** Puts the entries of the requests into a list, in order. Entries that are there stay, with their focus. */
function place(card, section, requests) {
  const part = card.part(section);
  const list = part.querySelector("ul, ol");
  requests.forEach((request, index) => {
    const entry = card.entries.get(request.id) ?? clone("entry");
    card.entries.set(request.id, entry);
    fill(card, entry, request);
    // A decision moves the entry, and its focus with it.
    if (list.children[index] === entry) return;
    const here = entry.contains(document.activeElement) ? document.activeElement : undefined;
    list.insertBefore(entry, list.children[index] ?? null);
    here?.focus();
  });
  const none = part.querySelector(".none");
  if (none) none.hidden = requests.length > 0;
  const count = part.querySelector(".count");
  if (count) count.textContent = requests.length || "";
}

function fill(card, entry, request) {
  const part = (selector) => entry.querySelector(selector);
  const who = request.beneficiary ?? { id: -1, name: texts.somebody };
  const by = request.requestedBy;
  entry.classList.toggle("me", who.id === room.meeting.user);
  entry.dataset.request = request.id;
  entry.dataset.status = request.status;
  part(".place").textContent = request.status === "Accepted" ? request.position || standsAt(card, request).position || "" : "";
  part(".who").textContent = by && by.id !== who.id ? texts.askedBy(shown(who), shown(by)) : shown(who);
  part(".pending").hidden = request.status !== "Pending";
  part(".priority").hidden = request.priority === 2;
  part(".priority").textContent = texts.priorities[request.priority] ?? "";
  part(".priority").dataset.priority = request.priority;
  part(".about").textContent = request.info && isolate(request.info);
  part(".reason").textContent = request.reason ? texts.byTheChair(isolate(request.reason)) : "";
  showTime(card, entry, request);
  const acts = card.isMine ? chairsActs(card, request) : [];
  // One's own name is in the buttons' labels.
  const wanted = `${acts} ${shown(who)}`;
  if (entry.dataset.acts === wanted) return;
  const had = entry.contains(document.activeElement);
  entry.dataset.acts = wanted;
  showActs(card, part(".acts"), request.id, acts, who);
  if (had) part(".acts button")?.focus();
}

/** The first act stands in the row, and the others behind a button where there is little room. */
function showActs(card, node, request, [first, ...others], who) {
  const steps = { leave: () => leave(card, request), stay: () => (card.left = undefined) };
  const button = (act) => actButton(card, request, act, who, steps);
  if (!first) return node.replaceChildren();
  if (!others.length) return node.replaceChildren(button(first));
  const more = document.createElement("button");
  more.type = "button";
  more.className = "more-acts";
  more.textContent = texts.moreActs;
  more.setAttribute("aria-label", texts.moreOf(shown(who)));
  more.ariaExpanded = "false";
  more.addEventListener("click", () => {
    more.ariaExpanded = more.ariaExpanded === "true" ? "false" : "true";
    node.classList.toggle("all", more.ariaExpanded === "true");
  });
  const rest = document.createElement("span");
  rest.className = "rest";
  rest.append(...others.map(button));
  node.replaceChildren(button(first), more, rest);
}

/** Notes that the focus is to leave an entry, and where to, once the entry stands otherwise. */
function leave(card, request) {
  const entry = card.entries.get(request);
  const beside = [...entry.parentElement.children].map((one) => Number(one.dataset.request));
  const at = beside.indexOf(request);
  card.left = { request, status: entry.dataset.status, next: [...beside.slice(at + 1), ...beside.slice(0, at).reverse()] };
}

/** Moves the focus to the next entry of the list that was decided on; behind the last one, to the floor. */
function moveFocus(card) {
  if (!card.left) return;
  const { request, status, next } = card.left;
  const entry = card.entries.get(request);
  if (entry?.dataset.status === status) return;
  card.left = undefined;
  const here = document.activeElement;
  if (here && here !== document.body && !entry?.contains(here)) return;
  const buttons = next.map((id) => card.entries.get(id)?.querySelector(".acts button"));
  (buttons.find(Boolean) ?? card.part("h2")).focus();
}

/** Shows the times of a card's entries as they are now. */
export function showTimes(card) {
  for (const request of requestsOf(card)) {
    const entry = card.entries.get(request.id);
    if (entry) showTime(card, entry, request);
  }
}

/** Shows an entry's time, and says once that a limit is near or over. */
function showTime(card, entry, request) {
  const { text, state } = timeOf(card.floor, request);
  const since = entry.querySelector(".since");
  if (since.textContent !== text) since.textContent = text;
  if ((entry.dataset.time ?? "") === state) return;
  entry.dataset.time = state;
  const isMine = request.beneficiary?.id === room.meeting.user;
  if (state && (card.isMine || isMine)) tell(told[state](titleOf(card.floor), shown(request.beneficiary)), state === "over" ? "bad" : "");
}
