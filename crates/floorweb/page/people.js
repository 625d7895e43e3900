// Who is in the meeting: how many, whom a search finds, who has had a floor for how long; and what a chair may do of it.

import { clone } from "./entries.js";
import { spokenOf } from "./minutes.js";
import { canOrder, order } from "./orders.js";
import { isSure } from "./request.js";
import { nameOf, room, shown } from "./room.js";
import { texts, told } from "./texts.js";
import { clock } from "./times.js";

const $ = (selector) => document.querySelector(`#people ${selector}`);

export function preparePeople() {
  $("[name=search]").addEventListener("input", showPeople);
  $("[name=lock]").addEventListener("change", changeLock);
  document.getElementById("people").addEventListener("toggle", showPeople);
}

/** Shows who is here, and of all users those whom the search finds. */
export function showPeople() {
  const { users, locked } = room.meeting;
  const isTold = users.some((user) => user.presence);
  const here = users.filter((user) => user.presence === "here").length;
  $(".count").textContent = isTold ? texts.peopleHere(here, users.length) : users.length;
  $(".lock").hidden = !canOrder();
  $(".locked").hidden = !locked || canOrder();
  if (!$("[name=lock]").disabled) $("[name=lock]").checked = Boolean(locked);
  if (!document.getElementById("people").open) return;
  const wanted = $("[name=search]").value.trim().toLocaleLowerCase();
  const rank = { here: 0, away: 1, gone: 2 };
  const found = users
    .filter((user) => nameOf(user.id).toLocaleLowerCase().includes(wanted))
    .sort((a, b) => (rank[a.presence] ?? 0) - (rank[b.presence] ?? 0) || nameOf(a.id).localeCompare(nameOf(b.id)));
  $(".none").hidden = found.length > 0;
  const list = $("ul");
  const nodes = new Map([...list.children].map((node) => [Number(node.dataset.user), node]));
  // A node that is moved loses the focus.
  const focus = list.contains(document.activeElement) ? document.activeElement : undefined;
  list.replaceChildren(...found.map((user) => show(nodes.get(user.id) ?? clone("person"), user)));
  if (focus?.isConnected) focus.focus();
}

function show(node, user) {
  const { times, seconds } = spokenOf(user.id);
  const presence = user.out ? "out" : (user.presence ?? "");
  node.dataset.user = user.id;
  node.dataset.presence = presence;
  node.querySelector(".who").textContent = shown({ id: user.id });
  node.querySelector(".presence").textContent = texts.presence[presence] ?? "";
  node.querySelector(".spoken").textContent = times ? texts.spoken(times, clock(seconds)) : "";
  showAct(node.querySelector("button"), user);
  return node;
}

/** A chair shows out whoever is none, and lets in again whoever was shown out. */
function showAct(button, user) {
  const isTheirs = room.meeting.floors.some((floor) => floor.chair === user.id);
  button.hidden = !canOrder() || (isTheirs && !user.out);
  const act = texts[user.out ? "letIn" : "showOut"];
  button.textContent = act.label;
  button.className = user.out ? "good" : "danger";
  button.setAttribute("aria-label", act.of(shown({ id: user.id })));
  button.onclick = () => (user.out ? letIn(user) : showOut(user, button));
}

async function showOut(user, button) {
  const name = shown({ id: user.id });
  const { ask, label, guest, text } = texts.showOut;
  if ((await isSure(ask(name), label, user.guest ? guest : text)) && (await order(`out ${user.id}`, told.shownOut(name)))) mark(user, true);
  button.focus();
}

async function letIn(user) {
  if (await order(`in ${user.id}`, told.letIn(shown({ id: user.id })))) mark(user, false);
}

/** It is told by the server a moment later too. */
function mark(user, isOut) {
  const now = room.meeting.users.find(({ id }) => id === user.id);
  if (now) now.out = isOut;
  showPeople();
}

async function changeLock(event) {
  const box = event.target;
  box.disabled = true;
  const isLocked = box.checked;
  const isDone = await order(isLocked ? "lock" : "unlock", isLocked ? told.locked : told.unlocked);
  box.disabled = false;
  if (isDone) room.meeting.locked = isLocked;
  showPeople();
  box.focus();
}
