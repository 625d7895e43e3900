// What the operator's page says beside the conferences: how it is connected, what happened, what was refused.

import { add } from "./log.js";
import { language, notices, states, texts } from "./operatortexts.js";

const MAX_EVENTS = 50;
const WARNING_TIME = 12_000;

export const $ = (id) => document.getElementById(id);
export const clone = (id) => $(id).content.firstElementChild.cloneNode(true);

let warning;

/** Puts the texts into the page and its templates. */
export function prepareTexts() {
  document.documentElement.lang = language;
  document.title = texts.page;
  for (const root of [document, ...[...document.querySelectorAll("template")].map((one) => one.content)]) {
    for (const node of root.querySelectorAll("[data-text]")) node.textContent = texts[node.dataset.text];
  }
}

export function setState(state) {
  const chip = $("state");
  chip.dataset.state = state;
  document.body.classList.toggle("open", state === "open");
  document.body.classList.toggle("stale", state !== "open");
  if (chip.textContent !== states[state]) chip.textContent = states[state];
}

export function stop(kind) {
  setState("ended");
  const notice = $("notice");
  notice.querySelector("h2").textContent = notices[kind].title;
  notice.querySelector("p").textContent = notices[kind].text;
  document.body.classList.add("without");
  notice.hidden = false;
  notice.querySelector("h2").focus();
}

export const tell = (text, kind = "") => add(text, kind, MAX_EVENTS);

export function warn(text) {
  const alert = $("alert");
  clearTimeout(warning);
  alert.textContent = text;
  alert.hidden = false;
  warning = setTimeout(() => (alert.hidden = true), WARNING_TIME);
}
