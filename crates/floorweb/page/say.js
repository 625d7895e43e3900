// What the page says beside the cards: how it is connected, what happened, what was refused, why there is
// nothing to take part in, and how many bytes a text may still have.

import { add } from "./log.js";
import { language, notices, states, texts } from "./texts.js";

const $ = (id) => document.getElementById(id);

/** How long a refusal stands, in milliseconds; while it is pointed at it stays. */
const WARNING_TIME = 12_000;
const MAX_EVENTS = 20;

let warning;
/** How many fields are counted. */
let counted = 0;

/** Puts the texts into the page and its templates. */
export function prepareTexts() {
  document.documentElement.lang = language;
  document.title = texts.page;
  for (const root of [document, ...[...document.querySelectorAll("template")].map((template) => template.content)]) {
    for (const node of root.querySelectorAll("[data-text]")) node.textContent = texts[node.dataset.text];
    for (const node of root.querySelectorAll("[data-label]")) node.setAttribute("aria-label", texts[node.dataset.label]);
    for (const node of root.querySelectorAll("[data-placeholder]")) node.placeholder = texts[node.dataset.placeholder];
  }
}

/** Says how the page is connected. */
export function setChip(state, seconds) {
  const chip = $("state");
  chip.dataset.state = state;
  const text = states[state](seconds);
  if (chip.textContent !== text) chip.textContent = text;
}

/** Adds to what happened. */
export const tell = (text, kind = "") => add(text, kind, MAX_EVENTS);

/** Says for a while what somebody has to see now; nothing takes away what is said. */
export function warn(text) {
  const alert = $("alert");
  clearTimeout(warning);
  alert.textContent = text;
  alert.hidden = !text;
  const hide = () => {
    if (alert.matches(":hover")) warning = setTimeout(hide, WARNING_TIME);
    else alert.hidden = true;
  };
  if (text) warning = setTimeout(hide, WARNING_TIME);
}

/** Says why there is nothing to take part in, and takes the cards away; `again` does what may help. */
export function showNotice(kind, again) {
  const { title, text, again: label } = notices[kind];
  const notice = $("notice");
  notice.querySelector("h2").textContent = title;
  notice.querySelector("p").textContent = text;
  const button = notice.querySelector("button");
  button.hidden = !again;
  button.textContent = label ?? texts.tryAgain;
  button.onclick = again;
  document.body.classList.add("without");
  notice.hidden = false;
  notice.querySelector("h2").focus();
}

export function hideNotice() {
  document.body.classList.remove("without");
  $("notice").hidden = true;
}

/** Has a field say how many bytes of UTF-8 it may still have, and refuse to be sent with more than `most`. */
export function countBytes(field, most) {
  const left = field.closest("label").nextElementSibling;
  left.id = `left-${++counted}`;
  field.setAttribute("aria-describedby", left.id);
  const show = () => {
    const bytes = most - new TextEncoder().encode(field.value.trim()).length;
    left.textContent = texts.left(bytes);
    left.classList.toggle("over", bytes < 0);
    // Spoken only where it begins to matter.
    left.setAttribute("aria-live", bytes < 10 ? "polite" : "off");
    field.setCustomValidity(bytes < 0 ? texts.tooLong(-bytes) : "");
    field.setAttribute("aria-invalid", String(bytes < 0));
  };
  field.addEventListener("input", show);
  field.form.addEventListener("reset", () => setTimeout(show));
  show();
}
