// Whoever has the link for guests chooses a name, and has a link of one's own from then on.

import { isolate } from "./bidi.js";
import { drawToken, orderBy } from "./orders.js";
import { countBytes, setChip, warn } from "./say.js";
import { texts } from "./texts.js";

/** The longest name that is taken, in bytes of UTF-8. */
const MAX_NAME_LENGTH = 60;

const section = document.getElementById("join");

/** Asks for a name, and joins by it. */
export function askName(token, { title, conference, locked, ended }) {
  const name = title ? isolate(title) : texts.conference(conference);
  const refused = ended ? texts.joinEnded : locked ? texts.joinLocked : "";
  document.getElementById("title").textContent = name;
  document.title = texts.joinTitle(name);
  setChip(refused ? "ended" : "joining");
  document.body.classList.add("without");
  section.hidden = false;
  section.querySelector("h2").textContent = texts.joinTitle(name);
  section.querySelector(".text").textContent = refused || texts.joinText;
  const form = section.querySelector("form");
  form.hidden = Boolean(refused);
  if (refused) return;
  countBytes(form.elements.name, MAX_NAME_LENGTH);
  form.addEventListener("submit", (event) => {
    event.preventDefault();
    join(token, form);
  });
  form.elements.name.focus();
}

async function join(token, form) {
  const name = form.elements.name.value.trim();
  const button = form.querySelector("button");
  if (!name || button.ariaDisabled === "true") return;
  button.ariaDisabled = "true";
  const own = drawToken();
  const bytes = new TextEncoder().encode(name);
  const refused = await orderBy(token, `join ${own} ${Array.from(bytes, (byte) => byte.toString(16).padStart(2, "0")).join("")}`);
  button.ariaDisabled = "false";
  if (refused) return warn(refused);
  // The page is loaded anew by it. The link for all doesn't come back by a step back.
  history.replaceState(null, "", `#${own}`);
  location.reload();
}
