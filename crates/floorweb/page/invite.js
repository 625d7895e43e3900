// A link for guests, as the chair allows: as text, and as a code for a phone.

import { isolate } from "./bidi.js";
import { canOrder, drawToken, order } from "./orders.js";
import { qrCode } from "./qr.js";
import { room } from "./room.js";
import { tell, warn } from "./say.js";
import { texts, told } from "./texts.js";

const SVG = "http://www.w3.org/2000/svg";
/** How many modules stay light around a code (ISO/IEC 18004). */
const QUIET = 4;

const section = document.getElementById("invite");
const part = (selector) => section.querySelector(selector);

let drawn = "";

export function prepareInvite() {
  part("[name=guests]").addEventListener("change", change);
  part(".copy").addEventListener("click", copy);
  part("[name=link]").addEventListener("focus", (event) => event.target.select());
  showInvite();
}

/** Shows the link to the chairs, where there is one. */
export function showInvite() {
  section.hidden = !canOrder();
  const token = room.meeting.guests || "";
  const box = part("[name=guests]");
  if (!box.disabled) box.checked = Boolean(token);
  part(".link").hidden = !token;
  if (!token || token === drawn) return;
  drawn = token;
  const link = linkOf(token);
  part("[name=link]").value = link;
  part(".code").replaceChildren(codeOf(link));
}

const linkOf = (token) => `${location.origin}${location.pathname}#${token}`;

/** Opens the way in for guests, or shuts it: a link that is shut opens nothing any more, and the next one is another. */
async function change(event) {
  const box = event.target;
  // What is told meanwhile doesn't turn it back.
  box.disabled = true;
  const token = box.checked ? drawToken() : "";
  const isDone = await order(token ? `guests ${token}` : "guests -", token ? told.invited : told.uninvited);
  box.disabled = false;
  if (isDone) room.meeting.guests = token;
  showInvite();
  box.focus();
}

/** A link as a picture of its code: light around, so that it is read in the dark too. */
function codeOf(link) {
  const modules = qrCode(link);
  const node = document.createElementNS(SVG, "svg");
  if (!modules) return node;
  const size = modules.length + 2 * QUIET;
  node.setAttribute("viewBox", `0 0 ${size} ${size}`);
  node.setAttribute("role", "img");
  node.setAttribute("aria-label", texts.codeOf(isolate(room.meeting.title || texts.conference(room.meeting.conference))));
  const path = document.createElementNS(SVG, "path");
  const squares = modules.flatMap((row, y) => row.map((isDark, x) => (isDark ? `M${x + QUIET} ${y + QUIET}h1v1h-1z` : "")));
  path.setAttribute("d", squares.join(""));
  node.append(path);
  return node;
}

async function copy() {
  try {
    await navigator.clipboard.writeText(part("[name=link]").value);
    tell(told.linkCopied);
  } catch {
    warn(told.notCopied);
  }
}
