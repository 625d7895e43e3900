// The card of a floor: what it is, who has it and wants it, one's own hand, and what its chair may do.

import { MAX_INFO_LENGTH } from "./bfcp.js";
import { lowerAll, next } from "./chair.js";
import { clone, showEntries, showTimes } from "./entries.js";
import { fillHand, raiseOrLower, showMine } from "./mine.js";
import { nameOf, queueOf, room, shown, textsOf, titleOf } from "./room.js";
import { countBytes } from "./say.js";
import { texts } from "./texts.js";
import { fillLimits, limitOf, setLimit } from "./times.js";

export function makeCard(floor) {
  const node = clone("floor");
  const part = (selector) => node.querySelector(selector);
  const card = { floor, node, part, entries: new Map() };
  part("h2").id = `floor-${floor.id}`;
  node.setAttribute("aria-labelledby", `floor-${floor.id}`);
  showRule(card, floor);
  countBytes(part("[name=info]"), MAX_INFO_LENGTH);
  part("form").addEventListener("submit", (event) => {
    event.preventDefault();
    raiseOrLower(card);
  });
  part(".next").addEventListener("click", () => next(card));
  part(".lower").addEventListener("click", () => lowerAll(card));
  part("[name=limit]").addEventListener("change", async (event) => {
    await setLimit(card.floor, Number(event.target.value));
    fillLimits(part("[name=limit]"), card.floor);
    showTimes(card);
  });
  return card;
}

/** Shows what a floor is: it may have another chair than before, and there may be more users. */
export function showRule(card, floor) {
  const { meeting } = room;
  const { node, part } = card;
  card.floor = floor;
  const wasMine = card.isMine;
  card.isMine = floor.chair === meeting.user;
  part("h2").textContent = titleOf(floor);
  part(".holders h3").textContent = textsOf(floor).holders;
  const chair = floor.chair === null ? texts.noChair : card.isMine ? texts.youDecide : texts.decides(shown({ id: floor.chair }));
  part(".rule").textContent = [texts.room(floor.room), limitOf(floor) && !card.isMine ? texts.limits(limitOf(floor)) : "", chair].filter(Boolean).join(", ");
  part(".chairing").hidden = !card.isMine;
  if (card.isMine && document.activeElement !== part("[name=limit]")) fillLimits(part("[name=limit]"), floor);
  fillHand(card);
  const select = part("[name=beneficiary]");
  const listed = new Set([...select.options].map((option) => Number(option.value)));
  const others = meeting.users.filter((user) => !listed.has(user.id));
  select.append(...others.map((user) => new Option(nameOf(user.id), user.id, false, user.id === meeting.user)));
  // A chair's first concern is the others. Only where that changes is anything moved: a focus would be lost.
  if (card.isMine && !wasMine) node.append(part(".mine"));
  if (!card.isMine && wasMine) part("header").after(part(".mine"));
  node.classList.toggle("chaired", card.isMine);
}

/** Shows how a floor's requests stand. */
export function showFloor(card) {
  showEntries(card);
  const [first, second] = queueOf(card);
  const button = card.part(".next");
  button.disabled = !first;
  button.setAttribute("aria-label", first ? `${texts.next}: ${shown(first.beneficiary ?? { id: -1, name: texts.somebody })}, ${titleOf(card.floor)}` : `${texts.next}, ${titleOf(card.floor)}`);
  card.part(".lower").hidden = !card.isMine || !second;
  showMine(card);
  showTimes(card);
}
