// What the page knows of its meeting: who is who, and how the requests for its floors stand.

import { isolate } from "./bidi.js";
import { kinds, texts } from "./texts.js";

/** What the token's user was told of the meeting, the connection, and a card for each floor. */
export const room = { meeting: undefined, session: undefined, cards: new Map() };

/** A user's name as it is; within a sentence it stands as `shown` gives it. */
export const nameOf = (id) => room.meeting.users.find((user) => user.id === id)?.name || texts.user(id);
export const isChair = () => room.meeting.floors.some((floor) => floor.chair === room.meeting.user);
export const plainTitleOf = (floor) => floor.title || texts.floor(floor.id);
export const titleOf = (floor) => isolate(plainTitleOf(floor));
export const floorOf = (id) => room.meeting.floors.find((floor) => floor.id === id) ?? { id };
export const isOpen = () => room.session?.state === "open";

/** The texts for what a floor is for. */
export const textsOf = (floor) => kinds[floor.kind] ?? kinds.floor;

/** The person's name, as it is shown to whoever looks. */
export function shown(person) {
  const isGuest = room.meeting.users.some(({ id, guest }) => id === person.id && guest);
  const plain = isolate(person.name || nameOf(person.id));
  const name = isGuest ? texts.itsGuest(plain) : plain;
  return person.id === room.meeting.user ? texts.itsYou(name) : name;
}

/** The ongoing requests for a card's floor. */
export const requestsOf = (card) => room.session?.floors.get(card.floor.id) ?? [];

export const holdersOf = (card) => requestsOf(card).filter((request) => request.status === "Granted");

/** Who wants the floor, in the order in which they have it: who waits by the place in the queue, and behind them whom the chair hasn't decided on. */
export function queueOf(card) {
  const place = (request) => standsAt(card, request).position || request.position || 256;
  const requests = requestsOf(card);
  const waiting = requests.filter((request) => request.status === "Accepted").sort((a, b) => place(a) - place(b) || a.id - b.id);
  const pending = requests.filter((request) => request.status === "Pending").sort((a, b) => b.priority - a.priority || a.id - b.id);
  return [...waiting, ...pending];
}

/** How a request stands at a card's floor. */
export const standsAt = (card, request) => request.floors.find((floor) => floor.id === card.floor.id) ?? request;

/** One's own ongoing request for the floor, if there is one. */
export const mineOf = (card) => requestsOf(card).find((request) => request.beneficiary?.id === room.meeting.user);

/** Whether whoever is let has the floor at once. */
export function hasRoom(card) {
  const inUse = requestsOf(card).filter((request) => request.status === "Granted" || request.status === "Accepted");
  return inUse.length < card.floor.room;
}
