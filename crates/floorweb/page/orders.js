// What a chair orders of the meeting beyond its floors: who is let in, and for how long one should have a floor.

import { send } from "./request.js";
import { isChair, room } from "./room.js";
import { tell, warn } from "./say.js";
import { orderRefusal, told } from "./texts.js";

/** Whether the page is told of the meeting by the server itself, so that its chairs may order something of it. */
export const isFollowed = () => room.meeting.locked !== undefined;
export const canOrder = () => isFollowed() && isChair();

/** A token that nobody guesses: 24 characters, 144 bits. */
export function drawToken() {
  const bytes = crypto.getRandomValues(new Uint8Array(18));
  return btoa(String.fromCharCode(...bytes)).replaceAll("+", "-").replaceAll("/", "_");
}

/** Has an order done by whoever has the token, and gives what is told of it: an empty text where it was done, else why not. */
export async function orderBy(token, line) {
  const { isDone, fault, status } = await send("/order", token, line);
  if (isDone) return "";
  return status ? orderRefusal(fault ?? String(status)) : told.lostAnswer;
}

/** Has a chair's order done, and says it where it isn't. Tells whether it was. */
export async function order(line, done) {
  warn("");
  const refused = await orderBy(location.hash.slice(1), line);
  if (refused) warn(refused);
  tell(refused || done, refused ? "bad" : "");
  return !refused;
}
