// What the operator orders, each after a question.

import { tell, warn } from "./operatorsay.js";
import { refusals, texts, told } from "./operatortexts.js";
import { isSure, send } from "./request.js";

/** Who sees and orders nothing has no orders. */
export const may = { order: true };

/** Asks whether it is to be done, and has it done by the line; `back` has the focus behind it. */
export async function order(what, line, back) {
  if (!(await isSure(texts.ask(what), what))) return back.focus();
  const { isDone, fault } = await send("/operator/order", location.hash.slice(1), line);
  if (isDone) tell(told.done(what), "good");
  else warn(fault ? (refusals[fault] ?? refusals.other(fault)) : refusals.unanswered);
  if (back.isConnected) back.focus();
}
