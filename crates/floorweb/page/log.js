// What happened, as both pages list it: the newest first.

/** Adds to what happened; beyond so many the oldest goes. */
export function add(text, kind, most) {
  const item = document.createElement("li");
  item.className = kind;
  const time = document.createElement("time");
  time.textContent = new Date().toLocaleTimeString([], { hour: "2-digit", minute: "2-digit" });
  item.append(time, ` ${text}`);
  const events = document.getElementById("events");
  events.prepend(item);
  while (events.children.length > most) events.lastElementChild.remove();
  document.querySelector("#log .none").hidden = true;
}
