// What a page that is loaded anew still knows, as far as the browser keeps anything.

/** What was kept under a name; else this. */
export function recall(name, otherwise) {
  try {
    return JSON.parse(sessionStorage.getItem(name)) ?? otherwise;
  } catch {
    return otherwise;
  }
}

export function keep(name, value) {
  try {
    sessionStorage.setItem(name, JSON.stringify(value));
  } catch {
    // It keeps nothing, or no more: the page goes on without.
  }
}
