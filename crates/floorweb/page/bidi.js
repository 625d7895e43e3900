// Texts of people within sentences: each is read in its own direction, and turns nothing beside it.

const OPENS = "\u2066\u2067\u2068";
const CLOSES = "\u2069";
// A new line or paragraph ends each isolate (Unicode, UAX 9, rule X8).
const BREAKS = /[\n\r\v\f\x1c-\x1e\u0085\u2028\u2029]/g;

/** The text within an isolate of its own (Unicode, UAX 9): what turns the direction in it ends with it. */
export function isolate(text) {
  let open = 0;
  let inside = "";
  for (const character of text.replace(BREAKS, " ")) {
    if (OPENS.includes(character)) open++;
    // One that closes nothing in the text would close the isolate around it.
    if (character === CLOSES && open-- === 0) {
      open = 0;
      continue;
    }
    inside += character;
  }
  return `\u2068${inside}${CLOSES.repeat(open + 1)}`;
}
