// The languages that there are texts in: texts.en.js, operatortexts.en.js, and so on. A further one is a file of
// each, and a word here.

const LANGUAGES = ["en", "de"];

/** The first language of the browser's, as it sends them in Accept-Language too, that there are texts in. */
export const chosen = navigator.languages.map((tag) => tag.split("-")[0].toLowerCase()).find((tag) => LANGUAGES.includes(tag)) ?? "en";
