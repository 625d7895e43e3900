// What the page says, in the first language of the browser's that there are texts in; else in English.

import { chosen } from "./languages.js";

const file = await import(`./texts.${chosen}.js`);

export const { acts, asking, kinds, language, notices, orderRefusal, refusal, standing, states, texts, told } = file;
