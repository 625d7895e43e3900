// What the operator's page says, in the first language of the browser's that there are texts in; else in English.

import { chosen } from "./languages.js";

const file = await import(`./operatortexts.${chosen}.js`);

export const { language, notices, refusals, states, texts, told } = file;
