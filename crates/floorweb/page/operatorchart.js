// The chart of events: a bar for each of the last 30 minutes, with what the highest stands for.

import { $ } from "./operatorsay.js";
import { texts } from "./operatortexts.js";

const MINUTES = 30;
const LEFT = 30;
const TOP = 10;
const WIDTH = 300;
const HEIGHT = 66;

/** How many events each minute had, and when the last of them began. */
const minutes = { counts: [0], began: Date.now() };

export function countEvents(events) {
  turn();
  if (events > 0) minutes.counts[minutes.counts.length - 1] += events;
}

function turn() {
  while (Date.now() - minutes.began >= 60_000) {
    minutes.began += 60_000;
    minutes.counts.push(0);
    if (minutes.counts.length > MINUTES) minutes.counts.shift();
  }
}

function make(name, attributes, text = "") {
  const node = document.createElementNS("http://www.w3.org/2000/svg", name);
  for (const [key, value] of Object.entries(attributes)) node.setAttribute(key, value);
  node.textContent = text;
  return node;
}

/** The least of 1, 2, 5, 10, 20 and so on that isn't below. */
function scaleOf(most) {
  for (let power = 1; ; power *= 10) for (const step of [1, 2, 5]) if (step * power >= most) return step * power;
}

export function showChart() {
  turn();
  const { counts } = minutes;
  const scale = scaleOf(Math.max(...counts));
  const step = WIDTH / MINUTES;
  const bars = counts.map((events, place) => {
    const back = counts.length - 1 - place;
    const height = (HEIGHT * events) / scale;
    const bar = make("rect", { x: LEFT + WIDTH - (back + 1) * step + 1, y: TOP + HEIGHT - height, width: step - 2, height });
    bar.append(make("title", {}, `${back ? texts.ago(back) : texts.thisMinute}: ${events}`));
    return bar;
  });
  const lines = [0, 0.5, 1].map((part) => make("line", { x1: LEFT, x2: LEFT + WIDTH, y1: TOP + HEIGHT * (1 - part), y2: TOP + HEIGHT * (1 - part) }));
  const labels = [
    make("text", { x: LEFT - 4, y: TOP + 4, class: "end" }, String(scale)),
    make("text", { x: LEFT - 4, y: TOP + HEIGHT + 3, class: "end" }, "0"),
    make("text", { x: LEFT, y: TOP + HEIGHT + 14 }, texts.ago(MINUTES)),
    make("text", { x: LEFT + WIDTH, y: TOP + HEIGHT + 14, class: "end" }, texts.thisMinute),
  ];
  $("bars").replaceChildren(...lines, ...bars, ...labels);
  $("rate").textContent = texts.rate(counts.at(-1), Math.max(...counts));
}
