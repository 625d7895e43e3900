// What a page does at one's turn, and whether it takes a key: as each browser was asked to.

import { told } from "./texts.js";

/** What is on before anybody was asked. */
const FIRST = { sound: false, notice: false, key: true };

const ask = document.getElementById("ask");

let sounds;

/** Whether a setting is on. */
export function isSet(name) {
  const kept = localStorage.getItem(name);
  return kept === null ? FIRST[name] : kept === "on";
}

/** Shows the settings in their boxes, and keeps what is changed. */
export function prepareSettings(node, warn) {
  for (const box of node.querySelectorAll("input")) {
    box.checked = isSet(box.name);
    box.addEventListener("change", async () => {
      if (box.name === "notice" && box.checked && (await askForNotices()) !== "granted") {
        box.checked = false;
        warn(told.noNotices);
      }
      localStorage.setItem(box.name, box.checked ? "on" : "off");
      if (box.name === "sound" && box.checked) play();
    });
  }
}

/** Asks whether one's turn is to be heard and shown, at the first hand that is raised; afterwards the boxes say it. */
export function askForSignals() {
  if (localStorage.getItem("sound") !== null || localStorage.getItem("notice") !== null) return;
  ask.hidden = false;
}

/** Does what the question is answered by. */
export function prepareQuestion(settings) {
  const answer = async (isOn) => {
    ask.hidden = true;
    localStorage.setItem("sound", isOn ? "on" : "off");
    if (isOn) play();
    const isShown = isOn && (await askForNotices()) === "granted";
    localStorage.setItem("notice", isShown ? "on" : "off");
    for (const box of settings.querySelectorAll("input")) box.checked = isSet(box.name);
  };
  ask.querySelector(".yes").addEventListener("click", () => answer(true));
  ask.querySelector(".no").addEventListener("click", () => answer(false));
}

/** Whether notifications may be shown: a phone's browser may have none. */
async function askForNotices() {
  return "Notification" in window ? Notification.requestPermission() : "denied";
}

/** Tells somebody who looks elsewhere that the turn has come. */
export function alertTurn(text) {
  // A browser complains of a page that shakes before anybody has touched it.
  if (navigator.userActivation?.hasBeenActive) navigator.vibrate?.(200);
  if (isSet("sound")) play();
  if (isSet("notice") && document.hidden && "Notification" in window && Notification.permission === "granted") {
    try {
      new Notification(text);
    } catch {
      // A phone's browser has the type and lets no page use it.
    }
  }
}

/** Two short tones, without a file. */
function play() {
  sounds ??= new AudioContext();
  sounds.resume();
  [660, 880].forEach((pitch, place) => {
    const tone = new OscillatorNode(sounds, { frequency: pitch });
    const start = sounds.currentTime + place * 0.18;
    const volume = new GainNode(sounds, { gain: 0.15 });
    tone.connect(volume).connect(sounds.destination);
    tone.start(start);
    tone.stop(start + 0.15);
  });
}
