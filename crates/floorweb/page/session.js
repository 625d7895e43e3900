// A participant's connection to the floor control server: questions and their answers, what is told
// unasked, and connecting again.

import { all, decode, encode, first, floorQuery, hello, requests } from "./bfcp.js";

const FIRST_WAIT = 500;
const LONGEST_WAIT = 15_000;
const ANSWER_WAIT = 10_000;

/** The codes by which floorweb closes where nobody is at the server's port, and where the server takes no connection of the user's. */
const NO_SERVER = 4404;
const NOT_TAKEN = 4403;
/** The code of a page that is done: its user leaves. By any other one the user may come again. */
const DONE = 1000;
/** The code of a page that connects anew. */
const ANEW = 4000;
// The error code of a floor that the conference hasn't (RFC 8855, section 5.2.6).
const INVALID_FLOOR = 6;
/** At which of them running nothing is tried any more: a server that starts anew is back before. */
const MAX_REFUSED = 3;

/** An Error message of the server, by its name in RFC 8855. */
export class Refused extends Error {
  constructor({ code, name }, info) {
    super(info ? `${name}: ${info}` : name);
    this.code = code;
  }
}

/** The connection was lost before the answer. */
export class Lost extends Error {}

/**
 * Tells by events: `state` (its `state` is connecting, open, waiting or ended), `floor` (the requests
 * of a floor, in `floors`), and `own` (how a request of one's own stands now).
 */
export class Session extends EventTarget {
  state = "connecting";
  /** Once it has ended: `left` (its user has left), `meeting` (it isn't there any more), `full` (it isn't, or takes nobody more of this user), `out` (its user was shown out), `locked` (nobody new is let in), `messages` (they were taken for no BFCP) or `refused`. */
  cause = "";
  /** Once it waits: how many seconds it does. */
  seconds = 0;
  /** How often it has connected. */
  count = 0;
  /** The ongoing requests of each floor, as the server told them last. */
  floors = new Map();
  #token;
  #meeting;
  #socket;
  #transaction = 0;
  #waiting = new Map();
  #wait = FIRST_WAIT;
  #refused = 0;
  #unknown = 0;
  #timer;

  constructor(token, meeting) {
    super();
    this.#token = token;
    this.#meeting = meeting;
  }

  /** Connects anew where it has ended. */
  again() {
    this.#wait = FIRST_WAIT;
    this.#refused = 0;
    this.#unknown = 0;
    this.connect();
  }

  connect() {
    clearTimeout(this.#timer);
    this.count++;
    this.#enter("connecting");
    const { protocol, host } = location;
    const scheme = protocol === "https:" ? "wss:" : "ws:";
    // As a subprotocol the token stands in no log: a browser sends no other field of one's own.
    const socket = new WebSocket(`${scheme}//${host}/bfcp`, ["bfcp", `token.${this.#token}`]);
    socket.binaryType = "arraybuffer";
    socket.onopen = () => this.#greet();
    socket.onmessage = (event) => this.#hear(new Uint8Array(event.data));
    socket.onclose = (event) => this.#closed(event);
    this.#socket = socket;
  }

  /** The meeting is known to have ended, or its user isn't let in. */
  finish(cause) {
    if (this.state !== "ended") this.#end(cause);
  }

  /** Its user leaves the meeting. */
  leave() {
    this.#end("left");
  }

  /** Asks to be told of the floors of the meeting, of which there are others than before. */
  async watch(meeting) {
    this.#meeting = meeting;
    if (this.state !== "open") return;
    try {
      this.#take(await this.ask(floorQuery(meeting.floors.map((floor) => floor.id))));
    } catch {
      // With the next connection they are asked for anyway.
    }
  }

  /** Sends a message, and gives the server's answer. */
  ask({ primitive, attributes }) {
    return new Promise((resolve, reject) => {
      if (this.#socket?.readyState !== WebSocket.OPEN) return reject(new Lost("not connected"));
      const transaction = (this.#transaction % 0xffff) + 1;
      this.#transaction = transaction;
      const timer = setTimeout(() => this.#socket.close(ANEW), ANSWER_WAIT);
      this.#waiting.set(transaction, { resolve, reject, timer });
      const { conference, user } = this.#meeting;
      this.#socket.send(encode({ primitive, conference, transaction, user, attributes }));
    });
  }

  /** Says hello, and asks to be told of each floor: the answer tells of the first. */
  async #greet() {
    try {
      const ack = await this.ask(hello());
      this.supports = new Set(first(ack.attributes, "SUPPORTED-ATTRIBUTES"));
      this.#take(await this.ask(floorQuery(this.#meeting.floors.map((floor) => floor.id))));
      // Of the other floors it is told in front of the next answer.
      await this.ask(hello());
      this.#wait = FIRST_WAIT;
      this.#refused = 0;
      this.#unknown = 0;
      this.#enter("open");
    } catch (error) {
      if (error instanceof Lost) return;
      // A server that began anew may not have a floor of before; which it has the page is told besides.
      if (error.code === INVALID_FLOOR && ++this.#unknown < MAX_REFUSED) return this.#socket.close(ANEW);
      // An Error 1 says that the conference doesn't exist (RFC 8855, section 5.2.6).
      this.#end(error.code === 1 ? "meeting" : "refused");
    }
  }

  #hear(bytes) {
    const message = decode(bytes);
    const asked = this.#waiting.get(message.transaction);
    if (!asked) return this.#take(message);
    this.#waiting.delete(message.transaction);
    clearTimeout(asked.timer);
    if (message.primitive === "Error") {
      const info = first(message.attributes, "ERROR-INFO");
      return asked.reject(new Refused(first(message.attributes, "ERROR-CODE"), info));
    }
    if (message.primitive === "FloorRequestStatus") this.#take(message);
    asked.resolve(message);
  }

  /** Takes what a message tells of floors and of one's own requests. */
  #take(message) {
    if (message.primitive === "FloorStatus") {
      // Without a floor it tells that none is watched any more.
      for (const floor of all(message.attributes, "FLOOR-ID")) {
        this.floors.set(floor, requests(message));
        this.dispatchEvent(new CustomEvent("floor", { detail: floor }));
      }
    }
    if (message.primitive === "FloorRequestStatus") {
      for (const request of requests(message)) {
        this.dispatchEvent(new CustomEvent("own", { detail: request }));
      }
    }
  }

  #closed({ code }) {
    for (const { reject, timer } of this.#waiting.values()) {
      clearTimeout(timer);
      reject(new Lost("the connection was lost"));
    }
    this.#waiting.clear();
    this.floors.clear();
    if (this.state === "ended") return;
    if (code === 1002 || code === 1003 || code === 1007) return this.#end("messages");
    this.#refused = code === NO_SERVER || code === NOT_TAKEN ? this.#refused + 1 : 0;
    if (this.#refused === MAX_REFUSED) return this.#end(code === NO_SERVER ? "meeting" : "full");
    this.seconds = Math.ceil(this.#wait / 1000);
    this.#enter("waiting");
    this.#timer = setTimeout(() => this.connect(), this.#wait * (0.75 + Math.random() / 2));
    this.#wait = Math.min(2 * this.#wait, LONGEST_WAIT);
  }

  #end(cause) {
    clearTimeout(this.#timer);
    this.cause = cause;
    this.#enter("ended");
    this.#socket.close(DONE);
  }

  #enter(state) {
    this.state = state;
    this.dispatchEvent(new Event("state"));
  }
}
