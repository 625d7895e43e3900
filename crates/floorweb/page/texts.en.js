// What the page says, in English.

/** The language of these texts, as the attribute `lang` has it (BCP 47). */
export const language = "en";

/** 1st, 2nd, 3rd, 4th. */
const placeOf = (number) => `${number}${["th", "st", "nd", "rd"][number % 100 >> 3 === 1 ? 0 : number % 10] ?? "th"}`;
const counted = (count, one, many) => `${count} ${count === 1 ? one : many}`;

// The page as it stands

export const texts = {
  page: "Floor control",
  meeting: "Meeting",
  leave: "Leave",
  leaveAsk: "Leave the meeting?",
  stay: "Stay",
  askSignals: "Play a sound and show a notification when it is your turn?",
  askYes: "Yes, tell me",
  askNo: "No",
  besides: "People and what happened",
  people: "People",
  search: "Search",
  nobodyFound: "Nobody has this name.",
  lock: "Nobody new: only who is here may stay or come back",
  isLocked: "Nobody new is let in.",
  invite: "Invite guests",
  inviteGuests: "Whoever has this link may join",
  link: "Link",
  copyLink: "Copy the link",
  yourName: "Your name",
  joinNow: "Join",
  joinText: "Choose the name that the others see. You then have a link of your own, by which you come back: it stands in the address of this page.",
  joinLocked: "Nobody new is let in at the moment. Ask whoever sent you the link.",
  joinEnded: "This meeting has ended.",
  minutes: "Minutes",
  noMinutes: "Nobody has had the floor since this page was opened.",
  copy: "Copy as text",
  save: "Save as CSV",
  atMyTurn: "At my turn, and keys",
  sound: "Play a sound when I have the floor",
  notice: "Show a notification when I have the floor",
  key: "Keys: R raises and lowers my hand",
  chairsKeys: "Of the person who has the focus, or of the first: G gives the floor now, Q accepts, F moves to the front, D denies. N goes on to the next, L lowers all hands.",
  happened: "What happened",
  nothingYet: "Nothing yet.",
  more: "Add a topic or a priority",
  topic: "What it is about",
  optional: "optional",
  priority: "Priority",
  beneficiary: "For",
  nobodyHolds: "Nobody",
  waiting: "Waiting",
  nobodyWaits: "Nobody waits",
  undecided: "asks the chair",
  next: "Next",
  limit: "Time for each",
  noLimit: "No limit",
  lowerAll: "Lower all hands",
  reason: "Reason",
  back: "Back",
  tryAgain: "Try again",
  now: "now",

  minutesAgo: (count) => `${count} min`,
  limits: (seconds) => (seconds % 60 ? `${seconds} s` : `${seconds / 60} min`),
  of: (time, limit) => `${time} of ${limit}`,
  over: (time) => `${time} over`,
  moreOf: (name) => `More for ${name}`,
  moreActs: "More",
  presence: { here: "here", away: "connection lost", gone: "not here", out: "shown out" },
  itsGuest: (name) => `${name} (guest)`,
  joinTitle: (meeting) => `Join: ${meeting}`,
  codeOf: (meeting) => `The link to ${meeting}, as a code`,
  showOut: {
    label: "Show out",
    of: (name) => `Show out: ${name}`,
    ask: (name) => `Show ${name} out?`,
    text: "Floors and hands are given back, and the person's link opens nothing until you let the person in again.",
    guest: "Floors and hands are given back, and the person's link opens nothing until you let the person in again. Guests can come back by the link for guests: shut it, or let in nobody new.",
  },
  letIn: { label: "Let in", of: (name) => `Let in again: ${name}` },
  peopleHere: (here, all) => `${here} of ${all} here`,
  spoken: (times, length) => `${counted(times, "time", "times")}, ${length}`,
  conference: (number) => `Conference ${number}`,
  floor: (number) => `Floor ${number}`,
  user: (number) => `User ${number}`,
  somebody: "Somebody",
  youAre: (name, isChair) => `You are ${name}${isChair ? ", chair" : ""}`,
  itsYou: (name) => `${name} (you)`,
  askedBy: (name, other) => `${name} (asked by ${other})`,
  room: (count) => (count === 1 ? "One at a time" : `Up to ${count} at a time`),
  noChair: "no chair",
  youDecide: "you decide",
  decides: (name) => `${name} decides`,
  priorities: ["Lowest", "Low", "Normal", "High", "Highest"],
  byTheChair: (reason) => `The chair: ${reason}`,
  and: " and ",

  // How many bytes of UTF-8 a text may still have; most letters take one.
  left: (bytes) => (bytes < 0 ? `Too long by ${counted(-bytes, "byte", "bytes")}` : `${counted(bytes, "byte", "bytes")} left`),
  tooLong: (bytes) => `This is too long by ${counted(bytes, "byte", "bytes")}. Please shorten it.`,
};

/** How the page is connected. */
export const states = {
  connecting: () => "Connecting",
  open: () => "Connected",
  waiting: (seconds) => `Not connected, again in ${seconds} s`,
  ended: () => "Ended",
  noLink: () => "No link",
  left: () => "Left",
  out: () => "Shown out",
  locked: () => "Locked",
  joining: () => "Not joined yet",
  noMeeting: () => "No meeting",
  unreachable: () => "Not connected",
};

/** Why there is nothing to take part in: a headline, and what to do. */
export const notices = {
  noLink: {
    title: "This page needs your own link",
    text: "It ends with # and a long code, and opens the meeting under your name. Ask whoever invited you for it, and open it as it is.",
  },
  noMeeting: {
    title: "This link opens no meeting",
    text: "It may be cut short, or no longer hold. Ask whoever sent it for a new one.",
  },
  unreachable: {
    title: "The meeting can't be reached",
    text: "Look whether this device is connected, and try again.",
  },
  meeting: {
    title: "The meeting has ended",
    text: "Nothing is left to do here. If it goes on later, try again then.",
  },
  full: {
    title: "The meeting has ended, or is full",
    text: "If it goes on, close the other windows in which you have it open, and try again.",
  },
  left: {
    title: "You have left the meeting",
    text: "Your hands are down, and floors that you had are given back.",
    again: "Come back",
  },
  out: {
    title: "You were shown out of the meeting",
    text: "This page goes on by itself if you are let in again.",
  },
  locked: {
    title: "Nobody new is let in",
    text: "The chair has locked the meeting. This page goes on by itself when it is open again.",
  },
  messages: {
    title: "This page can't go on",
    text: "The server doesn't understand what it sends. Load it again; if that doesn't help, tell whoever runs the meeting.",
  },
  refused: {
    title: "You can't take part in this meeting",
    text: "Ask whoever sent you the link.",
  },
};

/** What is said of a floor by what it is for: of its buttons, of who has it, and of oneself. */
export const kinds = {
  floor: {
    raise: "Raise hand",
    raiseAgain: "Raise hand again",
    lower: "Lower hand",
    take: "Take the floor",
    giveBack: "Give the floor back",
    holders: "Has the floor",
    mine: "You have the floor.",
  },
  microphone: {
    raise: "Raise hand",
    raiseAgain: "Raise hand again",
    lower: "Lower hand",
    take: "Speak",
    giveBack: "Stop speaking",
    holders: "Speaks",
    mine: "You may speak.",
  },
  screen: {
    raise: "Ask to share",
    raiseAgain: "Ask to share again",
    lower: "Don't ask any more",
    take: "Share screen",
    giveBack: "Stop sharing",
    holders: "Shares the screen",
    mine: "You may share your screen.",
  },
};

export const asking = "Asking …";

/** How one's own hand stands. */
export const standing = {
  Pending: () => "Your hand is up. The chair hasn't decided yet.",
  Accepted: (place) => (place ? `Your hand is up. You are ${placeOf(place)} in the queue.` : "Your hand is up, and you are in the queue."),
  lostHand: () => "The connection was lost, and your hand is down.",
  lostFloor: () => "The connection was lost, and the floor was given back.",
  awayHand: (seconds) => `The connection is lost. Your hand stays up ${seconds ? `for another ${seconds} s` : "as long as the server keeps your place"}.`,
  awayFloor: (seconds) => `The connection is lost. You keep the floor ${seconds ? `for another ${seconds} s` : "as long as the server keeps your place"}.`,
};

const ended = {
  Denied: (had, why) => `your hand was denied${why}`,
  Revoked: (had, why) => `the floor was taken back${why}`,
  Cancelled: (had, why) => `your hand was given up${why}`,
  Released: (had, why) => `${had ? "the floor" : "your hand"} was given back${why}`,
};

const capital = (text) => text[0].toUpperCase() + text.slice(1);
const because = (reason) => (reason ? `: ${reason}` : ".");

/** What is told of one's own requests; `floors` names them, and `had` says whether one had the floor. */
export const told = {
  granted: (floors) => `${floors}: you have the floor.`,
  turn: (floors) => `You have the floor: ${floors}`,
  queued: (floors) => `${floors}: you are in the queue.`,
  ended: (floors, status, had, reason) => `${floors}: ${ended[status](had, because(reason))}`,
  /** The same on the card of the floor. */
  onCard: (status, had, reason) => capital(ended[status](had, because(reason))),
  raises: (floor, name) => `${floor}: ${name} raises a hand.`,
  lost: (floors) => `${floors}: the connection was lost, and your place with it.`,
  back: (floors) => `${floors}: you are back, and your place was kept.`,
  away: "The connection is lost. It is tried again by itself.",
  soon: (floor, name) => `${floor}: ${name} has 30 seconds left.`,
  over: (floor, name) => `${floor}: the time of ${name} is over.`,
  leaving: (floors) => `You have ${floors}. It is given back when you leave.`,
  copied: "The minutes are copied.",
  linkCopied: "The link is copied.",
  invited: "Guests may join by a link.",
  uninvited: "The link for guests opens nothing any more.",
  locked: "Nobody new is let in.",
  unlocked: "Others are let in again.",
  shownOut: (name) => `${name} is shown out.`,
  letIn: (name) => `${name} is let in again.`,
  limited: (floor, limit) => `${floor}: ${limit} for each.`,
  notCopied: "This browser lets the page copy nothing.",
  /** What a chair did, for the minutes. */
  did: { Denied: "denied", Removed: "removed from the queue", Revoked: "taken back" },
  had: "had the floor",
  columns: ["From", "To", "Floor", "Who", "What", "Topic", "Reason"],
  file: "minutes",
  lostAnswer: "The connection was lost before the answer came.",
  title: (hands, floors, meeting) => `${hands ? `(${hands}) ` : ""}${floors ? `You have the floor: ${floors} · ` : ""}${meeting}`,
  noNotices: "This browser lets the page show no notifications.",
};

/** What a chair decides: what the button says, and of whom. */
export const acts = {
  Granted: { label: "Give floor", of: (name) => `Give the floor to ${name}` },
  Now: { label: "Give now", of: (name) => `Give the floor now to ${name}` },
  Front: { label: "Move to front", of: (name) => `Move to the front: ${name}` },
  Accepted: { label: "Put in queue", of: (name) => `Put in the queue: ${name}` },
  Denied: { label: "Deny", of: (name) => `Deny ${name}` },
  Removed: { label: "Remove", of: (name) => `Remove from the queue: ${name}` },
  Revoked: { label: "Take back", of: (name) => `Take the floor back from ${name}` },
  all: { label: "Lower all", of: (floor) => `Lower all hands for ${floor}` },
  ask: (what) => `${what}?`,
};

/** Why the server refuses something, by the error codes of RFC 8855, section 5.2.6. */
export const refusals = {
  1: "This meeting isn't there any more.",
  2: "You aren't in this meeting any more.",
  3: "The server doesn't know this.",
  4: "The server doesn't know this.",
  5: "You may not do this: somebody else decides here.",
  6: "This floor isn't there any more.",
  7: "This hand is down already.",
  8: "You have as many hands up here as may be.",
  9: "The server wants an encrypted connection.",
  10: "The server didn't understand this.",
  11: "The server wants an encrypted connection.",
  12: "The server speaks another version.",
  13: "The server didn't understand this.",
  14: "This didn't work.",
};

/** Why an order of a chair's isn't done, or nobody joins. */
const orderRefusals = {
  NotChair: "You may not do this: only a chair may.",
  NoUser: "This person isn't in the meeting any more.",
  IsChair: "A chair can't be shown out.",
  NoDoor: "Guests can't be let in here: ask whoever runs the server.",
  Locked: "Nobody new is let in at the moment.",
  BadName: "This name can't be taken. Please choose another.",
  Full: "The meeting takes no more guests.",
  Ended: "The meeting has ended.",
  404: "This link opens nothing any more.",
  503: "Too many ask at once. Please try again.",
  other: "This didn't work. Please try again.",
};

export const orderRefusal = (name) => orderRefusals[name] ?? orderRefusals.other;
export const refusal = (code) => refusals[code] ?? refusals[14];
