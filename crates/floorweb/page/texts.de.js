// Was die Seite sagt, auf Deutsch.

/** Die Sprache dieser Texte, wie das Attribut `lang` sie hat (BCP 47). */
export const language = "de";

const counted = (count, one, many) => `${count} ${count === 1 ? one : many}`;

// Die Seite, wie sie steht

export const texts = {
  page: "Wortmeldungen",
  meeting: "Sitzung",
  leave: "Verlassen",
  leaveAsk: "Die Sitzung verlassen?",
  stay: "Bleiben",
  askSignals: "Einen Ton und eine Mitteilung, wenn Sie an der Reihe sind?",
  askYes: "Ja, gern",
  askNo: "Nein",
  besides: "Personen und was geschah",
  people: "Personen",
  search: "Suchen",
  nobodyFound: "Niemand heißt so.",
  lock: "Niemand Neues: nur wer da ist, bleibt oder kommt zurück",
  isLocked: "Niemand Neues wird eingelassen.",
  invite: "Gäste einladen",
  inviteGuests: "Wer diesen Link hat, kann teilnehmen",
  link: "Link",
  copyLink: "Link kopieren",
  yourName: "Ihr Name",
  joinNow: "Teilnehmen",
  joinText: "Wählen Sie den Namen, den die anderen sehen. Danach haben Sie einen eigenen Link, mit dem Sie zurückkommen: er steht in der Adresse dieser Seite.",
  joinLocked: "Im Moment wird niemand Neues eingelassen. Fragen Sie die Person, die Ihnen den Link geschickt hat.",
  joinEnded: "Diese Sitzung ist zu Ende.",
  minutes: "Protokoll",
  noMinutes: "Niemand hatte das Wort, seit diese Seite offen ist.",
  copy: "Als Text kopieren",
  save: "Als CSV speichern",
  atMyTurn: "Wenn ich an der Reihe bin, und Tasten",
  sound: "Ein Ton, wenn ich das Wort habe",
  notice: "Eine Mitteilung, wenn ich das Wort habe",
  key: "Tasten: R hebt und senkt meine Hand",
  chairsKeys: "Bei der Person mit dem Fokus, sonst bei der ersten: G erteilt das Wort sofort, Q nimmt in die Liste, F setzt an den Anfang, D lehnt ab. N ruft die nächste Person auf, L senkt alle Hände.",
  happened: "Was geschah",
  nothingYet: "Noch nichts.",
  more: "Mit Thema oder Vorrang",
  topic: "Worum es geht",
  optional: "freiwillig",
  priority: "Vorrang",
  beneficiary: "Für",
  nobodyHolds: "Niemand",
  waiting: "In der Reihe",
  nobodyWaits: "Niemand wartet",
  undecided: "fragt die Leitung",
  next: "Weiter",
  limit: "Zeit für jede Person",
  noLimit: "Ohne Grenze",
  lowerAll: "Alle Hände senken",
  reason: "Grund",
  back: "Zurück",
  tryAgain: "Noch einmal",
  now: "jetzt",

  minutesAgo: (count) => `${count} min`,
  limits: (seconds) => (seconds % 60 ? `${seconds} s` : `${seconds / 60} min`),
  of: (time, limit) => `${time} von ${limit}`,
  over: (time) => `${time} zu lang`,
  moreOf: (name) => `Mehr für ${name}`,
  moreActs: "Mehr",
  presence: { here: "da", away: "Verbindung verloren", gone: "nicht da", out: "hinausgewiesen" },
  itsGuest: (name) => `${name} (Gast)`,
  joinTitle: (meeting) => `Teilnehmen: ${meeting}`,
  codeOf: (meeting) => `Der Link zu ${meeting} als Code`,
  showOut: {
    label: "Hinausweisen",
    of: (name) => `Hinausweisen: ${name}`,
    ask: (name) => `${name} hinausweisen?`,
    text: "Wort und Hände werden zurückgegeben, und der Link der Person öffnet nichts, bis Sie sie wieder einlassen.",
    guest: "Wort und Hände werden zurückgegeben, und der Link der Person öffnet nichts, bis Sie sie wieder einlassen. Gäste können mit dem Link für Gäste zurückkommen: schließen Sie ihn, oder lassen Sie niemand Neues ein.",
  },
  letIn: { label: "Einlassen", of: (name) => `Wieder einlassen: ${name}` },
  peopleHere: (here, all) => `${here} von ${all} da`,
  spoken: (times, length) => `${times}-mal, ${length}`,
  conference: (number) => `Konferenz ${number}`,
  floor: (number) => `Rederecht ${number}`,
  user: (number) => `Person ${number}`,
  somebody: "Jemand",
  youAre: (name, isChair) => `Sie sind ${name}${isChair ? ", Leitung" : ""}`,
  itsYou: (name) => `${name} (Sie)`,
  askedBy: (name, other) => `${name} (gemeldet von ${other})`,
  room: (count) => (count === 1 ? "Eine Person zugleich" : `Bis zu ${count} zugleich`),
  noChair: "ohne Leitung",
  youDecide: "Sie entscheiden",
  decides: (name) => `${name} entscheidet`,
  priorities: ["Sehr gering", "Gering", "Normal", "Hoch", "Sehr hoch"],
  byTheChair: (reason) => `Die Leitung: ${reason}`,
  and: " und ",

  // Wie viele Bytes in UTF-8 ein Text noch haben darf; die meisten Buchstaben brauchen eines.
  left: (bytes) => (bytes < 0 ? `Um ${counted(-bytes, "Byte", "Bytes")} zu lang` : `Noch ${counted(bytes, "Byte", "Bytes")}`),
  tooLong: (bytes) => `Das ist um ${counted(bytes, "Byte", "Bytes")} zu lang. Bitte kürzen.`,
};

/** Wie die Seite verbunden ist. */
export const states = {
  connecting: () => "Verbindet",
  open: () => "Verbunden",
  waiting: (seconds) => `Nicht verbunden, wieder in ${seconds} s`,
  ended: () => "Zu Ende",
  noLink: () => "Kein Link",
  left: () => "Verlassen",
  out: () => "Hinausgewiesen",
  locked: () => "Geschlossen",
  joining: () => "Noch nicht dabei",
  noMeeting: () => "Keine Sitzung",
  unreachable: () => "Nicht verbunden",
};

/** Warum es nichts gibt, an dem man teilnehmen kann: eine Überschrift, und was zu tun ist. */
export const notices = {
  noLink: {
    title: "Diese Seite braucht Ihren eigenen Link",
    text: "Er endet mit # und einem langen Code und öffnet die Sitzung unter Ihrem Namen. Wer Sie eingeladen hat, hat ihn; öffnen Sie ihn, wie er ist.",
  },
  noMeeting: {
    title: "Dieser Link öffnet keine Sitzung",
    text: "Vielleicht ist er abgeschnitten oder gilt nicht mehr. Wer ihn geschickt hat, kann einen neuen schicken.",
  },
  unreachable: {
    title: "Die Sitzung ist nicht zu erreichen",
    text: "Ist dieses Gerät verbunden? Dann versuchen Sie es noch einmal.",
  },
  meeting: {
    title: "Die Sitzung ist zu Ende",
    text: "Hier ist nichts mehr zu tun. Geht sie später weiter, versuchen Sie es dann noch einmal.",
  },
  full: {
    title: "Die Sitzung ist zu Ende oder voll",
    text: "Geht sie weiter, schließen Sie die anderen Fenster, in denen sie offen ist, und versuchen Sie es noch einmal.",
  },
  left: {
    title: "Sie haben die Sitzung verlassen",
    text: "Ihre Hände sind gesenkt, und was Sie hatten, ist zurückgegeben.",
    again: "Wieder teilnehmen",
  },
  out: {
    title: "Sie wurden aus der Sitzung gewiesen",
    text: "Diese Seite macht von selbst weiter, wenn Sie wieder eingelassen werden.",
  },
  locked: {
    title: "Niemand Neues wird eingelassen",
    text: "Die Leitung hat die Sitzung geschlossen. Diese Seite macht von selbst weiter, wenn sie wieder offen ist.",
  },
  messages: {
    title: "Diese Seite kann nicht weitermachen",
    text: "Der Server versteht nicht, was sie sendet. Laden Sie sie neu; hilft das nicht, sagen Sie es denen, die die Sitzung betreiben.",
  },
  refused: {
    title: "Sie können an dieser Sitzung nicht teilnehmen",
    text: "Fragen Sie die Person, die Ihnen den Link geschickt hat.",
  },
};

/** Was von einem Rederecht gesagt wird, je nachdem wofür es ist: auf Knöpfen, von denen, die es haben, und von einem selbst. */
export const kinds = {
  floor: {
    raise: "Hand heben",
    raiseAgain: "Hand wieder heben",
    lower: "Hand senken",
    take: "Das Wort nehmen",
    giveBack: "Das Wort zurückgeben",
    holders: "Hat das Wort",
    mine: "Sie haben das Wort.",
  },
  microphone: {
    raise: "Hand heben",
    raiseAgain: "Hand wieder heben",
    lower: "Hand senken",
    take: "Sprechen",
    giveBack: "Nicht mehr sprechen",
    holders: "Spricht",
    mine: "Sie dürfen sprechen.",
  },
  screen: {
    raise: "Um den Bildschirm bitten",
    raiseAgain: "Wieder um den Bildschirm bitten",
    lower: "Nicht mehr bitten",
    take: "Bildschirm teilen",
    giveBack: "Teilen beenden",
    holders: "Teilt den Bildschirm",
    mine: "Sie dürfen Ihren Bildschirm teilen.",
  },
};

export const asking = "Wird gefragt …";

/** Wie es um die eigene Hand steht. */
export const standing = {
  Pending: () => "Ihre Hand ist oben. Die Leitung hat noch nicht entschieden.",
  Accepted: (place) => (place ? `Ihre Hand ist oben. Sie sind als ${place}. an der Reihe.` : "Ihre Hand ist oben, und Sie sind in der Reihe."),
  lostHand: () => "Die Verbindung war verloren, und Ihre Hand ist gesenkt.",
  lostFloor: () => "Die Verbindung war verloren, und das Wort ist zurückgegeben.",
  awayHand: (seconds) => `Die Verbindung ist verloren. Ihre Hand bleibt ${seconds ? `noch ${seconds} s` : "so lange"} oben${seconds ? "" : ", wie der Server Ihren Platz hält"}.`,
  awayFloor: (seconds) => `Die Verbindung ist verloren. Sie behalten das Wort ${seconds ? `noch ${seconds} s` : "so lange, wie der Server Ihren Platz hält"}.`,
};

const ended = {
  Denied: (had, why) => `Ihre Hand wurde abgelehnt${why}`,
  Revoked: (had, why) => `das Wort wurde entzogen${why}`,
  Cancelled: (had, why) => `Ihre Hand wurde gesenkt${why}`,
  Released: (had, why) => `${had ? "das Wort wurde zurückgegeben" : "Ihre Hand wurde gesenkt"}${why}`,
};

const capital = (text) => text[0].toUpperCase() + text.slice(1);
const because = (reason) => (reason ? `: ${reason}` : ".");

/** Was von den eigenen Meldungen gesagt wird; `floors` nennt, worum es geht, und `had` sagt, ob man es hatte. */
export const told = {
  granted: (floors) => `${floors}: Sie haben das Wort.`,
  turn: (floors) => `Sie haben das Wort: ${floors}`,
  queued: (floors) => `${floors}: Sie sind in der Reihe.`,
  ended: (floors, status, had, reason) => `${floors}: ${ended[status](had, because(reason))}`,
  /** Dasselbe auf der Karte. */
  onCard: (status, had, reason) => capital(ended[status](had, because(reason))),
  raises: (floor, name) => `${floor}: ${name} hebt die Hand.`,
  lost: (floors) => `${floors}: die Verbindung war verloren, und Ihr Platz mit ihr.`,
  back: (floors) => `${floors}: Sie sind wieder da, und Ihr Platz blieb erhalten.`,
  away: "Die Verbindung ist verloren. Es wird von selbst wieder versucht.",
  soon: (floor, name) => `${floor}: ${name} hat noch 30 Sekunden.`,
  over: (floor, name) => `${floor}: die Zeit von ${name} ist um.`,
  leaving: (floors) => `Sie haben ${floors}. Beim Verlassen wird das zurückgegeben.`,
  copied: "Das Protokoll ist kopiert.",
  linkCopied: "Der Link ist kopiert.",
  invited: "Gäste können mit einem Link teilnehmen.",
  uninvited: "Der Link für Gäste öffnet nichts mehr.",
  locked: "Niemand Neues wird eingelassen.",
  unlocked: "Andere werden wieder eingelassen.",
  shownOut: (name) => `${name} ist hinausgewiesen.`,
  letIn: (name) => `${name} ist wieder eingelassen.`,
  limited: (floor, limit) => `${floor}: ${limit} für jede Person.`,
  notCopied: "Dieser Browser lässt die Seite nichts kopieren.",
  /** Was die Leitung getan hat, für das Protokoll. */
  did: { Denied: "abgelehnt", Removed: "aus der Reihe genommen", Revoked: "entzogen" },
  had: "hatte das Wort",
  columns: ["Von", "Bis", "Was", "Wer", "Geschah", "Thema", "Grund"],
  file: "protokoll",
  lostAnswer: "Die Verbindung ging verloren, bevor die Antwort kam.",
  title: (hands, floors, meeting) => `${hands ? `(${hands}) ` : ""}${floors ? `Sie haben das Wort: ${floors} · ` : ""}${meeting}`,
  noNotices: "Dieser Browser lässt die Seite keine Mitteilungen zeigen.",
};

/** Was eine Leitung entscheidet: was der Knopf sagt, und von wem. */
export const acts = {
  Granted: { label: "Wort erteilen", of: (name) => `Das Wort erteilen: ${name}` },
  Now: { label: "Sofort", of: (name) => `Das Wort sofort erteilen: ${name}` },
  Front: { label: "An den Anfang", of: (name) => `An den Anfang der Reihe: ${name}` },
  Accepted: { label: "In die Reihe", of: (name) => `In die Reihe nehmen: ${name}` },
  Denied: { label: "Ablehnen", of: (name) => `Ablehnen: ${name}` },
  Removed: { label: "Entfernen", of: (name) => `Aus der Reihe entfernen: ${name}` },
  Revoked: { label: "Entziehen", of: (name) => `Das Wort entziehen: ${name}` },
  all: { label: "Alle senken", of: (floor) => `Alle Hände senken: ${floor}` },
  ask: (what) => `${what}?`,
};

/** Warum der Server etwas ablehnt, nach den Fehlercodes von RFC 8855, Abschnitt 5.2.6. */
export const refusals = {
  1: "Diese Sitzung gibt es nicht mehr.",
  2: "Sie sind nicht mehr in dieser Sitzung.",
  3: "Der Server kennt das nicht.",
  4: "Der Server kennt das nicht.",
  5: "Das dürfen Sie nicht: hier entscheidet jemand anderes.",
  6: "Das gibt es nicht mehr.",
  7: "Diese Hand ist schon gesenkt.",
  8: "Sie haben hier so viele Hände oben, wie es geht.",
  9: "Der Server will eine verschlüsselte Verbindung.",
  10: "Der Server hat das nicht verstanden.",
  11: "Der Server will eine verschlüsselte Verbindung.",
  12: "Der Server spricht eine andere Version.",
  13: "Der Server hat das nicht verstanden.",
  14: "Das hat nicht geklappt.",
};

/** Warum ein Auftrag der Leitung nicht ausgeführt wird oder jemand nicht teilnimmt. */
const orderRefusals = {
  NotChair: "Das dürfen Sie nicht: nur eine Leitung darf es.",
  NoUser: "Diese Person ist nicht mehr in der Sitzung.",
  IsChair: "Eine Leitung kann nicht hinausgewiesen werden.",
  NoDoor: "Gäste können hier nicht eingelassen werden: fragen Sie, wer den Server betreibt.",
  Locked: "Im Moment wird niemand Neues eingelassen.",
  BadName: "Dieser Name geht nicht. Bitte einen anderen wählen.",
  Full: "Die Sitzung nimmt keine weiteren Gäste auf.",
  Ended: "Die Sitzung ist zu Ende.",
  404: "Dieser Link öffnet nichts mehr.",
  503: "Zu viele fragen zugleich. Bitte noch einmal versuchen.",
  other: "Das hat nicht geklappt. Bitte noch einmal versuchen.",
};

export const orderRefusal = (name) => orderRefusals[name] ?? orderRefusals.other;
export const refusal = (code) => refusals[code] ?? refusals[14];
