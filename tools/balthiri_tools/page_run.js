// The run that the page carries: its devices, its messages, and its events, each with whose it is and what it is about.

// What stands behind the word of an event, in order (docs/FORMATS.md, Case text).
const FIELDS = {
  send: ["device", "message"], reply: ["device", "message"], take: ["replica", "device", "message"],
  answer: ["replica", "device", "lane", "call"], read: ["replica"], write: ["replica"], stop: ["replica"],
  push: ["device", "lane", "call"], effect: ["device", "lane", "call"], settle: ["device", "lane", "call"],
};
const KINDS_OF_REPLAY = [
  "stale", "repeat", "void", "stopped", "old", "ahead", "waiting",
  "sent", "taken", "ready", "committed", "acked", "pushed", "accepted", "settled",
];
const KINDS_OF_PLAIN = ["refused", "message", "call", "answer", "down"];
const PEERS = { gateway: "gateway", subscriber: "subscriber server" };

const linesOf = (text) => (text === "" ? [] : text.split("\n"));
const count = (counts, key) => { counts[key] = (counts[key] ?? 0) + 1; };

class Run {
  constructor(data) {
    this.name = data.name;
    this.madeBy = data.madeBy;
    this.hasTranscript = data.answers !== "";
    this.kinds = this.hasTranscript ? KINDS_OF_REPLAY : KINDS_OF_PLAIN;
    this.hasTshark = data.tshark !== null;
    this.devices = data.devices.map((it, at) => ({ ...it, device: at + 1, counts: {} }));
    this.messages = [];
    this.ups = new Map();
    this.downs = new Map();
    this.readMessages(data);
    this.calls = this.devices.flatMap((it) => ["gateway", "subscriber"].flatMap((lane) =>
      it[lane].map((words, at) => ({ device: it.device, lane, call: at + 1, words }))));
    this.refused = this.messages.filter((it) => it.refusal !== "");
    this.beside = data.beside ? besideOf(data.beside) : [];
    this.besideSummary = data.beside?.summary ?? "";
    this.events = this.hasTranscript ? this.readTranscript(data) : this.readTurns(data);
  }

  readMessages(data) {
    const malformed = new Set(data.tshark?.malformed);
    const add = (message) => {
      const at = this.messages.length;
      this.messages.push({ at, info: data.tshark?.infos[at] ?? "", isMalformed: malformed.has(at), ...message });
      return this.messages[at];
    };
    for (const [line, station, text, device, number, name, refusal] of data.trace) {
      const message = add({ isUp: true, line, station, text, device, number, name, refusal });
      if (device) this.ups.set(`${device} ${number}`, message);
    }
    for (const [device, number, station, text, name] of data.downs) {
      this.downs.set(`${device} ${number}`, add({ isUp: false, line: 0, station, text, device, number, name, refusal: "" }));
    }
  }

  // The events of the schedule with their answers, and what the replicas worked on.
  readTranscript(data) {
    const answers = linesOf(data.answers);
    const hands = [];
    const replied = new Map();
    const sent = new Set();
    return linesOf(data.schedule).map((text, at) => {
      const event = eventOf(at + 1, text, answers[at]);
      followHands(event, hands);
      followReplies(event, replied, sent);
      if (event.whose) count(this.devices[event.whose - 1].counts, event.kind);
      return event;
    });
  }

  // Of a case without a schedule: each line of the trace, and what the machine that never fails made of it.
  readTurns(data) {
    if (data.turns === null) return [];
    const made = new Map(data.turns.map(([line, calls, downs]) => [line, { calls, downs }]));
    const events = [];
    const add = (kind, text, message, fields) => {
      const whose = message.device;
      events.push({ ...blankEvent(events.length + 1, text), kind, word: kind, station: message.station, whose, device: whose, ...fields });
      if (whose) count(this.devices[whose - 1].counts, kind);
    };
    for (const it of this.messages.filter((message) => message.isUp)) {
      const { calls, downs } = made.get(it.line) ?? { calls: [], downs: [] };
      if (it.refusal) add("refused", `line ${it.line}`, it, { answer: `refused ${it.refusal}`, about: it.at });
      else add("message", `line ${it.line}`, it, { message: it.number });
      for (const [lane, call, isAwaited] of calls) {
        add("call", `${lane} ${call}`, it, { lane, call });
        if (isAwaited) add("answer", `${lane} ${call}`, it, { lane, call });
      }
      for (const call of downs) add("down", `down ${call}`, it, { lane: "down", call });
    }
    return events;
  }

  // What an event is about: a message from a base station, a message to a device, or a call of a peer.
  subjectOf(event) {
    const hand = event.hand ?? event;
    if (hand.message) return { device: hand.device, message: hand.message, lane: "", call: 0 };
    if (hand.lane) return { device: hand.device, message: 0, lane: hand.lane, call: hand.call };
    return null;
  }

  messageOf(event) {
    if (event.about >= 0) return this.messages[event.about];
    const subject = this.subjectOf(event);
    if (subject === null) return null;
    if (subject.message) return this.ups.get(`${subject.device} ${subject.message}`) ?? null;
    return subject.lane === "down" ? this.downs.get(`${subject.device} ${subject.call}`) ?? null : null;
  }

  // Where a message of a device comes from: a notice from the gateway, any other from a base station.
  sourceOf(event) {
    return this.messageOf(event)?.station === 0 ? "gateway" : "base station";
  }

  // How a subject is called: the message's name, or the first word of the call.
  nameOf(subject) {
    if (subject === null) return "";
    if (subject.message) return `${this.ups.get(`${subject.device} ${subject.message}`)?.name ?? "message"} ${subject.message}`;
    if (subject.lane === "down") return `${this.downs.get(`${subject.device} ${subject.call}`)?.name ?? "down"} ${subject.call}`;
    const words = this.devices[subject.device - 1]?.[subject.lane][subject.call - 1];
    return `${words?.split(" ")[0] ?? subject.lane} ${subject.call}`;
  }

  // The events by what they are about; made when it is first asked for.
  eventsAbout(subject) {
    if (!this.bySubject) {
      this.bySubject = new Map();
      for (const event of this.events) {
        const about = this.subjectOf(event);
        if (about === null) continue;
        const key = keyOf(about);
        if (this.bySubject.has(key)) this.bySubject.get(key).push(event);
        else this.bySubject.set(key, [event]);
      }
    }
    return this.bySubject.get(keyOf(subject)) ?? [];
  }
}

// Of a capture beside the machine: a row for each message of a base station, and one for each answer to it.
function besideOf({ devices }) {
  const nothing = { mme: null, machine: null, fields: [], differs: false };
  return devices.flatMap(([device, messages]) => messages.flatMap((it) => {
    const out = it.left_out ? `no message of the machine: ${it.left_out}` : "";
    const front = { ...nothing, device, frame: it.frame, station: it.station, name: it.name, told: out || (it.answers.length ? "" : "equal") };
    return [front, ...it.answers.map((answer) => ({ ...answer, device, station: it.station, frame: answer.mme?.frame ?? "", name: "" }))];
  }));
}

const keyOf = (subject) => `${subject.device} ${subject.message} ${subject.lane} ${subject.call}`;

function blankEvent(number, text) {
  return { number, text, word: "", replica: 0, device: 0, message: 0, lane: "", call: 0, answer: "", kind: "", hand: null, whose: 0, about: -1, by: 0, isAgain: false };
}

function eventOf(number, text, answer) {
  const [word, ...values] = text.split(" ");
  const event = blankEvent(number, text);
  event.word = word;
  FIELDS[word].forEach((name, at) => { event[name] = name === "lane" ? values[at] : Number(values[at]); });
  event.answer = answer;
  event.kind = answer.split(" ", 1)[0];
  return event;
}

// Whose an event is: the device that it names, or the one that its replica works for or worked for last.
function followHands(event, hands) {
  if (event.kind === "taken") {
    hands[event.replica] = { device: event.device, message: event.message, lane: event.lane, call: event.call, isHeld: true };
  } else if (!event.device) {
    const hand = hands[event.replica];
    event.whose = hand?.device ?? 0;
    if (!hand?.isHeld) return;
    event.hand = hand;
    if (["stopped", "committed", "stale"].includes(event.kind)) hands[event.replica] = { ...hand, isHeld: false };
  }
  event.whose ||= event.device;
}

// Which replica last gave the reply to a message, and whether a message was sent before.
function followReplies(event, replied, sent) {
  const hand = event.hand;
  if (hand?.message && (event.kind === "committed" || event.kind === "repeat")) replied.set(`${hand.device} ${hand.message}`, event.replica);
  const key = `${event.device} ${event.message}`;
  if (event.word === "reply") event.by = replied.get(key) ?? 0;
  if (event.word === "send" && event.kind === "sent") {
    event.isAgain = sent.has(key);
    sent.add(key);
  }
}

// Of each event which replicas hold something for a device (0: for any) behind it, a bit each.
function heldAfter(events, device) {
  const held = new Uint16Array(events.length);
  let now = 0;
  events.forEach((event, at) => {
    const bit = event.replica ? 1 << (event.replica - 1) : 0;
    if (event.kind === "taken") now = !device || event.device === device ? now | bit : now & ~bit;
    else if (["stopped", "committed", "stale"].includes(event.kind)) now &= ~bit;
    held[at] = now;
  });
  return held;
}
