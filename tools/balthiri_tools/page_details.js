// The panel beside the lists: what an event, a message or a call is, with the octets and what tshark says of them.

const OCTETS_A_LINE = 16;
const MOST_BUTTONS = 60;

// A notice comes from no base station, and a message to all of an area goes to none of its own: 0 stands for either.
function toStation(message) {
  if (message.station) return `${message.isUp ? "from" : "to"} base station ${message.station}`;
  return message.isUp ? "from the gateway" : "to each base station of its area";
}

class Details {
  constructor(run, page) {
    this.run = run;
    this.page = page;
    this.panel = document.getElementById("details");
    this.body = document.getElementById("details-body");
    this.title = document.getElementById("details-title");
    document.getElementById("details-close").addEventListener("click", () => page.closeDetails());
  }

  show(title, parts) {
    this.title.textContent = title;
    this.body.replaceChildren(...parts.filter(Boolean));
    this.body.scrollTop = 0;
    this.panel.hidden = false;
  }

  hide() {
    this.panel.hidden = true;
  }

  focus() {
    this.title.focus();
  }

  // Facts as a list of terms; a fact without a value is left out.
  facts(pairs) {
    const list = element("dl", { class: "facts" });
    for (const [term, value] of pairs) if (value !== "" && value !== null) list.append(element("dt", {}, term), element("dd", {}, value));
    return list;
  }

  deviceButton(device) {
    const it = this.run.devices[device - 1];
    if (!it) return null;
    const button = element("button", { type: "button", class: "link number" }, it.imsi);
    button.addEventListener("click", () => this.page.setDevice(device));
    return button;
  }

  // The events of one message, call or down, each a button that goes there.
  eventButtons(subject, here) {
    const events = subject ? this.run.eventsAbout(subject) : [];
    if (!events.length || !this.run.hasTranscript) return [];
    const buttons = events.slice(0, MOST_BUTTONS).map((event) => {
      const number = element("span", { class: "number" }, String(event.number));
      const button = element("button", { type: "button", class: `step ${event.kind}` }, number, ` ${event.word} `, element("i", {}, event.answer));
      if (event === here) button.setAttribute("aria-current", "true");
      button.addEventListener("click", () => this.page.goToEvent(event.number));
      return element("li", {}, button);
    });
    const more = events.length > MOST_BUTTONS ? [element("li", { class: "dim" }, `and ${events.length - MOST_BUTTONS} more`)] : [];
    return [element("h3", {}, `Events of ${this.run.nameOf(subject)}`), element("ol", { class: "steps" }, ...buttons, ...more)];
  }

  event(event) {
    const { run } = this;
    const subject = run.subjectOf(event);
    const message = run.messageOf(event);
    const call = subject && subject.lane && subject.lane !== "down" ? run.devices[subject.device - 1][subject.lane][subject.call - 1] : "";
    const title = run.hasTranscript ? `Event ${event.number}` : event.text;
    this.show(title, [
      element("p", { class: "what" }, element("code", {}, event.text), " ", element("span", { class: `answer ${event.kind}` }, event.answer || event.kind)),
      element("p", {}, meaningOf(event)),
      this.facts([
        ["device", this.deviceButton(event.whose)],
        ["about", run.nameOf(subject)],
        ["call", call ? `${PEERS[subject.lane]}: ${call}` : ""],
      ]),
      ...this.eventButtons(subject, event),
      ...(message ? this.messageParts(message) : []),
    ]);
  }

  message(message) {
    const { device, number } = message;
    const subject = message.isUp ? { device, message: number, lane: "", call: 0 } : { device, message: 0, lane: "down", call: number };
    const title = message.isUp ? `Line ${message.line}` : `Down ${message.number}`;
    this.show(title, [
      this.facts([["device", this.deviceButton(message.device)], ["number", message.device ? `${message.isUp ? "message" : "down"} ${message.number}` : ""]]),
      ...this.messageParts(message),
      ...(message.device ? this.eventButtons(subject) : []),
    ]);
  }

  call(call) {
    this.show(`${PEERS[call.lane]}, call ${call.call}`, [
      element("p", { class: "what" }, element("code", {}, call.words)),
      this.facts([["device", this.deviceButton(call.device)]]),
      ...this.eventButtons({ device: call.device, message: 0, lane: call.lane, call: call.call }),
    ]);
  }

  // A row of the view beside a capture: what both sent, and each field that is otherwise.
  beside(it) {
    const values = it.fields.map((field) => [field.name, `${field.mme || "none"} / ${field.machine || "none"}${field.explained ? ` (${field.explained})` : ""}`]);
    const sent = (title, message) => (message ? [element("h3", {}, title, element("span", { class: "dim" }, `  ${message.name}`)), dumpOf(octetsOf(message.octets), -1)] : []);
    this.show(it.frame ? `Frame ${it.frame}` : "The machine alone", [
      element("p", { class: "what" }, it.name || it.told),
      this.facts([["device", this.deviceButton(it.device)], ["base station", it.station ? String(it.station) : ""], ["in words", it.name ? it.told : ""], ...values]),
      ...sent("The capture's MME", it.mme),
      ...sent("The proved machine", it.machine),
    ]);
  }

  messageParts(message) {
    const octets = octetsOf(message.text);
    const place = / at ([0-9]+)$/.exec(message.refusal);
    return [
      element("h3", {}, message.name, element("span", { class: "dim" }, `  ${toStation(message)}`)),
      message.refusal && element("p", { class: "refusal" }, `refused: ${message.refusal}`),
      ...(octets
        ? [element("p", { class: "dim number" }, `${octets.length} octets`), dumpOf(octets, place ? Number(place[1]) : -1)]
        : [element("p", {}, "These are no octets:"), element("pre", { class: "dump" }, message.text)]),
      ...this.tsharkParts(message),
    ];
  }

  tsharkParts(message) {
    if (!this.run.hasTshark) return [element("p", { class: "dim" }, "tshark was not there when this page was made.")];
    if (!message.info && !treeOf(message)) return [];
    const tree = treeOf(message);
    return [
      element("h3", {}, "tshark"),
      element("p", {}, message.info, message.isMalformed ? element("span", { class: "answer stale" }, " malformed") : ""),
      tree ? treePart(tree) : element("p", { class: "dim" }, "The page has tshark's tree of the first messages alone."),
    ];
  }
}

function octetsOf(text) {
  return /^([0-9a-f]{2})+$/.test(text) ? text.match(/../g) : null;
}

// Octets in lines of sixteen behind their offset; the octet at a place is marked.
function dumpOf(octets, place) {
  const dump = element("pre", { class: "dump", tabindex: "0", "aria-label": "octets" });
  for (let at = 0; at < octets.length; at += OCTETS_A_LINE) {
    dump.append(element("span", { class: "offset" }, at.toString(16).padStart(4, "0")));
    octets.slice(at, at + OCTETS_A_LINE).forEach((octet, beyond) => {
      dump.append(beyond === OCTETS_A_LINE / 2 ? "  " : " ");
      dump.append(at + beyond === place ? element("mark", { title: `octet ${place}` }, octet) : octet);
    });
    dump.append("\n");
  }
  return dump;
}

// The trees are many: they are read when the first is asked for.
let trees = null;
function treeOf(message) {
  trees ??= JSON.parse(document.getElementById("trees").textContent) ?? { lines: [], trees: [] };
  return trees.trees[message.at]?.map((line) => trees.lines[line]) ?? null;
}

function treePart(lines) {
  const tree = element("div", { class: "tree", tabindex: "0", role: "group", "aria-label": "what tshark says of the message" });
  for (const line of lines) {
    const text = line.trimStart();
    const colon = text.indexOf(": ");
    const row = element("div", {});
    row.style.paddingLeft = `${(line.length - text.length) * 0.45 + 1}ch`;
    if (colon < 0) row.append(text);
    else row.append(element("span", { class: "dim" }, text.slice(0, colon + 1)), text.slice(colon + 1));
    tree.append(row);
  }
  return tree;
}
