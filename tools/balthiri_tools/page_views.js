// The page: devices at the side, the lists in tabs, what is picked beside them, and what the address says of all this.

const TABS = ["events", "messages", "calls", "refused", "beside"];
const FAULTS = ["stale", "repeat", "stopped"];
const STRIP_BAND = 3;
const byId = (id) => document.getElementById(id);
const numeral = new Intl.NumberFormat("en");
const counted = (number, one, many = `${one}s`) => `${numeral.format(number)} ${number === 1 ? one : many}`;

// A row of cells, each with its class.
function cells(role, names) {
  const row = element("div", { role, class: "row" });
  for (const name of names) row.append(element("span", { role: role === "row" ? "gridcell" : "presentation", class: name }));
  return row;
}

function fillCells(row, texts) {
  texts.forEach((text, at) => { row.children[at].textContent = text; });
}

class Page {
  constructor(run) {
    this.run = run;
    this.device = 0;
    this.tabs = TABS.filter((it) => it !== "beside" || run.besideSummary);
    this.firstTab = run.events.length ? "events" : "messages";
    this.tab = this.firstTab;
    this.kinds = new Set();
    this.find = "";
    this.details = new Details(run, this);
    this.columns = columnsOf(run);
    this.buildHeader();
    this.buildDevices();
    this.buildEvents();
    this.buildOthers();
    this.buildTabs();
    this.listen();
    this.readAddress();
  }

  buildHeader() {
    const { run } = this;
    byId("name").textContent = run.name;
    byId("made-by").textContent = run.madeBy;
    const total = (of) => run.devices.reduce((sum, it) => sum + of(it), 0);
    const answered = (kind) => run.events.reduce((sum, it) => sum + (it.kind === kind), 0);
    const events = run.hasTranscript ? [["events", run.events.length], ["committed", answered("committed")], ["stale", answered("stale")]] : [];
    const stats = [
      ["devices", run.devices.length], ["messages", total((it) => it.messages)], ["refused", run.refused.length], ...events,
      ["steps", total((it) => it.steps)], ["down", run.messages.filter((it) => !it.isUp).length],
      ["gateway", total((it) => it.gateway.length)], ["subscriber", total((it) => it.subscriber.length)],
    ];
    for (const [name, value] of stats) byId("stats").append(element("div", { "data-stat": name }, element("dt", {}, name), element("dd", {}, numeral.format(value))));
  }

  buildDevices() {
    this.deviceRows = new Rows({
      scroller: byId("devices"), height: 46, build: () => cells("option", ["imsi", "stage", "course"]),
      fill: (row, it) => fillCells(row, it.device ? [it.imsi, it.session[0], this.courseOfDevice(it)] : ["All devices", "", counted(this.run.events.length, "event")]),
      pick: (it) => this.setDevice(it.device), open: () => byId(this.tab).focus(),
    });
    byId("search").addEventListener("input", () => this.showDevices());
    byId("search").addEventListener("keydown", (event) => {
      if (event.key === "ArrowDown" || event.key === "Enter") {
        event.preventDefault();
        byId("devices").focus();
        const at = this.deviceRows.items.findIndex((it) => it.device);
        if (byId("search").value && at >= 0) this.deviceRows.choose(at);
      }
    });
  }

  // Where a device ended, and what went wrong on the way.
  courseOfDevice(device) {
    const link = device.session[1] === "off" ? "no link" : `link ${device.session[1]}`;
    return [link, ...FAULTS.filter((kind) => device.counts[kind]).map((kind) => `${kind} ${device.counts[kind]}`)].join(" · ");
  }

  showDevices() {
    const sought = byId("search").value.trim().toLowerCase();
    const found = this.run.devices.filter((it) => it.imsi.includes(sought) || it.session[0].includes(sought));
    const items = sought ? found : [{ device: 0 }, ...found];
    byId("devices-found").textContent = sought ? `${numeral.format(found.length)} of ${counted(this.run.devices.length, "device")}` : counted(found.length, "device");
    this.deviceRows.show(items, items.findIndex((it) => it.device === this.device));
    if (this.deviceRows.picked >= 0) this.deviceRows.reveal(this.deviceRows.picked);
  }

  buildEvents() {
    const ladder = byId("ladder-head");
    for (const column of this.columns) ladder.append(element("span", {}, column));
    document.documentElement.style.setProperty("--ladder", `${this.columns.length * 4.4}rem`);
    byId("event-head").children[1].textContent = this.run.hasTranscript ? "answer, event" : "what, line or number";
    this.eventRows = new Rows({
      scroller: byId("events"), height: ROW_HEIGHT, build: () => this.buildEvent(), fill: (row, at) => this.fillEvent(row, at),
      pick: (at) => this.pickEvent(at), open: () => this.details.focus(),
    });
    byId("events").addEventListener("scroll", () => { byId("event-head").scrollLeft = byId("events").scrollLeft; }, { passive: true });
    this.buildChips();
    byId("find").addEventListener("input", () => this.onFind());
    byId("strip").addEventListener("click", (event) => this.eventRows.centre(Math.floor((event.offsetY / byId("strip").clientHeight) * this.shown.length)));
    new ResizeObserver(() => this.drawStrip()).observe(byId("strip"));
  }

  buildEvent() {
    const row = cells("row", ["number", "said", "imsi", "ladder"]);
    row.children[1].append(element("span"), element("span", { class: "event" }));
    row.parts = buildDrawing(this.columns);
    row.lastChild.append(row.parts.drawing, element("span", { class: "unseen" }));
    return row;
  }

  fillEvent(row, at) {
    const event = this.run.events[at];
    const drawn = drawingOf(this.run, event);
    const [number, said, imsi] = row.children;
    number.textContent = event.number;
    fillCells(said, [event.answer || event.kind, event.text]);
    said.firstChild.className = `answer ${event.kind}`;
    imsi.textContent = event.whose ? this.run.devices[event.whose - 1].imsi : "";
    row.lastChild.lastChild.textContent = drawn.label;
    fillLifelines(row.parts, at ? this.held[at - 1] : 0, this.held[at]);
    fillDrawing(row.parts, drawn);
  }

  buildChips() {
    this.chips = new Map();
    const present = new Set(this.run.events.map((it) => it.kind));
    for (const kind of this.run.kinds.filter((it) => present.has(it))) {
      const chip = element("button", { type: "button", class: `chip ${kind}`, "aria-pressed": "false", "data-kind": kind }, kind, " ", element("b", { class: "number" }));
      chip.addEventListener("click", () => this.toggleKind(kind));
      byId("chips").append(chip);
      this.chips.set(kind, chip);
    }
  }

  toggleKind(kind) {
    if (!this.kinds.delete(kind)) this.kinds.add(kind);
    this.showEvents();
    this.writeAddress();
  }

  onFind() {
    const text = byId("find").value.trim().toLowerCase();
    const number = /^#([0-9]+)$/.exec(text);
    if (number) return this.goToEvent(Number(number[1]), false);
    if (text.startsWith("#")) return;
    this.find = text;
    this.showEvents();
    this.writeAddress();
  }

  // Whether an event has the words that are sought, in its own words, its answer, or the name of what it is about.
  isFound(event) {
    event.words ??= `${event.text}\n${event.answer}\n${this.run.nameOf(this.run.subjectOf(event))}`.toLowerCase();
    return event.words.includes(this.find);
  }

  showEvents() {
    const { run, device, kinds, find } = this;
    const counts = {};
    this.shown = [];
    run.events.forEach((event, at) => {
      if (device && event.whose !== device) return;
      count(counts, event.kind);
      if ((!kinds.size || kinds.has(event.kind)) && (!find || this.isFound(event))) this.shown.push(at);
    });
    for (const [kind, chip] of this.chips) {
      chip.lastChild.textContent = numeral.format(counts[kind] ?? 0);
      chip.setAttribute("aria-pressed", kinds.has(kind));
      chip.classList.toggle("none", !counts[kind]);
    }
    if (this.heldOf !== device) this.held = heldAfter(run.events, device);
    this.heldOf = device;
    byId("events").classList.toggle("of-one", device !== 0 || run.devices.length === 1);
    byId("event-head").classList.toggle("of-one", device !== 0 || run.devices.length === 1);
    const all = device ? Object.values(counts).reduce((sum, it) => sum + it, 0) : run.events.length;
    byId("events-found").textContent = this.shown.length === all ? counted(all, "event") : `${numeral.format(this.shown.length)} of ${counted(all, "event")}`;
    this.eventRows.show(this.shown, this.shown.indexOf(this.pickedEvent));
    this.drawStrip();
    const why = run.events.length ? "No event is so answered." : "The printed text has no transcript, and what each message made is not known here.";
    this.noteEmpty("events", this.shown.length, why);
  }

  // The strip beside the events: where among them the faults are.
  drawStrip() {
    const strip = byId("strip");
    const [width, height] = [strip.clientWidth, strip.clientHeight];
    if (!width || !height || !this.shown) return;
    strip.width = width;
    strip.height = height;
    const pen = strip.getContext("2d");
    const style = getComputedStyle(document.documentElement);
    const colours = { repeat: style.getPropertyValue("--repeat"), stopped: style.getPropertyValue("--stale"), stale: style.getPropertyValue("--stale") };
    const rows = Math.max(this.shown.length, Math.floor(height / ROW_HEIGHT));
    const bands = Math.ceil(height / STRIP_BAND);
    for (const [kind, colour] of Object.entries(colours)) {
      const found = new Float32Array(bands);
      this.shown.forEach((at, row) => { if (this.run.events[at].kind === kind) found[Math.floor((row / rows) * bands)] += 1; });
      pen.fillStyle = colour;
      found.forEach((number, band) => {
        pen.globalAlpha = number && Math.min(1, 0.35 + (2 * number * bands) / rows);
        pen.fillRect(kind === "repeat" ? width / 2 : 2, band * STRIP_BAND, width / 2 - 2, STRIP_BAND);
      });
    }
  }

  noteEmpty(tab, number, text) {
    byId(`${tab}-none`).hidden = number > 0;
    byId(`${tab}-none`).textContent = text;
  }

  buildOthers() {
    const { run } = this;
    const imsiOf = (device) => (device ? run.devices[device - 1].imsi : "");
    const list = (id, names, texts, pick, mark = () => "") => new Rows({
      scroller: byId(id), height: 32, build: () => cells("row", names), open: () => this.details.focus(), pick,
      fill: (row, it) => { fillCells(row, texts(it)); row.className = `row ${mark(it)}`; },
    });
    const said = (it) => (it.refusal ? `refused: ${it.refusal}` : it.isMalformed ? `${it.info} (malformed)` : it.info);
    this.messageRows = list("messages", ["number", "way", "station number", "imsi", "name", "octets number", "said"],
      (it) => [it.isUp ? `line ${it.line}` : `down ${it.number}`, it.isUp ? "↑" : "↓", it.station, imsiOf(it.device), it.name, lengthOf(it), said(it)],
      (it) => this.details.message(it), (it) => (it.refusal ? "refused" : ""));
    this.refusedRows = list("refused", ["number", "station number", "reason", "name", "octets number", "said"],
      (it) => [`line ${it.line}`, it.station, it.refusal, it.name, lengthOf(it), it.info], (it) => this.details.message(it));
    this.callRows = list("calls", ["imsi", "lane", "number", "call", "first number", "first number", "first number", "again number"],
      (it) => [imsiOf(it.device), it.lane, it.call, it.words, ...this.courseOf(it)], (it) => this.details.call(it));
    const either = (it, sent) => (it.name ? "" : sent?.name ?? "–");
    this.besideRows = list("beside", ["number", "imsi", "name", "mme", "machine", "said"],
      (it) => [it.frame, imsiOf(it.device), it.name, either(it, it.mme), either(it, it.machine), it.told], (it) => this.details.beside(it),
      (it) => (it.differs ? "differs" : ""));
  }

  // Of a call: the events by which it was first pushed, accepted and settled, and how often it came again.
  courseOf(call) {
    const events = this.run.hasTranscript ? this.run.eventsAbout({ ...call, message: 0 }) : [];
    const first = (word, kind) => events.find((it) => it.word === word && it.kind === kind)?.number ?? "–";
    const again = events.filter((it) => it.word === "effect" && it.kind === "repeat").length;
    return [first("push", "pushed"), first("effect", "accepted"), first("settle", "settled"), again || "–"];
  }

  showOthers() {
    const { run, device } = this;
    const ofDevice = (items) => (device ? items.filter((it) => it.device === device) : items);
    const messages = ofDevice(run.messages);
    const calls = ofDevice(run.calls);
    this.messageRows.show(messages);
    this.callRows.show(calls);
    this.refusedRows.show(run.refused);
    const events = run.events.reduce((sum, it) => sum + (!device || it.whose === device), 0);
    const beside = ofDevice(run.beside);
    this.besideRows.show(beside);
    const differences = beside.filter((it) => it.differs).length;
    const numbers = { events, messages: messages.length, calls: calls.length, refused: run.refused.length, beside: differences };
    for (const tab of TABS) byId(`tab-${tab}`).lastElementChild.textContent = numeral.format(numbers[tab]);
    this.noteEmpty("messages", messages.length, "No message.");
    this.noteEmpty("calls", calls.length, "No peer was called.");
    this.noteEmpty("refused", run.refused.length, "No line of the trace was refused.");
    this.noteEmpty("beside", beside.length, "The capture has no message of it.");
  }

  buildTabs() {
    byId("tab-beside").hidden = !this.tabs.includes("beside");
    byId("beside-summary").textContent = this.run.besideSummary;
    for (const tab of TABS) byId(`tab-${tab}`).addEventListener("click", () => this.setTab(tab));
    byId("tabs").addEventListener("keydown", (event) => {
      const by = { ArrowRight: 1, ArrowLeft: -1 }[event.key];
      if (!by) return;
      this.setTab(this.tabs[(this.tabs.indexOf(this.tab) + by + this.tabs.length) % this.tabs.length]);
      byId(`tab-${this.tab}`).focus();
    });
  }

  setTab(tab) {
    this.tab = tab;
    for (const it of TABS) {
      byId(`tab-${it}`).setAttribute("aria-selected", it === tab);
      byId(`tab-${it}`).tabIndex = it === tab ? 0 : -1;
      byId(`panel-${it}`).hidden = it !== tab;
    }
    this.rowsOf(tab).draw();
    if (tab === "events") this.drawStrip();
    this.writeAddress();
  }

  rowsOf(tab) {
    return { events: this.eventRows, messages: this.messageRows, calls: this.callRows, refused: this.refusedRows, beside: this.besideRows }[tab];
  }

  setDevice(device) {
    this.device = device;
    this.showDevices();
    this.showCard();
    this.showEvents();
    this.showOthers();
    if (this.eventRows.picked >= 0) this.eventRows.centre(this.eventRows.picked);
    else byId("events").scrollTop = 0;
    this.writeAddress();
  }

  showCard() {
    const card = byId("card");
    card.hidden = this.device === 0;
    if (!this.device) return;
    const it = this.run.devices[this.device - 1];
    const [stage, link, network, area, bearer, radio] = it.session;
    const facts = [
      ["stage", stage], ["link", link], ["area", `${network} ${area}`], ["bearer", bearer], ["radio", `${radio} octets`], ["M-TMSI", it.tmsi],
      ["messages", it.messages], ["steps", it.steps], ["calls", it.gateway.length + it.subscriber.length],
    ];
    if (it.second) facts.splice(4, 0, ["second connection", it.second]);
    byId("card-imsi").textContent = it.imsi;
    byId("card-facts").replaceChildren(...facts.map(([term, value]) => element("div", {}, element("dt", {}, term), element("dd", {}, String(value)))));
  }

  pickEvent(at) {
    this.pickedEvent = at;
    this.details.event(this.run.events[at]);
    this.writeAddress();
  }

  // Goes to an event by its number; what hides it is taken away.
  goToEvent(number, takesFocus = true) {
    if (number < 1 || number > this.run.events.length) return;
    const at = number - 1;
    this.pickedEvent = at;
    if (!this.shown.includes(at)) {
      this.kinds.clear();
      this.find = "";
      if (this.device && this.run.events[at].whose !== this.device) this.setDevice(0);
      if (takesFocus) byId("find").value = "";
      this.showEvents();
    }
    if (this.tab !== "events") this.setTab("events");
    this.eventRows.centre(this.shown.indexOf(at));
    this.eventRows.choose(this.shown.indexOf(at));
    if (takesFocus) byId("events").focus();
  }

  closeDetails() {
    this.details.hide();
    byId(this.tab).focus();
  }

  listen() {
    document.addEventListener("keydown", (event) => this.onKey(event));
    byId("card-all").addEventListener("click", () => this.setDevice(0));
    addEventListener("beforeprint", () => this.print(true));
    addEventListener("afterprint", () => this.print(false));
    addEventListener("hashchange", () => this.readAddress());
    matchMedia("(prefers-color-scheme: dark)").addEventListener("change", () => this.drawStrip());
  }

  onKey(event) {
    const isTyping = event.target.matches?.("input");
    if (event.key === "Escape") {
      if (isTyping && event.target.value) return;
      if (!byId("details").hidden) this.closeDetails();
      else if (isTyping) byId(this.tab).focus();
      else if (this.device) this.setDevice(0);
      return;
    }
    if (isTyping || event.ctrlKey || event.altKey || event.metaKey) return;
    const keys = { "/": "search", f: "find", e: "events", d: "devices" };
    const target = keys[event.key];
    if (target) {
      event.preventDefault();
      if (target === "find" || target === "events") this.setTab("events");
      byId(target).focus();
    } else if (/^[1-5]$/.test(event.key) && event.key <= this.tabs.length) this.setTab(this.tabs[Number(event.key) - 1]);
  }

  print(isPrinting) {
    const rows = this.rowsOf(this.tab);
    rows.print(isPrinting);
    const isCut = rows.items.length > MOST_ROWS_PRINTED;
    byId("print-note").textContent = isCut ? `The first ${numeral.format(MOST_ROWS_PRINTED)} of ${numeral.format(rows.items.length)} rows.` : "";
  }

  // The address says what is shown, so that it can be sent to another and kept.
  writeAddress() {
    if (this.isReading) return;
    const words = new URLSearchParams();
    if (this.device) words.set("device", this.run.devices[this.device - 1].imsi);
    if (this.tab !== this.firstTab) words.set("tab", this.tab);
    if (this.kinds.size) words.set("answers", [...this.kinds].join(","));
    if (this.find) words.set("find", this.find);
    if (this.pickedEvent >= 0) words.set("event", this.pickedEvent + 1);
    history.replaceState(null, "", `#${words}`);
  }

  readAddress() {
    this.isReading = true;
    const words = new URLSearchParams(location.hash.slice(1));
    this.kinds = new Set((words.get("answers") ?? "").split(",").filter((it) => this.chips.has(it)));
    this.find = (words.get("find") ?? "").toLowerCase();
    byId("find").value = this.find;
    this.setTab(this.tabs.includes(words.get("tab")) ? words.get("tab") : this.firstTab);
    this.setDevice(this.run.devices.find((it) => it.imsi === words.get("device"))?.device ?? 0);
    if (words.has("event")) this.goToEvent(Number(words.get("event")), false);
    this.isReading = false;
  }
}

const lengthOf = (message) => octetsOf(message.text)?.length ?? "–";

const page = new Page(new Run(JSON.parse(document.getElementById("run").textContent)));
requestAnimationFrame(() => requestAnimationFrame(() => { document.documentElement.dataset.openedIn = Math.round(performance.now()); }));
