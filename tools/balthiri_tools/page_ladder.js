// The ladder: where each event stands between base stations, agents, replicas, store and peers, and how it is drawn.

const SVG = "http://www.w3.org/2000/svg";
const ROW_HEIGHT = 36;
const LINE_AT = 25;
const LABEL_AT = 15;

const replicaColumn = (replica) => `replica ${replica}`;
const receiverOf = (event) => (event.lane === "down" ? "agents" : event.lane);

// The columns that some event has, from left to right.
function columnsOf(run) {
  if (!run.hasTranscript) return ["base station", "MME", "gateway", "subscriber"];
  const used = new Set();
  let replicas = 1;
  for (const event of run.events) {
    if (event.answer !== "void replica") replicas = Math.max(replicas, event.replica);
    if (event.lane && event.lane !== "down") used.add(event.lane);
    if (event.word === "send") used.add(run.sourceOf(event));
  }
  const peers = ["gateway", "subscriber"].filter((it) => used.has(it));
  return ["base station", "agents", ...Array.from({ length: replicas }, (_, at) => replicaColumn(at + 1)), "store", ...peers];
}

// How an event is drawn: from a column to another (arrives, on its way, fails), at one (note, stop, again), or across all.
function drawingOf(run, event) {
  const label = run.nameOf(run.subjectOf(event));
  if (!run.hasTranscript) return drawingOfPlain(run, event, label);
  if (event.answer === "void replica") return { form: "across", label: `no replica ${event.replica}`, mark: "void" };
  if (event.kind === "void") return { form: "note", from: placeOfVoid(event), label, mark: "void" };
  const replica = replicaColumn(event.replica);
  switch (event.word) {
    case "send":
      if (event.isAgain) return { form: "again", from: "agents", label: `${label} again`, mark: "" };
      return { form: "arrives", from: run.sourceOf(event), to: "agents", label, mark: "" };
    case "take": return { form: "arrives", from: "agents", to: replica, label, mark: "" };
    case "answer": return { form: "arrives", from: event.lane, to: replica, label: `answer to ${label}`, mark: "" };
    case "read": return { form: "arrives", from: "store", to: replica, label, mark: event.kind === "ready" ? "" : "repeat" };
    case "write": return { form: event.kind === "stale" ? "fails" : "arrives", from: replica, to: "store", label, mark: event.kind === "stale" ? "stale" : "" };
    case "stop": return { form: "stop", from: replica, label: event.hand ? `stops with ${label}` : "stops", mark: "stale" };
    case "reply": return { form: "arrives", from: replicaColumn(event.by), to: "agents", label: `reply to ${label}`, mark: event.kind === "old" ? "repeat" : "" };
    case "push": return { form: "onItsWay", from: "store", to: receiverOf(event), label, mark: "" };
    case "settle": return { form: "onItsWay", from: receiverOf(event), to: "store", label, mark: event.kind === "old" ? "repeat" : "" };
    default: return drawingOfEffect(event, label);
  }
}

function drawingOfEffect(event, label) {
  if (event.kind !== "accepted") return { form: "arrives", from: "store", to: receiverOf(event), label, mark: "repeat" };
  if (event.lane === "down") return { form: "arrives", from: "agents", to: "base station", label, mark: "" };
  return { form: "arrives", from: "store", to: event.lane, label, mark: "" };
}

function drawingOfPlain(run, event, label) {
  switch (event.kind) {
    case "refused": return { form: "fails", from: run.sourceOf(event), to: "MME", label: run.messages[event.about].name, mark: "stale" };
    case "message": return { form: "arrives", from: run.sourceOf(event), to: "MME", label, mark: "" };
    case "call": return { form: "arrives", from: "MME", to: event.lane, label, mark: "" };
    case "answer": return { form: "onItsWay", from: event.lane, to: "MME", label: `answer to ${label}`, mark: "" };
    default: return { form: "arrives", from: "MME", to: "base station", label, mark: "" };
  }
}

function placeOfVoid(event) {
  if (event.replica) return replicaColumn(event.replica);
  if (event.word === "send" || event.word === "reply") return "agents";
  return event.word === "effect" ? receiverOf(event) : "store";
}

function svg(name, attributes = {}) {
  const made = document.createElementNS(SVG, name);
  for (const [key, value] of Object.entries(attributes)) made.setAttribute(key, value);
  return made;
}

// The drawing of a row: a lifeline a column, and what is moved about on them.
function buildDrawing(columns) {
  const drawing = svg("svg", { class: "drawing", height: ROW_HEIGHT, "aria-hidden": "true" });
  const at = (place) => `${((place + 0.5) / columns.length) * 100}%`;
  const lifelines = columns.map((_, place) => [[0, LINE_AT], [LINE_AT, ROW_HEIGHT]].map(([from, to]) =>
    drawing.appendChild(svg("line", { class: "life", x1: at(place), x2: at(place), y1: from, y2: to }))));
  const line = drawing.appendChild(svg("line", { y1: LINE_AT, y2: LINE_AT }));
  const end = drawing.appendChild(svg("svg", { class: "end", y: LINE_AT, overflow: "visible" }));
  const shape = end.appendChild(svg("path"));
  const label = drawing.appendChild(svg("text", { y: LABEL_AT }));
  return { drawing, at, lifelines, line, end, shape, label, columns };
}

// Which lifelines are thick: those of replicas that hold something, above the arrow from before the event, below it from behind it.
function fillLifelines(parts, before, behind) {
  parts.columns.forEach((column, place) => {
    if (!column.startsWith("replica")) return;
    const bit = 1 << (Number(column.slice("replica ".length)) - 1);
    parts.lifelines[place][0].classList.toggle("busy", (before & bit) !== 0);
    parts.lifelines[place][1].classList.toggle("busy", (behind & bit) !== 0);
  });
}

const SHAPES = {
  arrives: "M0 0 L-8 -4 L-8 4 Z", onItsWay: "M-7 -4 L0 0 L-7 4", fails: "M-5 -5 L5 5 M-5 5 L5 -5", stop: "M-6 -6 L6 6 M-6 6 L6 -6",
  note: "M-4.5 0 A4.5 4.5 0 1 0 4.5 0 A4.5 4.5 0 1 0 -4.5 0 M-3.2 3.2 L3.2 -3.2", again: "M0 -7 H20 V4 H3 M8 0 L1 4 L8 8", across: "",
};

function fillDrawing(parts, drawn) {
  const { line, end, shape, label, at, columns } = parts;
  const [from, to] = [columns.indexOf(drawn.from), columns.indexOf(drawn.to)];
  const isLeft = to >= 0 && to < from;
  parts.drawing.setAttribute("class", `drawing ${drawn.form} ${drawn.mark}`);
  shape.setAttribute("d", SHAPES[drawn.form]);
  shape.setAttribute("transform", isLeft ? "scale(-1,1)" : "");
  label.textContent = drawn.label;
  if (drawn.form === "across") {
    place(line, "0%", "100%");
    placeLabel(label, "50%", "middle");
  } else if (to < 0) {
    place(line, "0%", "0%");
    end.setAttribute("x", at(from));
    const isRight = from >= columns.length - 2;
    placeLabel(label, at(from), isRight ? "end" : "start", isRight ? -12 : drawn.form === "again" ? 26 : 12);
  } else {
    const tip = drawn.form === "fails" ? from + (to - from) * 0.82 : to;
    place(line, at(from), at(tip));
    end.setAttribute("x", at(tip));
    placeLabel(label, at((from + to) / 2), "middle");
  }
}

function place(line, from, to) {
  line.setAttribute("x1", from);
  line.setAttribute("x2", to);
}

function placeLabel(label, at, anchor, aside = 0) {
  label.setAttribute("x", at);
  label.setAttribute("dx", aside);
  label.setAttribute("y", aside ? LINE_AT + 4 : LABEL_AT);
  label.setAttribute("text-anchor", anchor);
}
