// What the answers of events mean, in words (docs/DEFINITIONS.md, Looks and Schedules).

const NOTHING = "Nothing changed.";
const lane = (name) => PEERS[name] ?? "device";

const MEANING_OF_VOID = {
  "void replica": () => "There is no replica of this number.",
  "void window": () => "The agent may not send it: it is acknowledged, more than 4 behind the last acknowledged one, or not there.",
  "void link": () => "It is not on its link: no earlier event put it there.",
  "void hand": (event) => (event.word === "write" ? "The replica has no step to write." : "The replica holds nothing to read for."),
  "void outbox": () => "The row's outbox does not have it: it is not made yet, or is settled.",
};

const MEANING_OF_READ = {
  ready: ([version]) => `The row is at version ${version}, and this is its next input: the replica made a step of it, and has yet to write it.`,
  repeat: ([number]) => `Message ${number} was taken before: the row gave the reply that it keeps.`,
  settled: ([number]) => `Message ${number} was taken, so long ago that its reply is no longer kept.`,
  ahead: ([taken]) => `The row has taken ${taken === "0" ? "no message" : `messages to ${taken}`}: one before this one is missing.`,
  waiting: ([name, call]) => `The row waits for the answer to call ${call} of the ${lane(name)}.`,
  old: ([name, call]) => `The answer to call ${call} of the ${lane(name)} is not awaited any more.`,
};

const MEANING_OF_ANSWER = {
  "send sent": (_, event) => (event.isAgain ? "The agent sent the message again." : "The agent sent the message."),
  "take taken": (_, event) => `It arrived at replica ${event.replica}, which holds it from here on.`,
  "answer taken": (_, event) => `The answer arrived at replica ${event.replica}, which holds it from here on.`,
  "write committed": ([version]) => `The row was as it was read: session, reply, effects and journal changed together, to version ${version}.`,
  "write stale": ([read, current]) => `The step was made at version ${read}, and the row is at version ${current}: ${NOTHING.toLowerCase()}`,
  "stop stopped": () => "The replica stopped: what it held is gone.",
  "reply acked": ([number]) => `The reply reached the agent: messages to ${number} are acknowledged.`,
  "reply old": ([number]) => `The agent had a reply to message ${number}, or to a later one: ${NOTHING.toLowerCase()}`,
  "push pushed": (_, event) => `The store put it on its way to the ${event.lane === "down" ? "agent" : lane(event.lane)}.`,
  "effect accepted": ([number]) => `It is the next one of its lane: accepted as number ${number}.`,
  "effect repeat": ([number]) => `Number ${number} was accepted before: it is told again, and nothing is done twice.`,
  "effect ahead": ([accepted]) => `One before it is missing: ${accepted === "0" ? "none is accepted" : `those to ${accepted} are accepted`}, and this one is dropped.`,
  "settle settled": ([number]) => `The store learnt that effects to ${number} of the lane were accepted, and keeps them in its outbox no longer.`,
  "settle old": ([number]) => `The store knew of ${number}, or of a later one: ${NOTHING.toLowerCase()}`,
};

const MEANING_OF_PLAIN = {
  refused: () => "The line was refused at admission, and the case went on.",
  message: () => "The message of the device, as admission numbered it.",
  call: () => "A call that the message made.",
  answer: () => "The peer's answer, which the next step took.",
  down: () => "A message to the device. Of one message, those to the device stand last.",
};

function meaningOf(event) {
  if (event.kind in MEANING_OF_PLAIN) return MEANING_OF_PLAIN[event.kind]();
  if (event.answer in MEANING_OF_VOID) return `${NOTHING} ${MEANING_OF_VOID[event.answer](event)}`;
  const [kind, ...values] = event.answer.split(" ");
  const means = event.word === "read" ? MEANING_OF_READ[kind] : MEANING_OF_ANSWER[`${event.word} ${kind}`];
  return means?.(values, event) ?? "";
}
