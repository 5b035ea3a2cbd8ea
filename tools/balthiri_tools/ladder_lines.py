"""The lines of a chart, of a transcript or of the machine that never fails."""

from __future__ import annotations

from dataclasses import dataclass, field, replace
from typing import Dict, List, Optional, Set, Tuple

from .areas import Areas
from .case_text import CaseText, Event, TraceLine
from .chart import AGENTS, GATEWAY, MME, STORE, Form, Legend, Line, Mark, replica_column, station_column
from .messages import name_of, name_of_line
from .printed import Final, Printed
from .turns import Message, Turn

# What the forms of lines say, of a transcript and of the machine that never fails.
LEGEND_OF_REPLAY: Legend = {
    (Form.ARRIVES, Mark.NONE): "arrives; is read from the store, or written to it",
    (Form.ON_ITS_WAY, Mark.NONE): "is pushed or settled, and on its way",
    (Form.ARRIVES, Mark.REPEAT): "again, late, or ahead of its turn",
    (Form.ON_ITS_WAY, Mark.REPEAT): "is settled again",
    (Form.FAILS, Mark.STALE): "stale: another wrote since it was read, so nothing is written",
    (Form.BOX, Mark.STOP): "the replica stops, and forgets what it works on",
    (Form.NOTE, Mark.VOID): "void: there is nothing to arrive or to be done",
    (Form.ACROSS, Mark.VOID): "void: there is no such replica",
}
LEGEND_OF_PLAIN: Legend = {
    (Form.ARRIVES, Mark.NONE): "a message, or a call of a peer",
    (Form.ON_ITS_WAY, Mark.NONE): "the answer to a call",
    (Form.FAILS, Mark.VOID): "a line of the trace that is refused",
}


@dataclass(frozen=True)
class Choice:
    """Which part is shown: of one device or of all, and from one number to another."""

    device: Optional[int]
    first: int
    last: int

    def has(self, number: int, device: int) -> bool:
        return self.first <= number <= self.last and self.device in (None, device)


@dataclass(frozen=True)
class Hand:
    """What a replica works on: whose it is, and its name."""

    device: int
    name: str
    message: int = 0


def column_of(line: TraceLine) -> str:
    """Where a line of a trace comes from."""
    return GATEWAY if line.is_notice else station_column(line.station)


@dataclass
class Names:
    """How messages, calls and downs are called in labels, and whence and where they go. Where there are more devices, a name says whose it is."""

    messages: Dict[Tuple[int, int], Message]
    finals: Dict[int, Final]
    areas: Areas

    @staticmethod
    def of(case: CaseText, printed: Printed, messages: List[Message]) -> "Names":
        finals = printed.by_imsi()
        by_number, by_device = {(it.device, it.number): it for it in messages}, {it.device: finals[it.imsi] for it in case.subscribers}
        return Names(by_number, by_device, Areas(it.line for it in messages))

    def _whose(self, name: str, device: int) -> str:
        return f"{name} of device {device}" if len(self.finals) > 1 else name

    def message(self, device: int, number: int) -> str:
        message = self.messages.get((device, number))
        name = "message" if message is None else name_of_line(message.line)
        return self._whose(f"{name} {number}", device)

    def effect(self, device: int, lane: str, number: int) -> str:
        final = self.finals[device]
        names = [name_of(it.octets) for it in final.downs] if lane == "down" else [it.split(" ")[0] for it in final.calls(lane)]
        return self._whose(f"{names[number - 1] if number <= len(names) else lane} {number}", device)

    def column_of_message(self, device: int, number: int) -> str:
        return column_of(self.messages[device, number].line)

    def columns_of_down(self, device: int, number: int) -> List[str]:
        return [station_column(it) for it in self.areas.stations_of(self.finals[device].downs[number - 1])]


@dataclass
class Replay:
    """The events up to some point: what the replicas work on, what was sent, which replica last gave the reply to a message, and of which it was the stored one."""

    names: Names
    hands: Dict[int, Hand] = field(default_factory=dict)
    sent: Set[Tuple[int, int]] = field(default_factory=set)
    replied: Dict[Tuple[int, int], int] = field(default_factory=dict)
    stored: Set[Tuple[int, int]] = field(default_factory=set)

    def device_of(self, event: Event) -> int:
        """Whose an event is: of the device that it names, or of what its replica works on or worked on last."""
        hand = self.hands.get(event.replica)
        return event.device or (hand.device if hand else 0)

    def lines(self, event: Event, answer: str) -> List[Line]:
        """The lines of an event that came to this answer: one, but of a message that is handed on to several base stations one to each."""
        line = self.line(event, answer)
        is_handed_on = event.word == "effect" and event.lane == "down" and answer.startswith("accepted ")
        targets = self.names.columns_of_down(event.device, event.call) if is_handed_on else []
        return [replace(line, source=AGENTS, target=it) for it in targets] or [line]

    def line(self, event: Event, answer: str) -> Line:
        """The line of an event that came to this answer, as far as what receives it first."""
        label = f"{event.number} {answer}"
        if answer.startswith("void "):
            return self._void(event, label, answer)
        if event.word in ("read", "write", "stop"):
            return self._at_replica(event, label, answer)
        if event.word in ("push", "effect", "settle"):
            return self._of_effect(event, label, answer)
        return self._arriving(event, label)

    def _void(self, event: Event, label: str, answer: str) -> Line:
        if answer == "void replica":
            return Line(label, event.text, Form.ACROSS, mark=Mark.VOID)
        at = replica_column(event.replica) if event.replica else AGENTS if event.word in ("send", "reply") else STORE
        if event.word == "effect":
            at = AGENTS if event.lane == "down" else event.lane
        return Line(label, event.text, Form.NOTE, at, at, Mark.VOID)

    def _at_replica(self, event: Event, label: str, answer: str) -> Line:
        replica, hand = replica_column(event.replica), self.hands.get(event.replica)
        name = hand.name if hand else ""
        if event.word == "stop":
            return Line("\u00d7 " + label, "", Form.BOX, replica, replica, Mark.STOP)
        if event.word == "read":
            is_repeat = answer.startswith("repeat ")
            if is_repeat and hand:
                self.replied[hand.device, hand.message] = event.replica
                self.stored.add((hand.device, hand.message))
            return Line(label, name, Form.ARRIVES, STORE, replica, Mark.REPEAT if is_repeat else Mark.NONE)
        if answer.startswith("stale "):
            return Line(label, name, Form.FAILS, replica, STORE, Mark.STALE)
        if hand and hand.message:
            self.replied[hand.device, hand.message] = event.replica
        return Line(label, name, Form.ARRIVES, replica, STORE)

    def _of_effect(self, event: Event, label: str, answer: str) -> Line:
        name, receiver = self.names.effect(event.device, event.lane, event.call), AGENTS if event.lane == "down" else event.lane
        if event.word == "push":
            return Line(label, name, Form.ON_ITS_WAY, STORE, receiver)
        if event.word == "settle":
            return Line(label, name, Form.ON_ITS_WAY, receiver, STORE, Mark.REPEAT if answer.startswith("old ") else Mark.NONE)
        if answer.startswith("accepted "):
            return Line(label, name, Form.ARRIVES, STORE, receiver)
        return Line(label, name, Form.ARRIVES, STORE, receiver, Mark.REPEAT)

    def _arriving(self, event: Event, label: str) -> Line:
        key = event.device, event.message
        if event.word == "answer":
            name = "answer to " + self.names.effect(event.device, event.lane, event.call)
            self.hands[event.replica] = Hand(event.device, name)
            return Line(label, name, Form.ARRIVES, event.lane, replica_column(event.replica))
        name = self.names.message(*key)
        if event.word == "take":
            self.hands[event.replica] = Hand(event.device, name, event.message)
            return Line(label, name, Form.ARRIVES, AGENTS, replica_column(event.replica))
        if event.word == "reply":
            is_old = label.split(" ")[1] == "old"
            reply = f"{'stored reply' if key in self.stored else 'reply'} to {name}"
            return Line(label, reply, Form.ARRIVES, replica_column(self.replied[key]), AGENTS, Mark.REPEAT if is_old else Mark.NONE)
        is_again = key in self.sent
        self.sent.add(key)
        if is_again:
            return Line(label, name, Form.ARRIVES, AGENTS, AGENTS, Mark.REPEAT)
        return Line(label, name, Form.ARRIVES, self.names.column_of_message(*key), AGENTS)


def lines_of_replay(case: CaseText, printed: Printed, messages: List[Message], choice: Choice) -> List[Line]:
    """The lines of each event that is chosen, in order."""
    replay = Replay(Names.of(case, printed, messages))
    lines: List[Line] = []
    for event, answer in zip(case.schedule, printed.answers):
        first, *others = replay.lines(event, answer)
        if choice.has(event.number, replay.device_of(event)):
            lines += [replace(first, caption=case.comments.get(event.number, "")), *others]
    return lines


def _lines_of_turn(turn: Turn, names: Names) -> List[Line]:
    message = turn.message
    lines = [Line(f"line {message.line.line}", names.message(message.device, message.number), Form.ARRIVES, column_of(message.line), MME)]
    for call in turn.calls:
        name = names.effect(message.device, call.lane, call.number)
        lines.append(Line(name, "", Form.ARRIVES, MME, call.lane))
        if call.is_awaited:
            lines.append(Line(f"answer to {name}", "", Form.ON_ITS_WAY, call.lane, MME))
    for down in turn.downs:
        name = names.effect(message.device, "down", down.number)
        lines += [Line(name, "", Form.ARRIVES, MME, it) for it in names.columns_of_down(message.device, down.number)]
    return lines


def lines_of_plain(case: CaseText, printed: Printed, turns: List[Turn], choice: Choice) -> List[Line]:
    """For each line of the trace that is chosen its message, the calls that it made with their answers, and its downs; or that it is refused."""
    names = Names.of(case, printed, [it.message for it in turns])
    by_line = {it.message.line.line: it for it in turns}
    lines: List[Line] = []
    for it in case.trace:
        turn = by_line.get(it.line)
        if choice.has(it.line, turn.message.device if turn else 0):
            refusal = f"refused {printed.refused.get(it.line, '')}"
            lines += _lines_of_turn(turn, names) if turn else [Line(f"line {it.line}", refusal, Form.FAILS, column_of(it), MME, Mark.VOID)]
    return lines
