"""The messages between the MME, base stations and peers in their order, of a case text and what was printed for it."""

from __future__ import annotations

from dataclasses import dataclass, field
from typing import Dict, List, Optional, Set, Tuple

from .areas import Areas
from .calls import CallFrames, CallKey
from .case_text import CaseText, Event, TraceLine
from .messages import kind_of
from .packets import AnyFrame, CallFrame, Frame
from .printed import Down, Printed
from .turns import Turn


def is_from_station(line: TraceLine) -> bool:
    """Whether the line holds octets that begin one of the messages of a base station."""
    kind = kind_of(line.octets() or b"")
    return kind is not None and kind.is_up


@dataclass
class Exchange:
    """The trace, of which some lines went up, and the downs of each device, of which some went down, each to the base stations that it is for.

    And the calls of peers, and their answers, that have not gone.
    """

    case: CaseText
    turns: List[Turn]
    areas: Areas
    calls: Dict[CallKey, CallFrame]
    answers: Dict[CallKey, CallFrame]
    lines_gone: int = 0
    downs_gone: Set[Tuple[int, int]] = field(default_factory=set)
    frames: List[AnyFrame] = field(default_factory=list)

    def go_up(self, until_line: int) -> None:
        """The lines of the trace up to this one, as far as they have not gone up."""
        while self.lines_gone < len(self.case.trace) and self.case.trace[self.lines_gone].line <= until_line:
            line = self.case.trace[self.lines_gone]
            self.lines_gone += 1
            if is_from_station(line):
                self.frames.append(Frame(True, line.station, line.octets() or b""))

    def go_down(self, turn: Turn) -> None:
        """The downs of a message, as far as they have not gone down."""
        for down in turn.downs:
            self.go_down_once(turn.message.device, down)

    def go_down_once(self, device: int, down: Down) -> None:
        if (device, down.number) not in self.downs_gone:
            self.downs_gone.add((device, down.number))
            self.frames += [Frame(False, it, down.octets) for it in self.areas.stations_of(down)]

    def go_out(self, key: CallKey) -> None:
        """A call that has not gone to its peer."""
        if key in self.calls:
            self.frames.append(self.calls.pop(key))

    def come_back(self, key: CallKey) -> None:
        """The answer to a call, if it has not come."""
        if key in self.answers:
            self.frames.append(self.answers.pop(key))

    def rest(self) -> None:
        """What is left, each message with its calls, their answers and its downs behind it."""
        for turn in self.turns:
            self.go_up(turn.message.line.line)
            for call in turn.calls:
                key = turn.message.device, call.lane, call.number
                self.go_out(key)
                self.come_back(key)
            self.go_down(turn)
        if self.case.trace:
            self.go_up(self.case.trace[-1].line)


def _line_sent(event: Event, answer: str, lines: Dict[Tuple[int, int], int]) -> int:
    """The line of the trace that an event sends; 0 for any other."""
    return lines[event.device, event.message] if event.word == "send" and answer == "sent" else 0


def frames_of(case: CaseText, printed: Printed, turns: List[Turn], calls: Optional[CallFrames] = None) -> List[AnyFrame]:
    """All frames. A line of the trace goes up before it is sent, and no later than a line behind it; a down goes down where it is accepted.

    So does a call go to its peer, if it is one of these; its answer comes where it is first taken, or right behind the call, if no step awaits it. What no
    event sent, accepted or took comes at the end, in the order of the trace.
    """
    wanted = calls or {}
    ways = {key: it for key, (it, _) in wanted.items()}, {key: it for key, (_, it) in wanted.items()}
    exchange = Exchange(case, turns, Areas(it.message.line for it in turns), *ways)
    lines = {(it.message.device, it.message.number): it.message.line.line for it in turns}
    downs = {(turn.message.device, it.number): it for turn in turns for it in turn.downs}
    unawaited = {(turn.message.device, it.lane, it.number) for turn in turns for it in turn.calls if not it.is_awaited}
    for event, answer in zip(case.schedule, printed.answers):
        key = event.device, event.lane, event.call
        exchange.go_up(_line_sent(event, answer, lines))
        is_accepted = event.word == "effect" and answer.startswith("accepted ")
        if is_accepted and event.lane == "down":
            exchange.go_down_once(event.device, downs[event.device, event.call])
        elif is_accepted:
            exchange.go_out(key)
        if event.word == "answer" and answer == "taken" or is_accepted and key in unawaited:
            exchange.come_back(key)
    exchange.rest()
    return exchange.frames
