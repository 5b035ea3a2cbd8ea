"""What `plain` and `replay` print: the transcript, the refused lines of the trace, and what became of each device."""

from __future__ import annotations

import re
from dataclasses import dataclass, field
from typing import Dict, List

from .case_text import CaseText
from .command import BadInput


@dataclass(frozen=True)
class Down:
    """A message to a device: its number on the lane, its base station, or none where it goes to all of an area, its octets."""

    number: int
    station: int
    octets: bytes


@dataclass
class Final:
    """What became of a device. The calls of a lane are in order, from number 1."""

    imsi: str
    messages: int
    downs: List[Down] = field(default_factory=list)
    gateway: List[str] = field(default_factory=list)
    subscriber: List[str] = field(default_factory=list)
    session: str = ""
    second: str = ""  # made or active, where there is a second connection

    def calls(self, lane: str) -> List[str]:
        return self.gateway if lane == "gateway" else self.subscriber


@dataclass
class Printed:
    """The answers of the transcript in order, the refused lines with their refusals, and the devices in order of their IMSIs."""

    answers: List[str] = field(default_factory=list)
    refused: Dict[int, str] = field(default_factory=dict)
    finals: List[Final] = field(default_factory=list)

    def by_imsi(self) -> Dict[str, Final]:
        return {it.imsi: it for it in self.finals}


ANSWER = re.compile(
    r"event ([1-9][0-9]*): (sent|taken|stopped|pushed|void (?:replica|window|link|hand|outbox)|(?:ready|committed|repeat|settled|ahead|acked|accepted|old) [0-9]+"
    r"|stale [0-9]+ [0-9]+|(?:waiting|old) (?:gateway|subscriber) [0-9]+)"
)
REFUSED_LINE = re.compile(r"refused ([1-9][0-9]*) ([0-9]+ [A-Za-z]+.*)")
DEVICE = re.compile(r"device ([0-9]{15}) messages ([0-9]+) steps [0-9]+")
DOWN = re.compile(r"down ([1-9][0-9]*) (0|[1-9][0-9]*) ((?:[0-9a-f]{2})+)")
CALL = re.compile(r"(gateway|subscriber) ([1-9][0-9]*) ([a-z-]+(?: [0-9a-f]{8} [0-9]+)?)")
SECOND = re.compile(r"second (made|active)")


def _read_line(printed: Printed, text: str) -> bool:
    """Takes a line in, and tells whether it is one that may stand here."""
    answer, refused, device = ANSWER.fullmatch(text), REFUSED_LINE.fullmatch(text), DEVICE.fullmatch(text)
    if answer:
        printed.answers.append(answer[2])
        return int(answer[1]) == len(printed.answers) and not printed.refused and not printed.finals
    if refused:
        printed.refused[int(refused[1])] = refused[2]
        return not printed.finals
    if device:
        printed.finals.append(Final(device[1], int(device[2])))
        return True
    return bool(printed.finals) and _read_line_of_device(printed.finals[-1], text)


def _read_line_of_device(final: Final, text: str) -> bool:
    down, call, second = DOWN.fullmatch(text), CALL.fullmatch(text), SECOND.fullmatch(text)
    if down:
        final.downs.append(Down(int(down[1]), int(down[2]), bytes.fromhex(down[3])))
        return int(down[1]) == len(final.downs)
    if call:
        calls = final.calls(call[1])
        calls.append(call[3])
        return int(call[2]) == len(calls)
    if second:
        is_first_second = bool(final.session) and not final.second
        final.second = second[1]
        return is_first_second
    is_first_session = text.startswith("session ") and not final.session
    final.session = text
    return is_first_session


def read_printed(octets: bytes) -> Printed:
    """The printed text that the octets are."""
    printed, text = Printed(), octets.decode("latin-1")
    lines = text.split("\n")
    if lines.pop() != "":
        raise BadInput("the printed text breaks off within its last line")
    for number, line in enumerate(lines, 1):
        if not _read_line(printed, line):
            raise BadInput(f"line {number} of the printed text is none that plain or replay prints there")
    if any(not it.session for it in printed.finals):
        raise BadInput("the printed text breaks off within a device")
    return printed


# Which answers an event may have, by the first word of the answer.
ANSWERS_OF: Dict[str, List[str]] = {
    "send": ["sent", "void window"],
    "take": ["taken", "void link", "void replica"],
    "answer": ["taken", "void link", "void replica"],
    "read": ["ready", "waiting", "repeat", "settled", "ahead", "old", "void hand", "void replica"],
    "write": ["committed", "stale", "void hand", "void replica"],
    "stop": ["stopped", "void replica"],
    "reply": ["acked", "old", "void link"],
    "push": ["pushed", "void outbox"],
    "effect": ["accepted", "repeat", "ahead", "void link"],
    "settle": ["settled", "old", "void link"],
}


def _may_answer(word: str, answer: str) -> bool:
    first = answer if answer.startswith("void ") else answer.split(" ")[0]
    return first in ANSWERS_OF[word]


def belongs(case: CaseText, printed: Printed) -> bool:
    """Whether the text may have been printed for the case, by what can be seen without the program."""
    lines = {it.line for it in case.trace}
    events = case.schedule if printed.answers else []
    return (
        sorted(it.imsi for it in case.subscribers) == [it.imsi for it in printed.finals]
        and all(line in lines for line in printed.refused)
        and len(printed.answers) == len(events)
        and all(_may_answer(event.word, answer) for event, answer in zip(events, printed.answers))
    )
