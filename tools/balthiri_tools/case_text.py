"""A case text, as it stands: subscribers, trace and schedule with the numbers of their lines.

The program says whether a case text is refused, and why. What is read here is one that it takes.
"""

from __future__ import annotations

import json
import re
from dataclasses import dataclass, field
from typing import Dict, List, Optional

from .command import BadInput

SUBSCRIBERS, TRACE, SCHEDULE = "[subscribers]", "[trace]", "[schedule]"
NOTICE = "data"  # what stands in a notice where a PDU has its base station
NO_STATION = 0  # what a notice comes from, and what a message to all base stations of an area goes to
MOST_OCTETS_OF_A_LINE = 8192
MOST_EVENTS = 100000
LANES = ("down", "gateway", "subscriber")

# What stands behind the word of an event, in order.
EVENT_FIELDS: Dict[str, List[str]] = {
    "send": ["device", "message"],
    "reply": ["device", "message"],
    "take": ["replica", "device", "message"],
    "answer": ["replica", "device", "lane", "call"],
    "read": ["replica"],
    "write": ["replica"],
    "stop": ["replica"],
    "push": ["device", "lane", "call"],
    "effect": ["device", "lane", "call"],
    "settle": ["device", "lane", "call"],
}


@dataclass(frozen=True)
class Subscriber:
    """What a row says that names its device, and the address of its gateway in hexadecimal; the device's number is the row's, from 1."""

    device: int
    imsi: str
    tmsi: int
    gateway: str = ""


@dataclass(frozen=True)
class TraceLine:
    """A line of a trace: a PDU as its line gives it, or the gateway's notice for the device of an IMSI, which comes from no base station."""

    line: int
    station: int
    text: str

    @property
    def is_notice(self) -> bool:
        return self.station == NO_STATION

    def words(self) -> str:
        """The line as it stands in a case text."""
        return f"{NOTICE if self.is_notice else self.station} {self.text}"

    def octets(self) -> Optional[bytes]:
        """The octets of the PDU, where the text is hexadecimal."""
        is_hexadecimal = not self.is_notice and re.fullmatch(r"([0-9a-fA-F]{2})*", self.text)
        return bytes.fromhex(self.text) if is_hexadecimal else None


@dataclass(frozen=True)
class Event:
    """An event of the schedule. What its form does not have is 0, or no text."""

    number: int
    text: str
    word: str
    replica: int = 0
    device: int = 0
    message: int = 0
    lane: str = ""
    call: int = 0


@dataclass
class CaseText:
    """The sections of a case text, its first section as it was written, and the comments of the schedule by the number of the event behind them."""

    subscribers: List[Subscriber] = field(default_factory=list)
    trace: List[TraceLine] = field(default_factory=list)
    schedule: List[Event] = field(default_factory=list)
    subscriber_lines: List[bytes] = field(default_factory=list)
    comments: Dict[int, str] = field(default_factory=dict)

    def with_trace(self, lines: List[TraceLine]) -> bytes:
        """The case text of the same subscribers and these lines of the trace, without a schedule."""
        written = [SUBSCRIBERS.encode(), *self.subscriber_lines, TRACE.encode()]
        written += [it.words().encode("latin-1") for it in lines]
        return b"\n".join(written) + b"\n"


def read_event(number: int, text: str) -> Event:
    """The event of a line of the schedule."""
    word, *values = text.split(" ")
    names = EVENT_FIELDS.get(word, [])
    if not names or len(names) != len(values):
        raise BadInput(f"no event: {text}")
    try:
        fields = {name: value if name == "lane" else int(value) for name, value in zip(names, values)}
    except ValueError:
        raise BadInput(f"no event: {text}") from None
    return Event(number, text, word, **fields)  # type: ignore[arg-type]


def _read_subscriber(device: int, line: int, octets: bytes) -> Subscriber:
    try:
        row = json.loads(octets)
        return Subscriber(device, str(row["imsi"]), int(row["tmsi"]), str(row.get("sgw", "")))
    except (ValueError, KeyError, TypeError):
        raise BadInput(f"line {line}: no row of a subscriber") from None


def _read_trace_line(line: int, text: str) -> TraceLine:
    station, _, behind = text.partition(" ")
    if station == NOTICE and re.fullmatch(r"[0-9]{15}", behind):
        return TraceLine(line, NO_STATION, behind)
    if not re.fullmatch(r"[1-9][0-9]{0,4}", station) or not behind:
        raise BadInput(f"line {line}: no line of a trace")
    return TraceLine(line, int(station), behind)


def read_case(octets: bytes) -> CaseText:
    """The sections of a case text that the program takes."""
    case, section = CaseText(), ""
    for line, whole in enumerate(octets.split(b"\n"), 1):
        ends_here = whole[:-1] if whole.endswith(b"\r") else whole
        text = ends_here.decode("latin-1")
        if text.startswith("#") and section == SCHEDULE:
            event = len(case.schedule) + 1
            case.comments[event] = f"{case.comments.get(event, '')} {ends_here[1:].decode('utf-8', 'replace')}".strip()
        if not text or text.startswith("#"):
            continue
        if text.startswith("["):
            section = text
        elif section == SUBSCRIBERS:
            case.subscribers.append(_read_subscriber(len(case.subscribers) + 1, line, ends_here))
            case.subscriber_lines.append(ends_here)
        elif section == TRACE:
            case.trace.append(_read_trace_line(line, text))
        else:
            case.schedule.append(read_event(len(case.schedule) + 1, text))
    return case
