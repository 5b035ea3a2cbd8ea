"""What a page shows of a run: devices, messages, the schedule with its answers, and what the machine made of each message."""

from __future__ import annotations

import json
import re
from dataclasses import dataclass
from typing import Dict, List, Optional

from .case_text import CaseText
from .command import BadInput
from .messages import name_of, name_of_line
from .packets import Frame
from .printed import Printed, belongs, read_printed
from .program import Program
from .turns import Message, Turn, messages_of

Json = Dict[str, object]

STEPS = re.compile(rb"^device ([0-9]{15}) messages [0-9]+ steps ([0-9]+)$", re.M)
SESSION = re.compile(r"session ([a-z-]+) link (off|[0-9]+/[0-9]+) area ([0-9a-f]{6}) ([0-9]+) bearer ([a-z]+) radio ([0-9]+)")


def text_of(program: str, words: List[str], case: bytes) -> bytes:
    """What the program prints for a case text. The page asks it nowhere else."""
    return Program(program).printed(words, case)


def read_text(case: CaseText, text: bytes) -> Printed:
    """The printed text, where it may have been printed for the case."""
    printed = read_printed(text)
    if not belongs(case, printed):
        raise BadInput("the printed text is not of this case text")
    return printed


@dataclass(frozen=True)
class Run:
    """A case and what was printed for it; the turns are there where they are known, which a transcript does not need; the report of a capture beside it."""

    name: str
    made_by: str
    case: CaseText
    text: bytes
    printed: Printed
    turns: Optional[List[Turn]] = None
    beside: Optional[Json] = None

    def messages(self) -> Dict[int, Message]:
        """The messages of devices by their lines in the case text."""
        return {it.line.line: it for it in messages_of(self.case, self.printed)}

    def frames(self) -> List[Optional[Frame]]:
        """The message of each line of the trace, and then of each down, in the order of the page; none where a line holds no octets."""
        ups = [(it, it.octets()) for it in self.case.trace]
        frames: List[Optional[Frame]] = [Frame(True, it.station, octets) if octets else None for it, octets in ups]
        finals = self.printed.by_imsi()
        return frames + [Frame(False, down.station, down.octets) for it in self.case.subscribers for down in finals[it.imsi].downs]


def _session_of(imsi: str, text: str) -> List[object]:
    found = SESSION.fullmatch(text)
    if found is None:
        raise BadInput(f"device {imsi}: no session: {text}")
    stage, link, network, area, bearer, radio = found.groups()
    return [stage, link, network, int(area), bearer, int(radio)]


def _devices(run: Run) -> List[Json]:
    steps = {imsi.decode(): int(number) for imsi, number in STEPS.findall(run.text)}
    finals, devices = run.printed.by_imsi(), []
    for it in run.case.subscribers:
        final = finals[it.imsi]
        made = {"imsi": it.imsi, "tmsi": it.tmsi, "messages": final.messages, "steps": steps[it.imsi], "session": _session_of(it.imsi, final.session)}
        devices.append({**made, "second": final.second, "gateway": final.gateway, "subscriber": final.subscriber})
    return devices


def _trace(run: Run) -> List[List[object]]:
    """Of each line of the trace: line, base station (a notice has none, 0), text, device and number of the message, its name, and why it is refused."""
    messages, lines = run.messages(), []
    for it in run.case.trace:
        message, octets = messages.get(it.line), it.octets()
        whose = [message.device, message.number] if message else [0, 0]
        name = name_of_line(it) if octets or it.is_notice else "no octets"
        lines.append([it.line, it.station, it.text.lower() if octets else it.text, *whose, name, run.printed.refused.get(it.line, "")])
    return lines


def _downs(run: Run) -> List[List[object]]:
    """Of each message to a device: device, number, base station, octets, name."""
    finals = run.printed.by_imsi()
    return [[it.device, down.number, down.station, down.octets.hex(), name_of(down.octets)] for it in run.case.subscribers for down in finals[it.imsi].downs]


def _turns(run: Run) -> Optional[List[List[object]]]:
    """Of each message of the trace: its line, the calls and the downs that it made."""
    if run.turns is None:
        return None
    made = []
    for it in run.turns:
        calls = [[call.lane, call.number, int(call.is_awaited)] for call in it.calls]
        made.append([it.message.line.line, calls, [down.number for down in it.downs]])
    return made


def read_beside(case: CaseText, octets: bytes) -> Json:
    """The report that `beside` made of a capture, where it is of the devices of the case."""
    try:
        report: Json = json.loads(octets)
        imsis = {str(it["imsi"]) for it in report["devices"]}  # type: ignore[attr-defined]
    except (ValueError, KeyError, TypeError):
        raise BadInput("no report of beside --json") from None
    if not imsis <= {it.imsi for it in case.subscribers}:
        raise BadInput("the report of beside is not of this case text")
    return report


def _beside(run: Run) -> Optional[Json]:
    """The report's summary, and its messages with their answers by the number of the device."""
    if run.beside is None:
        return None
    numbers = {it.imsi: it.device for it in run.case.subscribers}
    devices = [[numbers[str(it["imsi"])], it["messages"]] for it in run.beside["devices"]]  # type: ignore[attr-defined]
    return {"summary": run.beside["summary"], "devices": devices}


def data_of(run: Run) -> Json:
    """What the script of the page reads. The events and their answers are lines of text, as the case text and the transcript have them."""
    shown: Json = {"name": run.name, "madeBy": run.made_by, "devices": _devices(run), "trace": _trace(run), "downs": _downs(run), "turns": _turns(run)}
    shown["schedule"] = "\n".join(it.text for it in run.case.schedule) if run.printed.answers else ""
    shown["answers"] = "\n".join(run.printed.answers)
    shown["beside"] = _beside(run)
    return shown
