"""A capture's MME beside the proved machine: the devices with their exchanges, as a table and as JSON."""

from __future__ import annotations

import json
from dataclasses import dataclass
from typing import Dict, List, Optional

from .case_text import NO_STATION, CaseText
from .command import counted
from .compare import EQUAL, FIELDS, Answer, Exchange, Sent, compare
from .learnt import Learnt
from .messages import DATA_WAITS, name_of
from .network import Heard
from .printed import Printed
from .rows import Row
from .turns import Turn

Json = Dict[str, object]
HEADINGS = ("frame", "time", "base station", "the capture's MME", "the proved machine", "")


@dataclass
class DeviceBeside:
    """A device's row, and its exchanges in the order of the capture."""

    row: Row
    exchanges: List[Exchange]

    def answers(self) -> List[Answer]:
        return [answer for it in self.exchanges for answer in it.answers]


@dataclass
class Report:
    """The devices in the order of the table; how many messages of the MME are of no device that is known."""

    devices: List[DeviceBeside]
    strangers: int

    def answers(self) -> List[Answer]:
        return [answer for it in self.devices for answer in it.answers()]

    def differs(self, is_strict: bool) -> bool:
        return any(not it.is_equal if is_strict else it.differs for it in self.answers())

    def summary(self) -> str:
        answers = self.answers()
        equal, differ = sum(it.is_equal for it in answers), sum(it.differs for it in answers)
        notices = sum(one.is_notice for it in self.devices for one in it.exchanges)
        messages = sum(len(it.exchanges) for it in self.devices) - notices
        of_gateway = f", {counted(notices, 'notice')} of the gateway" if notices else ""
        told = f"{counted(len(self.devices), 'device')}, {counted(messages, 'message')} of base stations{of_gateway}, {counted(len(answers), 'answer')}: "
        return f"{told}{equal} equal, {len(answers) - equal - differ} otherwise as the profile or the capture explains, {counted(differ, 'difference')}"


def _sent_by_machine(turn: Optional[Turn]) -> List[Sent]:
    return [Sent(down.station, name_of(down.octets), down.octets) for down in turn.downs] if turn else []


def _sent_by_mme(it: Heard, station: int) -> Sent:
    return Sent(station, it.name, it.captured.message, it.captured.frame, it.captured.time)


def _exchange(it: Heard, out: str, turn: Optional[Turn]) -> Exchange:
    return Exchange(it.captured.frame, it.captured.time, it.station, it.name, out, machine=_sent_by_machine(turn))


def _exchange_of_notice(it: Heard, turn: Optional[Turn]) -> Exchange:
    """A notice of the gateway, which the PAGING tells that begins a round; those behind it are the same message to other base stations."""
    made, mme = _sent_by_machine(turn), [_sent_by_mme(it, NO_STATION)]
    return Exchange(it.captured.frame, it.captured.time, NO_STATION, DATA_WAITS, mme=mme, machine=made, is_notice=True)


def report_of(learnt: Learnt, case: CaseText, printed: Printed, turns: List[Turn]) -> Report:
    """Each message of a device, and each notice for it, with what the MME sent before the device's next one, and what the machine sends."""
    lines = {id(it): line.line for it, line in zip(learnt.lines, case.trace)}
    by_line = {it.message.line.line: it for it in turns}
    exchanges: Dict[int, List[Exchange]] = {}
    strangers = 0
    for it in learnt.heard:
        device, line = it.device or it.paged, lines.get(id(it), 0)
        row = learnt.table.of(device.whole()) if device else None
        if row is None:
            strangers += not it.is_up
        elif it.paged:
            if line:
                exchanges.setdefault(row.number, []).append(_exchange_of_notice(it, by_line.get(line)))
        elif it.is_up:
            out = it.why or (f"that is refused: {printed.refused[line]}" if line in printed.refused else "")
            exchanges.setdefault(row.number, []).append(_exchange(it, out, by_line.get(line)))
        else:
            exchanges[row.number][-1].mme.append(_sent_by_mme(it, it.station))
    devices = [DeviceBeside(it, exchanges[it.number]) for it in learnt.table.rows if it.number in exchanges]
    for device in devices:
        compare(device.exchanges, device.row.is_learnt)
    return Report(devices, strangers)


def told(answer: Answer) -> str:
    """The verdict in words: what differs, with both values, and what is explained."""
    differ = [f"{it.name} {it.mme or 'none'} / {it.machine or 'none'}" for it in answer.fields if not it.explained]
    words = answer.verdict + (f": {', '.join(differ)}" if differ else "")
    if answer.verdict == FIELDS and answer.explained:
        return f"explained: {answer.explained}"
    return f"{words} ({answer.explained})" if answer.explained else words


def _rows_of(it: Exchange) -> List[List[str]]:
    out = f"no message of the machine: {it.out}" if it.out else ""
    rows = [[it.frame, it.time, it.name, "", "", out or ("" if it.answers else EQUAL)]]
    for answer in it.answers:
        mme = [answer.mme.frame, answer.mme.time, "", answer.mme.name] if answer.mme else ["", "", "", "-"]
        rows.append([*mme, answer.machine.name if answer.machine else "-", told(answer)])
    return rows


def table_of(report: Report) -> str:
    """The report as a text for a terminal."""
    parts = [(it, [list(HEADINGS), *(row for exchange in it.exchanges for row in _rows_of(exchange))]) for it in report.devices]
    widths = [max([0, *(len(row[at]) for _, rows in parts for row in rows)]) for at in range(len(HEADINGS) - 1)]
    lines: List[str] = []
    for device, rows in parts:
        lines += [f"device {device.row.imsi}, subscriber {device.row.number}"]
        lines += ["  " + "  ".join([*(text.ljust(width) for text, width in zip(row, widths)), row[-1]]).rstrip() for row in rows]
        lines.append("")
    return "\n".join([*lines, report.summary(), ""])


def _sent(it: Optional[Sent]) -> Optional[Json]:
    if it is None:
        return None
    where: Json = {"frame": int(it.frame), "time": it.time} if it.frame else {}
    return {**where, "name": it.name, "octets": it.message.hex()}


def _answer(it: Answer) -> Json:
    fields = [{"name": one.name, "mme": one.mme, "machine": one.machine, "explained": one.explained} for one in it.fields]
    verdict: Json = {"verdict": it.verdict, "differs": it.differs, "explained": it.explained, "told": told(it)}
    return {**verdict, "mme": _sent(it.mme), "machine": _sent(it.machine), "fields": fields}


def json_of(report: Report) -> Json:
    """The report for scripts."""
    devices = []
    for it in report.devices:
        messages = []
        for one in it.exchanges:
            front: Json = {"frame": int(one.frame), "time": one.time, "station": one.station, "name": one.name, "left_out": one.out}
            messages.append({**front, "answers": [_answer(answer) for answer in one.answers]})
        devices.append({"imsi": it.row.imsi, "subscriber": it.row.number, "is_learnt": it.row.is_learnt, "messages": messages})
    return {"summary": report.summary(), "differs": report.differs(False), "devices": devices}


def json_text(report: Report) -> str:
    return json.dumps(json_of(report), indent=1) + "\n"
