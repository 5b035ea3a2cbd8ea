"""The table of subscribers that a capture tells: a row for each device, what of it was learnt from which frame, and what is made up."""

from __future__ import annotations

import json
import re
from dataclasses import dataclass
from typing import Dict, List, Optional, Union

from .case_text import SUBSCRIBERS, read_case
from .command import BadInput
from .devices import Device
from .values import MOST_BIT_RATE

NEEDED_COLUMNS = ("imsi", "tmsi", "rand", "autn", "res", "key", "apn", "ip", "sgw", "teid", "ambr_dl", "ambr_ul", "forbidden")
COLUMNS = (*NEEDED_COLUMNS, "apn2", "ip2")  # of a second PDN connection a row need not tell
MOST_ROWS = 4096
MOST_AREAS = 16
TEST_NETWORK = "00101"  # of IMSIs that are made up
LAST_TEID = 4000000000
Value = Union[str, int, List[int]]


@dataclass(frozen=True)
class Row:
    """A row of the table: its number, its M-TMSI, the response that it has as right, its lines; whether it was learnt, or was given."""

    number: int
    imsi: str
    tmsi: int
    response: bytes
    lines: List[str]
    is_learnt: bool
    is_named: bool = True


class Table:
    """The rows that were given, and behind them one for each device that has none, in their order, as many as a table takes."""

    def __init__(self, given: bytes, devices: List[Device]) -> None:
        self.given = given.rstrip(b"\n")
        self.rows: List[Row] = rows_given(given)
        self._of: Dict[int, Row] = {}
        self._imsis = {it.imsi for it in self.rows} | {it.imsi for it in devices if it.imsi}
        self._tmsis = {it.tmsi for it in self.rows}
        by_imsi = {it.imsi: it for it in self.rows}
        for device in devices:
            row = by_imsi.get(device.imsi or "") or self._learnt(device)
            if row:
                self._of[id(device)] = row

    def of(self, device: Device) -> Optional[Row]:
        """The row of a device; none of one that found no room."""
        return self._of.get(id(device))

    def learnt(self) -> List[Row]:
        return [it for it in self.rows if it.is_learnt]

    def octets(self) -> bytes:
        """The section of a case text, without its heading."""
        lines = [line for it in self.learnt() for line in it.lines]
        return b"\n".join([*([self.given] if self.given else []), *(it.encode() for it in lines)])

    def _learnt(self, device: Device) -> Optional[Row]:
        number = len(self.rows) + 1
        if number > MOST_ROWS:
            return None
        told = _told(device)
        if told.get("tmsi") in self._tmsis:
            del told["tmsi"]
        values = {**self._made_up(number, told), **told}
        self._tmsis.add(values["tmsi"])
        self._imsis.add(values["imsi"])
        lines = [f"# {_origin(device, told)}", json.dumps({it: values[it] for it in COLUMNS if it in values}, separators=(",", ":"))]
        row = Row(number, str(values["imsi"]), int(str(values["tmsi"])), bytes.fromhex(str(values["res"])), lines, True, "imsi" in told)
        self.rows.append(row)
        return row

    def _made_up(self, number: int, told: Dict[str, Value]) -> Dict[str, Value]:
        """Values of the row's own, from its number."""
        made: Dict[str, Value] = {"rand": f"{number:032x}", "autn": f"{number:032x}", "res": f"{number:016x}", "key": f"{number:064x}"}
        made.update({"apn": "internet", "ip": f"{0x0A2D0000 + number:08x}", "sgw": "c0a80001", "teid": number})
        made.update({"ambr_dl": 10**9, "ambr_ul": 10**9, "forbidden": []})
        if "imsi" not in told:
            made["imsi"] = next(it for at in range(number, 10**10) if (it := f"{TEST_NETWORK}{at:010d}") not in self._imsis)
        if "tmsi" not in told:
            made["tmsi"] = next(it for it in range(number, 2**32) if it not in self._tmsis)
        return made


def rows_given(given: bytes) -> List[Row]:
    """The rows of a file of subscribers."""
    case = read_case(SUBSCRIBERS.encode() + b"\n" + given)
    rows = []
    for it, line in zip(case.subscribers, case.subscriber_lines):
        response = str(json.loads(line).get("res", ""))
        octets = bytes.fromhex(response) if re.fullmatch(r"([0-9a-fA-F]{2})*", response) else b""
        rows.append(Row(it.device, it.imsi, it.tmsi, octets, [], False))
    return rows


def rows_known(given: bytes) -> List[Row]:
    """The rows of a file of subscribers; none of one that cannot be read, which the program refuses for its own reason."""
    try:
        return rows_given(given)
    except BadInput:
        return []


def _told(device: Device) -> Dict[str, Value]:
    """What the capture tells, where a row takes it: of each access point name its first label."""
    told: Dict[str, Value] = {name: it.value for name, it in device.columns.items()}
    for it in ("apn", "apn2"):
        label = str(told.pop(it, "")).split(".")[0].lower()
        if re.fullmatch(r"[a-z0-9]{1,30}", label):
            told[it] = label
    if not 1 <= int(str(told.get("teid", 0))) <= LAST_TEID:
        told.pop("teid", None)
    for it in ("ambr_dl", "ambr_ul"):
        if int(str(told.get(it, 0))) > MOST_BIT_RATE:
            del told[it]
    vector = device.vector()
    if vector and len(vector.autn) == 16:
        told.update({"rand": vector.rand.hex(), "autn": vector.autn.hex()})
    if vector and 4 <= len(vector.response) <= 16 and not vector.is_rejected:
        told["res"] = vector.response.hex()
    if device.forbidden:
        told["forbidden"] = sorted(device.forbidden)[:MOST_AREAS]
    return told


def _frame(device: Device, column: str) -> str:
    vector = device.vector()
    if column == "forbidden":
        return " and ".join(dict.fromkeys(device.forbidden.values()))
    if vector and column in ("rand", "autn", "res"):
        return vector.response_frame if column == "res" else vector.frame
    return device.columns[column].frame


def _origin(device: Device, told: Dict[str, Value]) -> str:
    """Which columns were learnt, from which frames, and which are made up."""
    by_frame: Dict[str, List[str]] = {}
    for it in COLUMNS:
        if it in told:
            by_frame.setdefault(_frame(device, it), []).append(it)
    learnt = ", ".join(f"{' '.join(names)} from frame {frame}" for frame, names in by_frame.items())
    made = " ".join(it for it in NEEDED_COLUMNS if it not in told and it != "forbidden")
    return f"learnt: {learnt or 'nothing'}; made up: {made or 'nothing'}"
