"""The case that a capture tells by itself: its table, and the messages of its base stations with the identities of that table."""

from __future__ import annotations

from collections import Counter
from dataclasses import dataclass, field
from typing import Dict, List, Tuple

from .capture import Capture
from .case_text import SUBSCRIBERS, TRACE
from .command import Progress, counted
from .devices import Device
from .messages import ACTIVATE_ACCEPT, PDN_REQUEST, SERVICE_REQUEST
from .nas import Nas, guti_in, response_in, with_guti, with_response
from .network import BEGIN_MISSING, BEHIND_THE_END, OTHER_ID, RELEASED, UNNAMED, Heard, network_of
from .notices import Rounds
from .per import Broken, length_octets, number_octets
from .rows import MOST_ROWS, Row, Table, rows_given
from .trace import OF_THE_MME, OTHER, Trace
from .values import MME_ID, MOST_MME_ID, NAS_PDU, S_TMSI, joined, number_of, s_tmsi_of, split, with_tmsi

# Why a message of a device is no line of the trace.
LEFT = "on connections that their device has left"
CIPHERED = "of ciphered NAS"
NOT_IN_PROFILE = "of NAS messages that the profile has not"
NO_ROOM = f"of devices above the {MOST_ROWS} that a table takes"
# What would have been a line, if it were known whose it is and what it says.
NOT_KNOWN = (BEGIN_MISSING, BEHIND_THE_END, OTHER_ID, UNNAMED, LEFT, CIPHERED, NO_ROOM)

# The types of the NAS messages of a device that the program takes.
TAKEN = (0x41, 0x43, 0x45, 0x48, 0x53, 0x5E, 0x5F, SERVICE_REQUEST)
SECOND_BEARER = 6  # of the session management of a device the program takes a request, and an accept for this bearer


def _is_of_profile(nas: Nas) -> bool:
    """Whether the program takes the message, where there is one and its type is there."""
    if nas.session_kind:
        return nas.session_kind[1] == PDN_REQUEST or nas.session_kind == (SECOND_BEARER, ACTIVATE_ACCEPT)
    return nas.kind is None or nas.kind in TAKEN


@dataclass
class Learnt:
    """The table and the trace, what was heard in the order of the capture, and the messages that are lines, and PAGINGs that tell a notice, in their order."""

    table: Table
    trace: Trace
    heard: List[Heard]
    lines: List[Heard] = field(default_factory=list)

    def case(self) -> bytes:
        """The case text, without a schedule."""
        parts = [SUBSCRIBERS.encode(), self.table.octets(), TRACE.encode(), *(it.encode() for it in self.trace.lines)]
        return b"\n".join(it for it in parts if it) + b"\n"

    def tell_refused(self, refused: Dict[int, str]) -> None:
        """Tells in the comment before each refused line why it is refused."""
        first = self.case().split(b"\n").index(TRACE.encode()) + 2  # the number of the line behind the heading
        for line, refusal in refused.items():
            self.trace.lines[line - first - 1] += f"; refused: {refusal}"

    def told(self, refused: Dict[int, str]) -> List[str]:
        """What was learnt, in a line, a line for each device whose messages were ciphered, and how many lines the program refuses, by their refusals."""
        rows = self.table.learnt()
        made = sum(not it.is_named for it in rows)
        lines = [f"{counted(len(rows), 'subscriber')} learnt, of which {made} with an IMSI of the test network 001/01, since the capture tells none"]
        devices = {id(it.device): it.device for it in self.heard if it.device and it.device.ciphered}
        for device in devices.values():
            row, algorithm = self.table.of(device), device.algorithm
            name = "a ciphering algorithm that the capture does not tell" if algorithm is None else f"EEA{algorithm}"
            lines.append(f"device {row.imsi if row else device.imsi}: {name}, {counted(device.ciphered, 'ciphered message')} of either way cannot be read")
        names = Counter(it.split(" ")[1] for it in refused.values())
        if refused:
            told = ", ".join(f"{number} {name}" for name, number in names.items())
            lines.append(f"of the lines the program refuses {len(refused)}, as the comments before them tell: {told}")
        return lines


class _Lines:
    """Takes what was heard in order, and makes lines of a trace of it."""

    def __init__(self, table: Table, left_out: "Counter[str]") -> None:
        self.table = table
        self.trace = Trace(left_out=Counter({OF_THE_MME: 0, OTHER: 0}))
        self.trace.left_out.update(left_out)
        self.taken: List[Heard] = []
        self._rounds = Rounds()
        self._bound: Dict[Tuple[int, int], Device] = {}
        self._pairs: Dict[int, Tuple[int, int]] = {}

    def take(self, it: Heard) -> None:
        row = self.table.of(it.device) if it.device and it.is_up else None
        self._rounds.ends(row.imsi if row else None)
        why = self._why_not(it)
        if why:
            it.why = why
            self.trace.left_out[why] += 1
            self._take_notice(it)
            return
        octets, changes = self._rewritten(it)
        if self.trace.add(it.captured, it.station, octets, changes):
            self.taken.append(it)
            self._bind(it)

    def _take_notice(self, it: Heard) -> None:
        """Takes the PAGING that begins a round as a notice."""
        row = self.table.of(it.paged.whole()) if it.paged else None
        if row and self._rounds.begins(row.imsi, it.captured.association):
            self.trace.add_notice(it.captured, row.imsi)
            self.taken.append(it)

    def _why_not(self, it: Heard) -> str:
        """Why a message is no line; no text where it is one."""
        if it.kind is None or not it.kind.is_up:
            return OTHER if it.kind is None else OF_THE_MME
        if it.why or it.connection is None:
            return it.why
        device = it.device
        if device is None or self.table.of(device) is None:
            return NO_ROOM
        if not it.is_first and self._bound.get((it.connection.station, it.connection.enb_id)) is not device:
            return LEFT
        if it.nas.is_ciphered:
            return CIPHERED
        return "" if _is_of_profile(it.nas) else NOT_IN_PROFILE

    def _bind(self, it: Heard) -> None:
        """A connection is its device's until it is released, another device begins one with its number, or the device begins another one."""
        device, connection = it.device, it.connection
        if device is None or connection is None or it.kind is None:
            return
        pair = connection.station, connection.enb_id
        if it.is_first:
            before = self._pairs.get(id(device))
            if before and before != pair and self._bound.get(before) is device:
                del self._bound[before]
            self._bound[pair], self._pairs[id(device)] = device, pair
        elif it.kind.name == RELEASED:
            self._bound.pop(pair, None)

    def _rewritten(self, it: Heard) -> Tuple[bytes, List[str]]:
        """The octets with the identities of the table, and what was changed. A message that needs no change keeps its octets."""
        row = self.table.of(it.device) if it.device else None
        if row is None:
            return it.captured.message, []
        try:
            return rewritten(it, row)
        except Broken:
            return it.captured.message, []


def rewritten(it: Heard, row: Row) -> Tuple[bytes, List[str]]:
    """A message of a device with the identities of its row, and what was changed."""
    elements, changes = split(it.captured.message), []
    for at, element in enumerate(elements):
        value, change = element.value, ""
        if element.number == MME_ID:
            value, change = _with_mme_id(row, value)
        elif element.number == S_TMSI:
            value, change = _with_s_tmsi(row, value)
        elif element.number == NAS_PDU:
            value, change = _with_nas(it, row, value)
        if value != element.value:
            elements[at] = element.with_value(value)
            changes.append(change)
    return (joined(it.captured.message, elements) if changes else it.captured.message), changes


def _with_mme_id(row: Row, value: bytes) -> Tuple[bytes, str]:
    before = number_of(value, MOST_MME_ID)
    return (value if before == row.number else number_octets(row.number)), f"MME-UE-S1AP-ID {before} to {row.number}"


def _with_s_tmsi(row: Row, value: bytes) -> Tuple[bytes, str]:
    _, before = s_tmsi_of(value)
    return with_tmsi(value, row.tmsi), f"M-TMSI of the S-TMSI {before:08x} to {row.tmsi:08x}"


def _with_nas(it: Heard, row: Row, value: bytes) -> Tuple[bytes, str]:
    """A NAS-PDU with the row's M-TMSI in its GUTI, and with the row's response in place of one that the MME took."""
    guti, response = guti_in(it.nas), response_in(it.nas)
    if guti and guti[1] != row.tmsi:
        nas, change = with_guti(it.nas, row.tmsi), f"M-TMSI of the GUTI {guti[1]:08x} to {row.tmsi:08x}"
    elif response and row.response and response != row.response and it.vector and not it.vector.is_rejected:
        nas, change = with_response(it.nas, row.response), f"RES {response.hex()} to {row.response.hex()}"
    else:
        return value, ""
    return length_octets(len(nas)) + nas, change


def learn(capture: Capture, given: bytes, progress: Progress) -> Learnt:
    """What a capture tells, beside the rows that are given, which win."""
    known = {it.tmsi: it.imsi for it in rows_given(given)}
    network = network_of(capture.messages, known, progress)
    lines = _Lines(Table(given, network.devices.whole()), capture.left_out)
    for it in network.heard:
        lines.take(it)
    lines.trace.end = capture.end
    return Learnt(lines.table, lines.trace, network.heard, lines.taken)
