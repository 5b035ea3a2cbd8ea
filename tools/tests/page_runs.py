"""Runs made for tests of the page, by the documented formats: of any size, and what their counts are is known beforehand."""

from __future__ import annotations

import json
from dataclasses import dataclass, field
from typing import Dict, List, Tuple

AUTHENTICATION_RESPONSE = "0b075308a0a1a2a3a4a5a6a7"
AUTHENTICATION_REQUEST = "24075200000102030405060708090a0b0c0d0e0f10101112131415161718191a1b1c1d1e1f"
CELL_AND_AREA = [(100, "0002f83900000010"), (67, "0002f8390001")]
# What happens to each message, and what each event comes to; V is the version before, N the message.
COURSE = [
    ("send {d} {n}", "sent"), ("take 1 {d} {n}", "taken"), ("take 2 {d} {n}", "taken"), ("read 1", "ready {v}"), ("read 2", "ready {v}"),
    ("write 1", "committed {n}"), ("write 2", "stale {v} {n}"), ("reply {d} {n}", "acked {n}"),
    ("push {d} down {n}", "pushed"), ("effect {d} down {n}", "accepted {n}"), ("effect {d} down {n}", "repeat {n}"), ("settle {d} down {n}", "settled {n}"),
]


def number_value(number: int) -> str:
    """A number of up to four octets as S1AP writes it: the count of its octets less one in two bits, and its octets."""
    octets = number.to_bytes(max(1, (number.bit_length() + 7) // 8), "big")
    return f"{(len(octets) - 1) << 6:02x}{octets.hex()}"


def pdu(begins: str, elements: List[Tuple[int, str]]) -> str:
    """A message of S1AP: what it begins with, its length, and its IEs with the criticality reject."""

    def length(digits: str) -> str:
        number = len(digits) // 2
        return f"{number:02x}" if number < 128 else f"{number | 0x8000:04x}"

    body = f"00{len(elements):04x}" + "".join(f"{it:04x}00{length(value)}{value}" for it, value in elements)
    return begins + length(body) + body


def imsi_of(device: int) -> str:
    return f"{208930000000000 + device}"


def attach_request(device: int) -> str:
    digits = imsi_of(device)
    identity = f"{digits[0]}9" + "".join(digits[at + 1] + digits[at] for at in range(1, 15, 2))
    nas = f"074171{len(identity) // 2:02x}{identity}02e0e000040201d011"
    return pdu("000c40", [(8, number_value(device)), (26, f"{len(nas) // 2:02x}{nas}"), (67, "0002f8390001"), (100, "0002f83900000010"), (134, "30")])


def later_message(device: int) -> str:
    return pdu("000d40", [(0, number_value(device)), (8, number_value(device)), (26, AUTHENTICATION_RESPONSE), *CELL_AND_AREA])


def down(device: int) -> str:
    return pdu("000b40", [(0, number_value(device)), (8, number_value(device)), (26, AUTHENTICATION_REQUEST)])


def subscriber(device: int) -> str:
    row = {"imsi": imsi_of(device), "tmsi": device, "rand": "00" * 16, "autn": "11" * 16, "res": "a0a1a2a3a4a5a6a7", "key": "11" * 32}
    row.update({"apn": "internet", "ip": "0a2d0001", "sgw": "c0a80001", "teid": 1, "ambr_dl": 1, "ambr_ul": 1, "forbidden": []})
    return json.dumps(row)


@dataclass
class MadeRun:
    """A case text and its transcript of so many devices and messages of each; void events fill it up to a number of events."""

    devices: int
    messages: int
    events: int
    counts: Dict[str, int] = field(default_factory=dict)

    def trace(self) -> List[str]:
        return [f"{1 + d % 7} {attach_request(d) if n == 1 else later_message(d)}" for n in range(1, self.messages + 1) for d in range(1, self.devices + 1)]

    def turns(self) -> List[Tuple[str, str]]:
        """The events in order, each with its answer."""
        turns = []
        for n in range(1, self.messages + 1):
            for d in range(1, self.devices + 1):
                turns += [(event.format(d=d, n=n), answer.format(n=n, v=n - 1)) for event, answer in COURSE]
        turns += [("send 1 4000000000", "void window")] * (self.events - len(turns))
        for _, answer in turns:
            kind = answer.split(" ")[0]
            self.counts[kind] = self.counts.get(kind, 0) + 1
        return turns

    def texts(self) -> Tuple[bytes, bytes]:
        """The case text and the printed text."""
        turns = self.turns()
        rows = [subscriber(it) for it in range(1, self.devices + 1)]
        case = ["[subscribers]", *rows, "[trace]", *self.trace(), "[schedule]", *(event for event, _ in turns)]
        printed = [f"event {number}: {answer}" for number, (_, answer) in enumerate(turns, 1)]
        for d in range(1, self.devices + 1):
            printed.append(f"device {imsi_of(d)} messages {self.messages} steps {self.messages}")
            printed += [f"down {n} {1 + d % 7} {down(d)}" for n in range(1, self.messages + 1)]
            stage = "connected" if d % 3 else "idle"
            printed.append(f"session {stage} link {f'1/{d}' if d % 3 else 'off'} area 02f839 1 bearer made radio 0")
        return ("\n".join(case) + "\n").encode(), ("\n".join(printed) + "\n").encode()
