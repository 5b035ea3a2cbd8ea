"""Networks whose MME is not this program, as captures, with the case text that each tells, worked out here message by message.

The MME numbers its UEs from 16777216 on, gives a new GUTI at each attach and update, and does more than the profile has. Each message of a base station is
written twice: as the network sent it, and with the identities of the profile's table.
"""

from __future__ import annotations

import json
import struct
from dataclasses import dataclass, field
from typing import Dict, List, NamedTuple, Optional, Tuple

from crafted import MME, Record, data, ethernet, ipv4, pcap, sctp, whole

FIRST_MME_ID = 16777216
PLMN = "02f839"
RADIO_INACTIVITY, NORMAL, DETACHED = "0280", "20", "24"
AUTN = "22" * 16


def opened(octets: bytes) -> bytes:
    size = len(octets)
    return (bytes([size]) if size < 128 else struct.pack(">H", 0x8000 | size)) + octets


def number(value: int) -> bytes:
    octets = value.to_bytes(max(1, (value.bit_length() + 7) // 8), "big")
    return bytes([(len(octets) - 1) * 64]) + octets


def s1ap(code: str, *elements: Tuple[int, str]) -> bytes:
    """A message of IEs, all of them ignored where they are not understood."""
    body = b"".join(struct.pack(">HB", it, 0x40) + opened(bytes.fromhex(value)) for it, value in elements)
    return bytes.fromhex(code) + opened(b"\0" + struct.pack(">H", len(elements)) + body)


def tai(code: int) -> Tuple[int, str]:
    return 67, f"00{PLMN}{code:04x}"


CELL = 100, f"00{PLMN}00000010"
TRANSPORT_OF_ENB = 155, "0f80c0a80101"  # an IE that the profile passes over


class Ids(NamedTuple):
    """What names a connection and a device in a message: the numbers of the MME and of the base station, the M-TMSI, the response."""

    mme: int
    enb: int
    tmsi: int
    response: str = ""

    def pair(self) -> List[Tuple[int, str]]:
        return [(0, number(self.mme).hex()), (8, number(self.enb).hex())]


def nas_pdu(nas: str) -> Tuple[int, str]:
    return 26, opened(bytes.fromhex(nas)).hex()


def protected(kind: int, nas: str) -> str:
    """A NAS message behind a code of authentication and a number."""
    return f"{kind}7aabbccdd05{nas}"


def guti(ids: Ids) -> str:
    return f"0bf6{PLMN}800101{ids.tmsi:08x}"


def first(ids: Ids, nas: str, area: int = 1, has_s_tmsi: bool = False) -> bytes:
    s_tmsi = [(96, f"0040{ids.tmsi:08x}")] if has_s_tmsi else []
    return s1ap("000c40", (8, number(ids.enb).hex()), nas_pdu(nas), tai(area), CELL, (134, "30"), *s_tmsi)


def up(ids: Ids, nas: str, area: int = 1) -> bytes:
    return s1ap("000d40", *ids.pair(), nas_pdu(nas), CELL, tai(area), TRANSPORT_OF_ENB)


def down(ids: Ids, nas: str) -> bytes:
    return s1ap("000b40", *ids.pair(), nas_pdu(nas))


def attach_request(identity: str) -> str:
    return f"074171{identity}05e0e0c0c00000040201d0113103e5e034"


def imsi(digits: str) -> str:
    return "08" + f"{digits[0]}9" + "".join(digits[at + 1] + digits[at] for at in range(1, 15, 2))


def context_setup(ids: Ids, row: "Row", nas: str = "", bearers: int = 1) -> bytes:
    """With the UE's rates, one E-RAB or more (of which the first has the NAS message), its algorithms, its key."""
    items = []
    for at in range(bearers):
        has_nas = nas and at == 0
        item = bytes.fromhex(f"{(0x45 if has_nas else 0x05) + at:02x}0009200f80{row.gateway}{row.teid + at:08x}")
        items.append(bytes.fromhex("003400") + opened(item + (opened(bytes.fromhex(nas)) if has_nas else b"")))
    rates = f"18{row.down:08x}60{row.up:08x}"
    return s1ap("000900", *ids.pair(), (66, rates), (24, f"{bearers - 1:02x}" + b"".join(items).hex()), (107, "18000c0000"), (73, row.key))


def context_done(ids: Ids, bearers: int = 1) -> bytes:
    items = b"".join(bytes.fromhex("003240") + opened(bytes.fromhex(f"{0x0A + 2 * at:02x}1fc0a80002{at + 2:08x}")) for at in range(bearers))
    return s1ap("200900", *ids.pair(), (51, f"{bearers - 1:02x}{items.hex()}"))


def capability(ids: Ids, octets: int) -> bytes:
    return s1ap("001640", *ids.pair(), (74, opened(bytes(octets)).hex()))


def release_asked(ids: Ids) -> bytes:
    return s1ap("001240", *ids.pair(), (2, RADIO_INACTIVITY))


def release_command(ids: Ids, cause: str) -> bytes:
    mme, enb = number(ids.mme), number(ids.enb)
    return s1ap("001700", (99, (bytes([mme[0] >> 4]) + mme[1:] + enb).hex()), (2, cause))


def released(ids: Ids) -> bytes:
    return s1ap("201700", *ids.pair())


@dataclass(frozen=True)
class Row:
    """What the network has of a device."""

    imsi: str
    rand: str
    response: str
    key: str
    name: str
    address: str
    gateway: str = "c0a80001"
    teid: int = 0x100
    down: int = 50000000
    up: int = 20000000

    def accept(self, tmsi: int, areas: str = "") -> str:
        """An ATTACH ACCEPT with a timer, a list of areas, a GUTI and T3402."""
        labels = "".join(f"{len(it):02x}{it.encode().hex()}" for it in self.name.split("."))
        bearer = f"5201c10109{len(labels) // 2:02x}{labels}0501{self.address}5e04fefe4a4a"
        listed = areas or f"00{PLMN}0001"
        return f"07420149{len(listed) // 2:02x}{listed}{len(bearer) // 2:04x}{bearer}500bf6{PLMN}800101{tmsi:08x}1721"


@dataclass
class Story:
    """What a network's base stations and its MME sent, and for each message of a base station that is a line what stands in the case text."""

    frames: List[Tuple[bool, int, bytes]] = field(default_factory=list)
    lines: List[str] = field(default_factory=list)
    subscribers: List[str] = field(default_factory=list)

    def case(self) -> str:
        """The case text that is to come of the capture."""
        return "\n".join(["[subscribers]", *self.subscribers, "[trace]", *self.lines, ""])

    def learns(self, origin: str, row: "Row", tmsi: int, **columns: object) -> None:
        """The next row of the table with the comment before it: what the network has of the device, its M-TMSI, and what is otherwise."""
        values: Dict[str, object] = {"imsi": row.imsi, "tmsi": tmsi, "rand": row.rand, "autn": AUTN, "res": row.response, "key": row.key}
        values.update({"apn": row.name.split(".")[0], "ip": row.address, "sgw": row.gateway, "teid": row.teid})
        values.update({"ambr_dl": row.down, "ambr_ul": row.up, "forbidden": [], **columns})
        self.subscribers += [f"# learnt: {origin}", json.dumps(values, separators=(",", ":"))]

    def sends(self, station: int, message: bytes, profile: Optional[bytes] = None, changes: str = "") -> None:
        """A base station's message; where it is a line, that line's octets, and what is told to be changed."""
        self.frames.append((True, station, message))
        if profile is not None:
            at = len(self.frames)
            self.lines += [f"# frame {at} at {at - 1}.000000000{changes}", f"{station} {profile.hex()}"]

    def hears(self, station: int, message: bytes) -> None:
        self.frames.append((False, station, message))

    def records(self) -> List[Record]:
        counts: Dict[Tuple[bool, int], int] = {}
        records = []
        for is_up, station, message in self.frames:
            at = counts.get((is_up, station), 0)
            counts[is_up, station] = at + 1
            address = f"192.0.2.{station}"
            source, target = (address, MME) if is_up else (MME, address)
            records.append(whole(ethernet(ipv4(sctp(data(at, at, message), tag=station + (0 if is_up else 256)), source, target))))
        return records

    def pcap(self) -> bytes:
        """The capture: a frame each second."""
        return b"".join([pcap([])] + [struct.pack("<IIII", at, 0, len(it.octets), len(it.octets)) + it.octets for at, it in enumerate(self.records())])


class Ue:
    """A device on a connection: as the network names it, and as the profile's table does."""

    def __init__(self, story: Story, row: Row, station: int, network: Ids, profile: Ids) -> None:
        self.story, self.row, self.station, self.network, self.profile = story, row, station, network, profile

    def connects(self, station: int, mme_id: int, enb_id: int) -> None:
        self.station = station
        self.network, self.profile = self.network._replace(mme=mme_id, enb=enb_id), self.profile._replace(enb=enb_id)

    def given(self, tmsi: int) -> None:
        self.network = self.network._replace(tmsi=tmsi)

    def changes(self, is_first: bool, has_tmsi: str, has_response: bool = False) -> str:
        told = ""
        if not is_first:
            told += f"; MME-UE-S1AP-ID {self.network.mme} to {self.profile.mme}"
        if has_response and self.network.response != self.profile.response:
            told += f"; RES {self.network.response} to {self.profile.response}"
        if has_tmsi and self.network.tmsi != self.profile.tmsi:
            told += f"; M-TMSI of the {has_tmsi} {self.network.tmsi:08x} to {self.profile.tmsi:08x}"
        return told

    def begins(self, nas: str, area: int = 1) -> None:
        """An INITIAL UE MESSAGE with a NAS message in which {guti} stands for the GUTI."""
        sent, told = (first(it, nas.replace("{guti}", guti(it)), area) for it in (self.network, self.profile))
        self.story.sends(self.station, sent, told, self.changes(True, "GUTI" if "{guti}" in nas else ""))

    def asks_for_service(self) -> None:
        sent, told = (first(it, "c7a0b1c2", 1, True) for it in (self.network, self.profile))
        self.story.sends(self.station, sent, told, self.changes(True, "S-TMSI"))

    def says(self, nas: str, is_line: bool = True) -> None:
        """An UPLINK NAS TRANSPORT, in whose NAS message {res} and {guti} stand for the response with its length and the GUTI."""
        sent, told = (up(it, nas.replace("{res}", f"{len(it.response) // 2:02x}{it.response}").replace("{guti}", guti(it))) for it in (self.network, self.profile))
        changes = self.changes(False, "GUTI" if "{guti}" in nas else "", "{res}" in nas)
        self.story.sends(self.station, sent, told if is_line else None, changes)

    def tells(self, make, *more, is_line: bool = True) -> None:
        """Another message of its base station."""
        self.story.sends(self.station, make(self.network, *more), make(self.profile, *more) if is_line else None, self.changes(False, ""))

    def hears(self, nas: str) -> None:
        self.story.hears(self.station, down(self.network, nas))

    def is_asked(self, make, *more) -> None:
        self.story.hears(self.station, make(self.network, *more))

    def authenticates(self) -> None:
        """Up to the SECURITY MODE COMPLETE, which is of header type 4."""
        self.is_authenticated()
        self.hears(protected(3, "075d020005e0e0c0c000"))
        self.says(protected(4, "075e"))

    def is_authenticated(self, times: int = 1) -> None:
        for _ in range(times):
            self.hears(f"075200{self.row.rand}10{AUTN}")
        self.says("0753{res}")

    def is_accepted(self, tmsi: int, radio: int = 300, bearers: int = 1) -> None:
        """From the ATTACH ACCEPT of header type 2 to the EMM INFORMATION behind the ATTACH COMPLETE."""
        self.is_asked(context_setup, self.row, protected(2, self.row.accept(tmsi)), bearers)
        self.given(tmsi)
        self.tells(context_done, bearers)
        self.tells(capability, radio)
        self.says(protected(2, "074300035200c2"))
        self.hears(protected(2, "0761430483c0e0f0"))

    def rests(self) -> None:
        self.tells(release_asked)
        self.is_released(RADIO_INACTIVITY)

    def is_released(self, cause: str) -> None:
        self.is_asked(release_command, cause)
        self.tells(released)


def ue(story: Story, row: Row, profile_number: int, profile_tmsi: int, response: str = "") -> Ue:
    """A device that the table has by this number and M-TMSI, before its first connection."""
    return Ue(story, row, 0, Ids(0, 0, 0, row.response), Ids(profile_number, 0, profile_tmsi, response or row.response))


FIRST = Row("208930000000001", "a1" * 16, "a1a2a3a4a5a6a7a8", "a0" * 32, "internet", "0a2d0001", teid=0x101)
SECOND = Row("208930000000002", "b1" * 16, "b1b2b3b4b5b6b7b8", "b0" * 32, "internet.mnc093.mcc208.gprs", "0a2d0002", teid=0x102)
THIRD = Row("208930000000003", "c1" * 16, "c1c2c3c4", "c0" * 32, "ims", "0a2d0003", teid=0x103)


def three_devices() -> Story:
    """Three devices at two base stations."""
    story = Story()
    one, two, three = ue(story, FIRST, 1, 0xC0000001), ue(story, SECOND, 2, 0xC0000002), ue(story, THIRD, 3, 0xC0000004)
    one.connects(1, FIRST_MME_ID, 1)
    one.begins(attach_request(imsi(FIRST.imsi)))
    two.connects(1, FIRST_MME_ID + 1, 2)
    two.begins(attach_request(imsi(SECOND.imsi)))
    one.authenticates()
    two.is_authenticated(times=2)  # the MME repeats its AUTHENTICATION REQUEST
    two.hears(protected(3, "075d020005e0e0c0c000"))
    two.says(protected(4, "075e"))
    one.is_accepted(0xC0000001)
    two.is_accepted(0xC0000002, bearers=2)
    three.connects(2, FIRST_MME_ID + 2, 1)
    three.begins(attach_request(imsi(THIRD.imsi)), area=9)
    three.hears("07440c")
    three.is_released(NORMAL)
    three.connects(2, FIRST_MME_ID + 3, 2)
    three.begins(attach_request(imsi(THIRD.imsi)))
    three.authenticates()
    three.is_accepted(0xC0000004, radio=20)
    come_back(one, two)
    context = "key apn ip sgw teid ambr_dl ambr_ul"
    story.learns(f"imsi from frame 1, tmsi {context} from frame 12, rand autn from frame 3, res from frame 4; made up: nothing", FIRST, 0xC0000001)
    story.learns(f"imsi from frame 2, tmsi {context} from frame 17, rand autn from frame 7, res from frame 9; made up: nothing", SECOND, 0xC0000002)
    origin = f"imsi from frame 22, tmsi {context} from frame 31, rand autn from frame 27, res from frame 28, forbidden from frame 23; made up: nothing"
    story.learns(origin, THIRD, 0xC0000004, forbidden=[9])
    return story


def come_back(one: Ue, two: Ue) -> None:
    """Two attached devices rest and come back: one detaches, the other is rejected, updates its area, and has service."""
    one.rests()
    two.rests()
    one.connects(2, FIRST_MME_ID + 4, 3)
    one.asks_for_service()
    one.is_asked(context_setup, FIRST)
    one.tells(context_done)
    one.says(protected(2, "074501{guti}"))  # the MME forgets its DETACH ACCEPT
    one.is_released(DETACHED)
    two.connects(2, FIRST_MME_ID + 5, 4)
    two.asks_for_service()
    two.hears("074e09")
    two.is_released(NORMAL)
    two.connects(1, FIRST_MME_ID + 6, 5)
    two.begins(protected(1, "074800{guti}"))
    two.hears(protected(2, f"07490050{guti(Ids(0, 0, 0xC0000003))}"))
    two.given(0xC0000003)
    two.says(protected(2, "074a"), is_line=False)
    two.is_released(NORMAL)
    two.connects(1, FIRST_MME_ID + 7, 6)
    two.asks_for_service()
    two.is_asked(context_setup, SECOND)


FOURTH = Row("208930000000004", "d1" * 16, "d1d2d3d4d5d6d7d8", "d0" * 32, "internet", "0a2d0004", teid=0x104)
FIFTH = Row("", "e1" * 16, "e1e2e3e4e5e6e7e8", "e0" * 32, "internet", "0a2d0005", teid=0x105)


def strangers() -> Story:
    """Devices that come by a GUTI that the capture did not see given: one says its IMSI when it is asked, the other is not asked; and two old connections."""
    story = Story()
    four, five = ue(story, FOURTH, 1, 0xAAAA0001), ue(story, FIFTH, 2, 0xAAAA0002)
    four.given(0xAAAA0001)
    five.given(0xAAAA0002)
    old = Ids(77, 9, 0)
    story.sends(1, release_asked(old))  # of a connection that was there before
    story.hears(1, release_command(old, RADIO_INACTIVITY))
    story.sends(1, released(old))
    four.connects(1, FIRST_MME_ID, 1)
    four.begins(protected(1, attach_request("{guti}")))
    four.hears("075501")
    four.says(f"0756{imsi(FOURTH.imsi)}", is_line=False)
    four.authenticates()
    four.is_accepted(0xC0000001)
    five.connects(1, FIRST_MME_ID + 1, 2)
    five.begins(protected(1, attach_request("{guti}")))
    five.authenticates()
    five.is_accepted(0xC0000002)
    four.rests()
    four.connects(1, FIRST_MME_ID + 2, 3)
    four.begins(attach_request(imsi(FOURTH.imsi)))
    another = Row(FOURTH.imsi, "d9" * 16, "d9d9d9d9", "dd" * 32, "internet", "0a2d0044", teid=0x204)
    four.row, four.network = another, four.network._replace(response=another.response)
    four.authenticates()
    four.is_accepted(0xC0000003, radio=100)
    context = "key apn ip sgw teid ambr_dl ambr_ul"
    story.learns(f"imsi from frame 6, tmsi from frame 4, rand autn from frame 7, res from frame 8, {context} from frame 11; made up: nothing", FOURTH, 0xAAAA0001)
    origin = f"tmsi from frame 16, rand autn from frame 17, res from frame 18, {context} from frame 21; made up: imsi"
    story.learns(origin, FIFTH, 0xAAAA0002, imsi="001010000000002")
    return story


SIXTH = Row("208930000000006", "f1" * 16, "f1f2f3f4f5f6f7f8", "f0" * 32, "internet", "0a2d0006", teid=0x106)


def ciphered() -> Story:
    """A device whose NAS messages are ciphered with EEA2, once that is agreed."""
    story = Story()
    six = ue(story, SIXTH, 1, 1)
    six.connects(1, FIRST_MME_ID, 1)
    six.begins(attach_request(imsi(SIXTH.imsi)))
    six.is_authenticated()
    six.hears(protected(3, "075d220005e0e0c0c000"))
    six.says(protected(4, "9f3c"), is_line=False)
    six.is_asked(context_setup, SIXTH, protected(2, "5be1" * 40))
    six.tells(context_done)
    six.says(protected(2, "1b2c3d4e5f60"), is_line=False)
    six.tells(release_asked)
    six.is_released(RADIO_INACTIVITY)
    origin = "imsi from frame 1, rand autn from frame 2, res from frame 3, key sgw teid ambr_dl ambr_ul from frame 6; made up: tmsi apn ip"
    story.learns(origin, SIXTH, 1, ip="0a2d0001")
    return story


NETWORKS = {"three_devices": three_devices, "strangers": strangers, "ciphered": ciphered}
