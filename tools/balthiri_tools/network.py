"""What a capture tells of a network: the connection and the device of each message, and what its MME gave the device.

An S1 connection begins with an INITIAL UE MESSAGE, which has a number of the base station. The number of the MME is that of the first message behind it.
"""

from __future__ import annotations

from dataclasses import dataclass
from typing import Dict, List, Optional, Set, Tuple

from . import nas as types
from .command import Progress
from .devices import Device, Devices, Guti, Vector
from .messages import SERVICE_REQUEST, Kind, elements_of, kind_of, name_of, nas_pdu_of
from .nas import BearerAsked, Nas, accepted, bearer_asked, guti_in, imsi_in, nas_read, response_in
from .notices import paged_by
from .per import Broken
from .sctp import Captured, Key
from .stations import stations_by_way, stations_of
from .values import BEARERS, BIT_RATES, KEY, S_TMSI, TAI, area_of, bearers_of, bit_rates, ids_of, s_tmsi_of

Elements = Dict[int, bytes]
KEY_OCTETS = 32
FIRST, RELEASED = "InitialUEMessage", "UEContextReleaseComplete"
# Why a message of a base station has no connection with a device.
BEGIN_MISSING = "of connections whose begin is not in the capture"
BEHIND_THE_END = "on connections behind their release"
OTHER_ID = "with another MME-UE-S1AP-ID than their connection's"
UNNAMED = "of connections whose device is named by no IMSI, GUTI or S-TMSI"


@dataclass
class Connection:
    """An S1 connection: its base station with its number there, its device, the MME's number; the area of its last message, its last authentication."""

    station: int
    enb_id: int
    device: Optional[Device]
    mme_id: Optional[int] = None
    area: int = 0
    vector: Optional[Vector] = None


@dataclass
class Heard:
    """A message of the capture: what it is, who sent it, its connection, or why it has none, the NAS message in it, and which authentication that answers.

    A PAGING has no connection, but the device that it is for, where that has come before.
    """

    captured: Captured
    kind: Optional[Kind]
    is_up: bool
    station: int
    connection: Optional[Connection] = None
    why: str = ""
    nas: Nas = Nas(b"", b"")
    vector: Optional[Vector] = None
    paged: Optional[Device] = None

    @property
    def device(self) -> Optional[Device]:
        return self.connection.device.whole() if self.connection and self.connection.device else None

    @property
    def is_first(self) -> bool:
        return self.kind is not None and self.kind.name == FIRST

    @property
    def name(self) -> str:
        """The NAS message in it, where that can be read, or else the message of S1AP."""
        if not self.nas.is_ciphered or self.kind is None:
            return name_of(self.captured.message)
        return "ciphered NAS message" if self.kind.name.endswith("NASTransport") else self.kind.name


class Network:
    """Hears the messages of a capture in order, and learns of each device what they tell."""

    def __init__(self, known: Dict[int, str]) -> None:
        self.devices = Devices(known)
        self.heard: List[Heard] = []
        self._open: Dict[Tuple[int, int], Connection] = {}
        self._by_mme_id: Dict[Tuple[int, int], Connection] = {}
        self._released: Set[Tuple[int, int]] = set()

    def hear(self, it: Heard) -> None:
        self.heard.append(it)
        elements = elements_of(it.captured.message)
        try:
            mme_id, enb_id = ids_of(elements)
        except Broken:
            return
        if mme_id is None and enb_id is None:
            it.paged = self.devices.found(paged_by(it.captured.message))
            return
        if it.is_first and enb_id is not None:
            self._begin(it, enb_id, elements)
        else:
            self._go_on(it, mme_id, enb_id)
        if it.connection:
            device = it.device
            it.nas = nas_read(nas_pdu_of(elements), device.algorithm if device else None)
            if device:
                self._learn(it, it.connection, device, elements)
        if it.kind and it.kind.name == RELEASED and it.connection:
            self._end(it.connection)

    def _begin(self, it: Heard, enb_id: int, elements: Elements) -> None:
        it.nas = nas_read(nas_pdu_of(elements), None)
        connection = Connection(it.station, enb_id, self._device_of(it, elements))
        it.connection = connection
        it.why = "" if connection.device else UNNAMED
        self._open[it.station, enb_id] = connection

    def _device_of(self, it: Heard, elements: Elements) -> Optional[Device]:
        """The device of a message that begins a connection, by what it says of itself."""
        frame, imsi, guti = it.captured.frame, imsi_in(it.nas), guti_in(it.nas)
        if imsi:
            return self.devices.by_imsi(imsi, frame)
        if it.nas.kind == SERVICE_REQUEST and S_TMSI in elements:
            guti = _s_tmsi(elements[S_TMSI])
        return self.devices.by_guti(guti, frame) if guti else None

    def _go_on(self, it: Heard, mme_id: Optional[int], enb_id: Optional[int]) -> None:
        found = self._by_mme_id.get((it.station, mme_id or 0)) if enb_id is None else self._open.get((it.station, enb_id))
        if found is None:
            it.why = BEHIND_THE_END if (it.station, enb_id) in self._released else BEGIN_MISSING
        elif mme_id is not None and found.mme_id not in (None, mme_id):
            it.why = OTHER_ID
        else:
            it.connection, it.why = found, "" if found.device else UNNAMED
            if found.mme_id is None and mme_id is not None:
                found.mme_id = mme_id
                self._by_mme_id[it.station, mme_id] = found

    def _end(self, connection: Connection) -> None:
        del self._open[connection.station, connection.enb_id]
        self._released.add((connection.station, connection.enb_id))
        self._by_mme_id.pop((connection.station, connection.mme_id or 0), None)

    def _learn(self, it: Heard, connection: Connection, device: Device, elements: Elements) -> None:
        frame = it.captured.frame
        if it.nas.is_ciphered:
            device.ciphered += 1
        if it.is_up:
            if TAI in elements:
                connection.area = _area(elements[TAI], connection.area)
            self._learn_of_device(it, connection, device, frame)
            return
        _learn_authentication(it.nas, connection, device, frame)
        _learn_context(elements, device, frame)
        told = accepted(it.nas)
        if told and told.guti:
            self.devices.give(device, told.guti, frame)
        _learn_connection(bearer_asked(told.bearer) if told else None, "apn", "ip", device, frame)
        _learn_connection(bearer_asked(it.nas.plain), "apn2", "ip2", device, frame)
        if it.nas.kind in types.REJECTS and it.nas.plain[2:3] == bytes([types.AREA_NOT_ALLOWED]):
            device.forbidden.setdefault(connection.area, frame)

    def _learn_of_device(self, it: Heard, connection: Connection, device: Device, frame: str) -> None:
        response = response_in(it.nas)
        if response and connection.vector:
            it.vector = connection.vector
            it.vector.response, it.vector.response_frame = response, frame
        imsi = imsi_in(it.nas)
        if imsi:
            connection.device = self.devices.named(device, imsi, frame)


def _s_tmsi(value: bytes) -> Optional[Guti]:
    try:
        return s_tmsi_of(value)
    except Broken:
        return None


def _area(value: bytes, before: int) -> int:
    try:
        return area_of(value)[1]
    except Broken:
        return before


def _learn_authentication(nas: Nas, connection: Connection, device: Device, frame: str) -> None:
    plain = nas.plain
    if nas.kind == types.AUTHENTICATION_REQUEST and len(plain) >= 36:
        connection.vector = device.asked(plain[3:19], plain[20 : 20 + plain[19]], frame)
    elif nas.kind == types.AUTHENTICATION_REJECT and connection.vector:
        connection.vector.is_rejected = True
    elif nas.kind == types.SECURITY_MODE_COMMAND and len(plain) > 2:
        device.algorithm = plain[2] >> 4 & 7


def _learn_context(elements: Elements, device: Device, frame: str) -> None:
    """What an INITIAL CONTEXT SETUP REQUEST tells of the device: its key, its rates, its gateway."""
    if BEARERS not in elements or KEY not in elements:
        return
    try:
        down, up = bit_rates(elements.get(BIT_RATES, b""))
        bearer = bearers_of(elements[BEARERS])[0]
    except Broken:
        return
    if len(elements[KEY]) == KEY_OCTETS:
        device.learn("key", elements[KEY].hex(), frame)
    device.learn("ambr_dl", down, frame)
    device.learn("ambr_ul", up, frame)
    if len(bearer.address) in (4, 20):
        device.learn("sgw", bearer.address[:4].hex(), frame)
    device.learn("teid", bearer.teid, frame)


def _learn_connection(asked: Optional[BearerAsked], name: str, address: str, device: Device, frame: str) -> None:
    """What the request of a default bearer tells of a PDN connection, by the names of its columns."""
    if asked:
        device.learn(name, asked.name, frame)
        if len(asked.address) == 4:
            device.learn(address, asked.address.hex(), frame)


def network_of(messages: "list[Captured]", known: Dict[int, str], progress: Progress) -> Network:
    """The network that these messages are of. The IMSI of rows that are known is given by their M-TMSI."""
    kinds = [kind_of(it.message) for it in messages]
    stations = stations_of([it for it, kind in zip(messages, kinds) if kind and kind.is_up])
    ways: Dict[Key, int] = stations_by_way(messages, stations)
    network = Network(known)
    for number, (it, kind) in enumerate(zip(messages, kinds), 1):
        is_up = kind.is_up if kind else it.association in stations
        network.hear(Heard(it, kind, is_up, stations[it.association] if is_up else ways.get(it.association, 0)))
        progress.at(number, len(messages))
    return network
